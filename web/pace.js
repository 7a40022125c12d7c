// Keeps what the page asks by itself below what the proxy lets an address ask: 20 requests a second, and some at once
// (limit_req in nginx.conf). What a reader asks for goes out at once and counts; what is read ahead waits for its turn.

const RATE = 12; // Requests a second, so that there is room for a second tab and for what is sent.
const AT_ONCE = 40; // So many may go out together after a pause.
const SLOWEST = 1;
const FASTER = 0.25; // Requests a second more with each answer, until the rate is reached again.

export const pause = milliseconds => new Promise(ready => { setTimeout(ready, milliseconds); });

class Pace {
  #rate = RATE;
  #room = AT_ONCE;
  #counted = performance.now();
  #stoppedUntil = 0;
  #timer = null;
  #urgent = [];
  #patient = [];

  #count() {
    const now = performance.now();
    this.#room = Math.min(AT_ONCE, this.#room + (now - this.#counted) * this.#rate / 1000);
    this.#counted = now;
  }

  // A request that doesn't wait.
  spend() {
    this.#count();
    this.#room -= 1;
  }

  // The turn of a request that can wait. What is looked at goes first, the latest before the others.
  turn(isUrgent) {
    return new Promise(ready => {
      (isUrgent ? this.#urgent : this.#patient).push(ready);
      this.#go();
    });
  }

  #go() {
    if (this.#timer !== null) return;
    this.#count();
    const now = performance.now();
    while (this.#room >= 1 && now >= this.#stoppedUntil) {
      const next = this.#urgent.pop() ?? this.#patient.shift();
      if (next === undefined) return;
      this.#room -= 1;
      next();
    }
    if (this.#urgent.length + this.#patient.length === 0) return;
    const wait = Math.max((1 - this.#room) * 1000 / this.#rate, this.#stoppedUntil - now, 10);
    this.#timer = setTimeout(() => {
      this.#timer = null;
      this.#go();
    }, wait);
  }

  // The proxy said that it was too much: nothing goes out for some seconds, and then half as much. Those that were on
  // their way together are held back together, and count once.
  slower(seconds) {
    const now = performance.now();
    if (now >= this.#stoppedUntil) this.#rate = Math.max(SLOWEST, this.#rate / 2);
    this.#room = Math.min(this.#room, 0);
    this.#stoppedUntil = Math.max(this.#stoppedUntil, now + seconds * 1000);
  }

  faster() {
    this.#count();
    this.#rate = Math.min(RATE, this.#rate + FASTER);
  }

  rate = () => this.#rate;
}

export const pace = new Pace();
