// Signs out who does nothing for 15 minutes, and says so a minute before.

import { el } from './dom.js';
import { token } from './session.js';

const MINUTE = 60_000;
const IDLE = 15 * MINUTE;
const WARNED = IDLE - MINUTE;

// `signOut` is called once the time is over. The clock is looked at, since a machine may have slept meanwhile. The warning
// is read out and takes no focus; only its button dismisses it.
export function watchIdleness(signOut) {
  let lastUse = Date.now();
  let warning = null;

  function use() {
    lastUse = Date.now();
    warning?.remove();
    warning = null;
  }

  function warn() {
    if (warning !== null) return;
    warning = el('div', { class: 'warning', role: 'alert' },
      el('p', {}, el('strong', {}, 'You will be signed out in a minute. '),
        'Nothing was done here for 14 minutes. What you have typed is kept for you in this tab.'),
      el('p', { class: 'actions' }, el('button', { type: 'button', onclick: use }, 'Stay signed in')));
    document.body.append(warning);
  }

  for (const event of ['pointerdown', 'keydown', 'wheel', 'touchmove']) {
    addEventListener(event, () => { if (warning === null && Date.now() - lastUse < IDLE) use(); }, { passive: true, capture: true });
  }
  setInterval(() => {
    if (token() === null) use();
    else if (Date.now() - lastUse >= IDLE) {
      use();
      signOut();
    } else if (Date.now() - lastUse >= WARNED) warn();
  }, 1000);
}
