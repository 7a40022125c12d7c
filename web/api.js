// Asks the office at the root of the address that this page came from.

import { pace, pause } from './pace.js';
import { token } from './session.js';

const PATIENCE = 15_000; // Milliseconds without a sign of an answer, after which it is given up.
const BUSY_TURNS = 5; // So often a reading is tried where the proxy says that it was too much.

// An answer that is a refusal, or that never came. `word` is what is refused; a reason or a rule may stand beside it, or
// the seconds after which it may be asked again.
export class Refusal extends Error {
  constructor(word, { reason = null, rule = null, seconds = null } = {}) {
    super(word);
    Object.assign(this, { word, reason, rule, seconds });
  }
}

// Whether nobody knows if what was sent was done.
export const isUncertain = refusal => ['away', 'slow', 'unclear'].includes(refusal.word);

const typeOf = answer => (answer.headers.get('Content-Type') ?? '').split(';')[0];

// The seconds of a Retry-After, which is a number or a date (RFC 9110).
function secondsOf(text) {
  const seconds = /^\d+$/.test(text ?? '') ? Number(text) : (Date.parse(text) - Date.now()) / 1000;
  return Number.isFinite(seconds) ? Math.min(Math.max(seconds, 0), 60) : null;
}

// A refusal of the office is JSON. Others come from what stands before it.
async function refusalOf(answer) {
  if (answer.status === 429) return new Refusal('busy', { seconds: secondsOf(answer.headers.get('Retry-After')) });
  if (typeOf(answer) === 'application/json') {
    const body = await answer.json();
    return new Refusal(body.refused, body);
  }
  if (answer.status === 413) return new Refusal('large');
  return new Refusal(answer.status >= 502 && answer.status <= 504 ? 'away' : 'unclear');
}

// An answer's text. Each part that comes is a sign that it isn't given up yet.
async function textOf(answer, stillComing) {
  const reader = answer.body.pipeThrough(new TextDecoderStream()).getReader();
  const parts = [];
  for (;;) {
    const { done, value } = await reader.read();
    if (done) return parts.join('');
    stillComing();
    parts.push(value);
  }
}

async function fetched(method, path, body, bearer, { signal, stillComing }) {
  const headers = { Authorization: `Bearer ${bearer}` };
  const options = { method, headers, signal, cache: 'no-store', credentials: 'omit', redirect: 'error' };
  if (body !== undefined) options.body = JSON.stringify(body);
  const answer = await fetch(path, options);
  stillComing();
  if (!answer.ok) throw await refusalOf(answer);
  if (typeOf(answer) === 'application/json') return JSON.parse(await textOf(answer, stillComing));
  if (typeOf(answer) === 'text/plain') return await textOf(answer, stillComing);
  throw new Refusal('unclear');
}

// The answer's value, or a register's text. A refusal is thrown.
export async function ask(method, path, body, bearer = token()) {
  const hung = new AbortController();
  let timer;
  const stillComing = () => {
    clearTimeout(timer);
    timer = setTimeout(() => hung.abort(), PATIENCE);
  };
  stillComing();
  pace.spend();
  try {
    return await fetched(method, path, body, bearer, { signal: hung.signal, stillComing });
  } catch (fault) {
    if (fault.word === 'busy') pace.slower(fault.seconds ?? 1);
    if (fault instanceof Refusal) throw fault;
    if (hung.signal.aborted) throw new Refusal('slow');
    throw new Refusal(fault instanceof SyntaxError ? 'unclear' : 'away');
  } finally {
    clearTimeout(timer);
  }
}

// What a reader asked for. Where it was too much at once it is asked again, later each time.
export async function read(path) {
  for (let turn = 1; ; turn += 1) {
    try {
      return await ask('GET', path);
    } catch (refusal) {
      if (refusal.word !== 'busy' || turn === BUSY_TURNS) throw refusal;
      await pause(1000 * Math.max(refusal.seconds ?? 0, 2 ** (turn - 1)));
    }
  }
}
