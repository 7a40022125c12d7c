// A tab that is opened by a link of a signed-in one is signed in as that one is, and both sign out together. Another tab
// learns nothing: only for a link that was just opened here is there an answer.

import { group, token, view } from './session.js';

const OPENING = 20_000; // Milliseconds in which a tab that was opened has to ask.
const PATIENCE = 250; // Milliseconds that a new tab waits for an answer.
const LINK = 'a[href^="#/"]';

const channel = 'BroadcastChannel' in globalThis ? new BroadcastChannel('permit') : null;

// Answers the tabs that are opened from here; `signedOut` is called where a tab of the same sign-in signed out.
export function answerNewTabs(signedOut) {
  let opened = null;
  const opens = event => {
    const link = event.target.closest?.(LINK);
    if (link && (event.type !== 'click' || event.ctrlKey || event.metaKey || event.shiftKey)) {
      opened = { hash: link.getAttribute('href'), until: Date.now() + OPENING };
    }
  };
  for (const event of ['click', 'auxclick', 'contextmenu']) document.addEventListener(event, opens, { capture: true });
  channel?.addEventListener('message', ({ data }) => {
    if (data.out !== undefined && data.out === group()) signedOut();
    if (data.asks === undefined || data.asks !== opened?.hash || Date.now() > opened.until || token() === null) return;
    opened = null;
    channel.postMessage({ to: data.me, token: token(), view: view(), group: group() });
  });
}

export const tellSignedOut = which => channel?.postMessage({ out: which });

// Who is signed in at the tab that opened this one, or null.
export function askOpener() {
  if (channel === null) return Promise.resolve(null);
  const me = String(Math.random());
  return new Promise(told => {
    const hear = ({ data }) => { if (data.to === me) told(data); };
    channel.addEventListener('message', hear);
    channel.postMessage({ asks: location.hash, me });
    setTimeout(() => {
      channel.removeEventListener('message', hear);
      told(null);
    }, PATIENCE);
  });
}
