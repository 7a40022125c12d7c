// Who is signed in here: the token and the view, kept for this tab alone.

import { ROLES } from './rules.js';
import { dropRead, dropTyped, lastRole, rememberRole, store } from './store.js';

// A listing is refused to nobody whom the office knows; this one is short.
export const PROBE = '/files/stage/returned';

export const token = () => sessionStorage.getItem('token');

export function view() {
  const kept = sessionStorage.getItem('view');
  return ROLES.includes(kept) ? kept : lastRole() ?? 'public';
}

// Which tabs belong together: those of one sign-in.
export const group = () => sessionStorage.getItem('group');

export function setView(view) {
  sessionStorage.setItem('view', view);
  rememberRole(view);
}

// The mark of a token, by which nobody can sign in. Where the browser makes none, nobody is the same as another.
async function markOf(token) {
  if (crypto.subtle === undefined) return Symbol('unknown');
  return new Uint8Array(await crypto.subtle.digest('SHA-256', new TextEncoder().encode(token))).join();
}

if (token() !== null) markOf(token()).then(mark => { store.owner ??= mark; });

// Who signs in behind somebody whom the page signed out finds what was typed only where it is the same person.
export async function signIn(token, view, group = String(Math.random())) {
  const mark = await markOf(token);
  if (store.owner !== null && store.owner !== mark) dropTyped();
  store.owner = mark;
  sessionStorage.setItem('token', token);
  sessionStorage.setItem('group', group);
  setView(view);
}

// `keepsTyped` says that what was typed is found again by who signs in next: by the same person, or, where the office
// didn't know the token any more, by whoever it is.
export function signOut({ keepsTyped = false, byAnybody = false } = {}) {
  sessionStorage.clear();
  dropRead();
  if (!keepsTyped) dropTyped();
  if (byAnybody) store.owner = null;
}
