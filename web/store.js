// What outlives a view, in this one place. Who signs out leaves none of what was read or typed.

import { ROLES } from './rules.js';

const signedIn = () => ({
  lists: new Map(), // Lists that were read, by their path: the files, and when they were read.
  parcels: new Map(), // Parcels by number, with their lot or with the refusal to show it.
  tops: new Map(), // How far a list is scrolled, by its address.
  texts: new WeakMap(), // What a file is looked for by, of each file once, since there may be very many.
  sentAgain: new Map(), // By file the day on which its plans were sent again, or null.
  trail: [], // The numbers of the files of the list that was looked at last, in its order.
});

export const store = {
  ...signedIn(),
  drafts: new Map(), // What was typed and not yet accepted, by the path and the key of a field.
  owner: null, // Whose what was typed is: the mark of a token, by which nobody can sign in.
  isBack: false, // Whether what is shown was asked for by the browser's Back or Forward.
  day: { ahead: 0, learned: -Infinity }, // The office's day, as days ahead of the browser's.
  department: null, // What department.json says.
};

// Something was changed: what was read of it is read anew.
export const dropLists = () => store.lists.clear();

export function dropRead() {
  Object.assign(store, signedIn());
}

export function dropTyped() {
  store.drafts.clear();
  store.owner = null;
}

// What is kept for this tab alone, so that it is found again when the page is read anew.
export function keep(name, value) {
  try {
    sessionStorage.setItem(name, JSON.stringify(value));
  } catch {
    sessionStorage.removeItem(name); // There is no room for it.
  }
}

export function kept(name) {
  try {
    return JSON.parse(sessionStorage.getItem(name));
  } catch {
    return null;
  }
}

// The role that somebody signed in with here last: it names nobody, and stays.
export const lastRole = () => {
  const role = localStorage.getItem('role');
  return ROLES.includes(role) ? role : null;
};

export const rememberRole = role => localStorage.setItem('role', role);

// The lists that were saved by a name stay in the browser: what they narrow to, and no file.
export function savedLists() {
  try {
    const lists = JSON.parse(localStorage.getItem('lists'));
    return Array.isArray(lists) ? lists.filter(({ name, hash }) => typeof name === 'string' && /^#\/files/.test(hash)) : [];
  } catch {
    return [];
  }
}

export const saveLists = lists => (lists.length === 0 ? localStorage.removeItem('lists') : localStorage.setItem('lists', JSON.stringify(lists)));
