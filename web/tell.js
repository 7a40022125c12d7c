// The message at the top of the page, which is read out: what was done, with what comes next. It stays until the reader
// goes elsewhere, sends something else or dismisses it.

import { button, el } from './dom.js';

// `more` are links and buttons that lead on from it.
export function tell(words, more = []) {
  const place = document.getElementById('said');
  if (words === '') return place.replaceChildren();
  const dismiss = button('Dismiss', () => {
    tell('');
    document.querySelector('main h1')?.focus();
  });
  place.replaceChildren(el('p', { class: 'words' }, words), el('p', { class: 'actions' }, more, dismiss));
}
