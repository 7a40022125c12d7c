// Lists that a reader saved by a name: each is the address of a narrowed list, kept in this browser.

import { button, el, freshId } from './dom.js';
import { savedLists, saveLists } from './store.js';

const MOST = 12;

function entry({ name, hash }, remove) {
  return el('li', {}, el('a', { href: hash }, name), ' ', el('button', { type: 'button', class: 'why', 'aria-label': `Remove ${name}`, onclick: remove }, 'remove'));
}

// The lists that are saved, with a field to save the one that is shown.
export function savedFilters() {
  const list = el('ul', { class: 'saved-lists' });
  const id = freshId();
  const name = el('input', { id, type: 'text', autocomplete: 'off', maxlength: '60' });
  function change(lists) {
    saveLists(lists);
    list.replaceChildren(...lists.map(saved => entry(saved, () => change(lists.filter(other => other !== saved)))));
  }
  const save = () => {
    if (name.value.trim() === '') return name.focus();
    change([...savedLists().filter(saved => saved.name !== name.value.trim()), { name: name.value.trim(), hash: location.hash }].slice(-MOST));
    name.value = '';
  };
  change(savedLists());
  return el('details', { class: 'saved unprinted' }, el('summary', {}, 'Saved lists'), list,
    el('p', { class: 'narrowing' }, el('span', { class: 'field' }, el('label', { for: id }, 'Save this list as'), name), button('Save', save)),
    el('p', { class: 'hint' }, 'A saved list is what you narrowed and how it is sorted, and stays in this browser. A bookmark of this page keeps the same.'));
}
