// All files that I may see, to sort and to narrow.

import { COLUMNS, outOf } from './columns.js';
import { el, freshId, title } from './dom.js';
import { csvButton } from './downloads.js';
import { NAMED, filterOf, hashOf, makeReady, narrowed } from './filters.js';
import { listed, readAt } from './lists.js';
import { pace } from './pace.js';
import { learnParcels } from './parcels.js';
import { savedFilters } from './saved.js';
import { store } from './store.js';
import { makeTable } from './table.js';
import { WHY_MISSING } from './view-waiting.js';
import { KINDS, STAGES, count, plural } from './words.js';

const { id, kind, description, stage, parcel, applicant, filed, reviewer, inspector, deadline } = COLUMNS;
const SHOWN = [id, parcel, kind, description, stage, filed, reviewer, inspector, deadline];
const OUT = [...SHOWN, applicant];

const NOW_AND_THEN = 3000; // Milliseconds.

const timeFormat = new Intl.DateTimeFormat(undefined, { timeStyle: 'short' });

function labelled(label, control) {
  control.id = freshId();
  return el('div', { class: 'field' }, el('label', { for: control.id }, label), control);
}

function chooser(words, chosen, changed) {
  const options = Object.entries(words).map(([value, name]) => el('option', { value, selected: value === chosen }, name));
  return el('select', { onchange: event => changed(event.target.value) }, el('option', { value: '' }, 'All'), options);
}

// Where many addresses are still to come, a search by them finds only some: this says so.
function addressNode(all, isShown, again) {
  const node = el('p', { class: 'hint reading' });
  learnParcels(all.map(file => file.parcel), isShown, (done, of) => {
    const minutes = Math.ceil((of - done) / pace.rate() / 60);
    node.textContent = done === of ? '' : `Addresses: ${count(done)} of ${count(of)} are read, the rest within about ${plural(minutes, 'minute')}. `
      + 'A search by an address finds only those that are read.';
    again(done === of);
  });
  return node;
}

// The list follows what is typed, a moment behind it.
function searchField(text, narrow) {
  let waiting;
  const field = el('input', { type: 'search', value: text, autocomplete: 'off' });
  field.addEventListener('input', () => {
    clearTimeout(waiting);
    waiting = setTimeout(() => narrow({ text: field.value }), 150);
  });
  return field;
}

const NAMES = Object.fromEntries(Object.entries(NAMED).map(([name, { label }]) => [name, label]));

// The list as its address says; each change of it changes the address, in its place.
class FileList {
  #all;
  #filter = filterOf(location.hash);
  #counted = el('p', { role: 'status', class: 'lead' });
  #empty = el('p', { class: 'none' });
  #table;
  #shownAt = 0;

  constructor(all) {
    this.#all = all;
    const { sort, down } = this.#filter;
    this.#table = makeTable({ caption: 'Files', columns: SHOWN, kept: { key: sort, down, top: store.isBack ? store.tops.get(location.hash) : 0 },
      layout: 'files', heights: [56, 118], out: OUT, moved: top => store.tops.set(location.hash, top),
      sorted: ({ key, down }) => this.#change({ sort: key, down }) });
    this.#show();
    requestAnimationFrame(this.#table.restore);
  }

  #change(change) {
    Object.assign(this.#filter, change);
    history.replaceState(history.state, '', hashOf('#/files', this.#filter));
    document.getElementById('main').dataset.place = location.hash;
  }

  #show() {
    this.#shownAt = Date.now();
    const shown = narrowed(this.#all, this.#filter);
    this.#table.show(shown);
    this.#counted.textContent = `${count(shown.length)} of ${plural(this.#all.length, 'file')}`;
    this.#empty.textContent = this.#all.length === 0 ? `You see the files that you take part in. ${WHY_MISSING}`
      : shown.length === 0 ? 'No file has all of this. Take something out of what you look for.' : '';
  }

  // Another narrowing begins at its top. It may come after the view has gone.
  #narrow = change => {
    if (!this.#table.element.isConnected) return;
    this.#change(change);
    this.#show();
    this.#table.toTop();
  };

  // More addresses are known: what is found or sorted by them is found anew, now and then, and once all are there.
  #moreAddresses = isWhole => {
    if (!isWhole && Date.now() - this.#shownAt < NOW_AND_THEN) return;
    const isFoundMore = this.#filter.text !== '' && narrowed(this.#all, this.#filter).length !== this.#table.rows().length;
    if (isFoundMore || this.#filter.sort === 'parcel') this.#show();
  };

  view() {
    const { list, stage, kind, text } = this.#filter;
    const isShown = () => this.#table.element.isConnected;
    const addresses = el('div', {});
    requestAnimationFrame(() => {
      addresses.replaceChildren(addressNode(this.#all, isShown, this.#moreAddresses));
      makeReady(this.#all, isShown);
    });
    return el('div', {},
      title('All files'),
      el('form', { class: 'narrowing', 'aria-label': 'Narrow the list', onsubmit: event => event.preventDefault() },
        labelled('List', chooser(NAMES, list, value => this.#narrow({ list: value }))),
        labelled('Stage', chooser(STAGES, stage, value => this.#narrow({ stage: value }))),
        labelled('Kind', chooser(KINDS, kind, value => this.#narrow({ kind: value }))),
        labelled('Search by words or number', searchField(text, this.#narrow))),
      savedFilters(),
      this.#counted, addresses, this.#table.element, this.#empty,
      el('p', { class: 'actions' }, csvButton('files', () => outOf(OUT), this.#table.rows)),
      el('p', { class: 'hint' }, `The list was read at ${timeFormat.format(readAt())}. A click on All files reads it anew.`));
  }
}

export const filesView = async () => new FileList(await listed()).view();
