// Parcels and their owners.

import { read } from './api.js';
import { COLUMNS } from './columns.js';
import { NEW_PARCEL, PARCEL_COMMANDS } from './commands.js';
import { el, factList, freshId, said, title } from './dom.js';
import { csvButton } from './downloads.js';
import { foldedForm, postForm } from './forms.js';
import { listed } from './lists.js';
import { forgetParcel, knownParcels, learnParcels, parcelOf } from './parcels.js';
import { parcelLink, placeNode, reasonOf } from './places.js';
import { MOST_NUMBER } from './rules.js';
import { makeTable } from './table.js';
import { count, party, plural } from './words.js';

function parcelChooser() {
  const id = freshId();
  const number = el('input', { id, type: 'text', inputmode: 'numeric', autocomplete: 'off' });
  const form = el('form', { class: 'narrowing', 'aria-label': 'Look at a parcel', novalidate: true },
    el('div', { class: 'field' }, el('label', { for: id }, 'Number of the parcel'), number), el('button', { type: 'submit' }, 'Look'));
  form.addEventListener('submit', event => {
    event.preventDefault();
    const typed = Number(number.value.trim());
    if (typed >= 1 && typed <= MOST_NUMBER) location.hash = `#/parcels/${typed}`;
    else number.focus();
  });
  return form;
}

const PARCEL_COLUMNS = [
  { key: 'id', label: 'Parcel', place: 'at-id', cell: parcel => parcelLink(parcel.id), order: parcel => parcel.id, out: [['Parcel', parcel => parcel.id]] },
  { key: 'lot', label: 'Lot', place: 'at-lot', cell: parcel => said(parcel.lot), order: parcel => parcel.lot, out: [['Lot', parcel => parcel.lot]] },
  { key: 'address', label: 'Address', place: 'at-text', cell: parcel => said(parcel.address), order: parcel => parcel.address.toLowerCase(),
    out: [['Address', parcel => parcel.address]] },
  { key: 'owner', label: 'Owner', place: 'at-owner', cell: parcel => party(parcel.owner), order: parcel => parcel.owner,
    out: [['Owner', parcel => parcel.owner]] },
];

const isEnd = parcel => parcel.refusal !== undefined && parcel.refusal.word !== 'denied';
const STEP = 8;

// Reads all parcels by their numbers, some at a time, until there is none of the next number or none may be read.
async function walkParcels(isShown, told) {
  for (let first = 1; first <= MOST_NUMBER && isShown(); first += STEP) {
    const found = await Promise.all(Array.from({ length: STEP }, (_, place) => parcelOf(first + place, false)));
    told();
    if (found.some(isEnd) || found.every(parcel => parcel.refusal)) return;
  }
}

// The parcels of the files that a resident may see; the staff's by their numbers.
async function learnShown(view, isShown, told) {
  if (view !== 'public') return await walkParcels(isShown, told);
  await learnParcels((await listed()).map(file => file.parcel), isShown, told);
  told();
}

const WHY_EMPTY = {
  public: 'The parcels of your files stand here. A parcel of yours that has no file yet can be opened by its number, above: the number is on the slip that the counter gave you.',
  staff: 'No parcel is there yet, or the policy of the office lets you read none.',
};

function parcelTable(view) {
  const id = freshId();
  const text = el('input', { id, type: 'search', autocomplete: 'off' });
  const counted = el('p', { class: 'lead', role: 'status' });
  const why = el('p', { class: 'none' }, WHY_EMPTY[view] ?? WHY_EMPTY.staff);
  const table = makeTable({ caption: 'Parcels', columns: PARCEL_COLUMNS, kept: { key: 'id', down: false }, layout: 'parcels', heights: [44, 92] });
  let isDone = false;
  function show() {
    const words = text.value.toLowerCase().split(/\s+/);
    const all = knownParcels();
    const shown = all.filter(parcel => words.every(word => `parcel ${parcel.id} lot ${parcel.lot} ${parcel.address}`.toLowerCase().includes(word)));
    table.show(shown);
    counted.textContent = all.length === 0 && isDone ? '' : `${count(shown.length)} of ${plural(all.length, 'parcel')}${isDone ? '' : '. More are being read.'}`;
    table.element.hidden = all.length === 0;
    why.hidden = all.length > 0 || !isDone;
  }
  const ended = () => {
    isDone = true;
    show();
  };
  text.addEventListener('input', show);
  // The view stands once this has returned.
  requestAnimationFrame(() => learnShown(view, () => text.isConnected, show).then(ended, ended));
  show();
  return el('section', {}, el('h2', {}, 'By lot and address'),
    el('div', { class: 'field' }, el('label', { for: id }, 'Lot or address'), text), counted, table.element, why,
    el('p', { class: 'actions' }, csvButton('parcels', () => PARCEL_COLUMNS.flatMap(column => column.out), table.rows)));
}

// `added` is called with the number of the new parcel.
export function parcelsView(view, added) {
  const mayAdd = view === 'clerk' || view === 'official';
  return el('div', { class: 'narrow' }, title('Parcels'), parcelChooser(), parcelTable(view),
    mayAdd ? el('section', { class: 'unprinted' }, el('h2', {}, NEW_PARCEL.label), postForm({ ...NEW_PARCEL, done: answer => added(answer.number) })) : null);
}

// A parcel's facts, or why they aren't shown: its commands stand either way.
async function parcelFacts(id) {
  forgetParcel(id);
  const parcel = await parcelOf(id);
  if (parcel.refusal === undefined) return factList([['Lot', said(parcel.lot)], ['Address', said(parcel.address)], ['Owner', party(parcel.owner)]]);
  if (parcel.refusal.word !== 'denied') throw parcel.refusal;
  return el('p', { class: 'reason' }, reasonOf(parcel));
}

// The files on a parcel that the caller may list. They come once the list is read.
function filesOn(id) {
  const place = el('div', {}, el('p', { class: 'none' }, 'The list of files is being read.'));
  fileTable(id).then(node => place.replaceChildren(node), () => place.replaceChildren('The list of files can\'t be read now.'));
  return place;
}

async function fileTable(id) {
  const { id: file, kind, description, stage, deadline } = COLUMNS;
  const files = (await listed()).filter(file => file.parcel === id);
  if (files.length === 0) return el('p', { class: 'none' }, 'You see no file on this parcel: none is there, or it is not yours to see.');
  const table = makeTable({ caption: 'Files on this parcel', columns: [file, kind, description, stage, deadline], kept: { key: 'id', down: true },
    layout: 'on-parcel', heights: [56, 118] });
  table.show(files);
  return table.element;
}

async function lookAtOwner(id, { to }) {
  const { owner } = await read(`/parcels/${id}`);
  return owner === to ? `The parcel is now with ${party(to)}.` : 'The parcel has the owner that it had before: this was not done so far.';
}

function parcelForm({ action, label, fields, so, undone = 'This can\'t be taken back.', did }, id, { again, done }) {
  return foldedForm({
    path: `/parcels/${id}/${action}`,
    label,
    fields,
    check: body => ({ yes: label, nodes: [el('p', {}, el('strong', {}, so(id, body)), ` ${undone}`), el('p', {}, placeNode(id))] }),
    look: action === 'transfer' ? body => lookAtOwner(id, body) : null,
    again,
    done: (answer, body) => done(`${did(id, body)}.`),
  });
}

export async function parcelView(id, view, calls) {
  const facts = await parcelFacts(id);
  const forms = PARCEL_COMMANDS.filter(({ who }) => who.includes(view)).map(command => parcelForm(command, id, calls));
  const mayFile = view === 'public' || view === 'official';
  return el('div', { class: 'narrow' }, title(`Parcel ${id}`), facts,
    mayFile ? el('p', { class: 'unprinted' }, el('a', { href: `#/apply/${id}` }, 'File an application on this parcel')) : null,
    el('section', {}, el('h2', {}, 'Files on this parcel'), filesOn(id)),
    forms.length === 0 ? null : el('section', { class: 'unprinted' }, el('h2', {}, 'What can be done'), forms));
}
