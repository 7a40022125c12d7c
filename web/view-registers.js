// The three registers: a table to read, and the office's own text to print.

import { read } from './api.js';
import { dateNode, fileLink, fileNode, placeOrder, placeOut } from './columns.js';
import { dayOfIso } from './dates.js';
import { button, el, freshId, title } from './dom.js';
import { csvButton } from './downloads.js';
import { listed } from './lists.js';
import { placeNode } from './places.js';
import { makeTable } from './table.js';
import { WHY_MISSING } from './view-waiting.js';
import { KINDS, REGISTERS, STAGES, STEPS, count, money, party, plainMoney, plural } from './words.js';

const NOTHING = 'none';
const dateCell = text => (text === '-' ? NOTHING : dateNode(dayOfIso(text)));
const wordCell = words => text => (text === '-' ? NOTHING : words[text] ?? text);
const numberOf = text => (text === '-' ? -Infinity : Number(text));

// How each column of a register is shown, sorted, and handed out.
const CELLS = {
  FILE: { label: 'File', cell: text => fileLink(text), order: Number, out: Number },
  KIND: { label: 'Kind', cell: wordCell(KINDS), order: String },
  STAGE: { label: 'Stage', cell: wordCell(STAGES), order: text => Object.keys(STAGES).indexOf(text) },
  TIMING: { label: 'Timing', cell: wordCell({ none: 'no deadline' }), order: String },
  DEADLINE: { label: 'Deadline', cell: dateCell, order: String, out: text => (text === '-' ? '' : text) },
  CENTS: { label: 'Valuation', cell: text => money(Number(text)), order: Number, out: text => plainMoney(Number(text)) },
  LEFT: { label: 'Days left', cell: String, order: Number, out: Number },
  NEXT: { label: 'Next step', cell: wordCell(STEPS), order: text => Object.keys(STEPS).indexOf(text) },
  REQUESTED: { label: 'Requested', cell: dateCell, order: String, out: text => (text === '-' ? '' : text) },
  INSPECTOR: { label: 'Inspector', cell: text => (text === '-' ? NOTHING : party(text)), order: numberOf, out: text => text.replace('-', '') },
  NOTICES: { label: 'Open notices', cell: String, order: Number, out: Number },
};

function columnOf(word, place) {
  const { label, cell, order, out = cell } = CELLS[word];
  return { key: word, label, place: `at-${word.toLowerCase()}`, cell: row => cell(row[place]), order: row => order(row[place]),
    out: [[label, row => out(row[place])]] };
}

// A register has no stop work order, so the list of files says where one stands.
const fileColumn = files => ({ ...columnOf('FILE', 0), cell: row => fileNode(files.get(Number(row[0])) ?? { id: Number(row[0]), stopped: false }) });

// The place stands behind the file: a register has the number of the parcel, or the list of files has it.
const placeColumn = parcel => ({ key: 'PARCEL', label: 'Place', place: 'at-parcel', cell: row => (parcel(row) === undefined ? NOTHING : placeNode(parcel(row))),
  order: row => placeOrder(parcel(row)), out: placeOut(parcel) });

// The columns and the rows of a register's text; its last line counts the rows.
async function parsed(text) {
  const [head, ...rows] = text.split('\n').slice(0, -2).map(line => line.trim().split(/ +/));
  const files = new Map(rows.length === 0 ? [] : (await listed()).map(file => [file.id, file]));
  const place = head.indexOf('PARCEL');
  const parcel = row => (place === -1 ? files.get(Number(row[0]))?.parcel : Number(row[place]));
  const columns = head.slice(1).map((word, behind) => (word === 'PARCEL' ? null : columnOf(word, behind + 1))).filter(column => column !== null);
  return { head, rows, columns: [fileColumn(files), placeColumn(parcel), ...columns] };
}

function links(name) {
  const link = ([word, label]) => el('li', {}, el('a', { href: `#/registers/${word}`, 'aria-current': word === name ? 'page' : null }, label));
  return el('nav', { 'aria-label': 'Registers', class: 'tabs' }, el('ul', {}, Object.entries(REGISTERS).map(link)));
}

const WHY_EMPTY = {
  files: `You see no file. ${WHY_MISSING}`,
  deadlines: 'No deadline of the files that you see is past or near.',
  inspections: 'No work is under way on the files that you see.',
};

// What a register is narrowed by where it has it, and how it is sorted at first.
const NARROWED = ['TIMING', 'STAGE', 'KIND', 'INSPECTOR'];
const SORTED = { files: 'FILE', deadlines: 'LEFT', inspections: 'REQUESTED' };

function chooser(word, place, rows, chosen, changed) {
  const { label, cell } = CELLS[word];
  const id = freshId();
  const values = [...new Set(rows.map(row => row[place]))].sort();
  const options = values.map(value => el('option', { value, selected: value === chosen }, cell(value)));
  return el('div', { class: 'field' }, el('label', { for: id }, label),
    el('select', { id, onchange: event => changed(event.target.value) }, el('option', { value: '' }, 'All'), options));
}

// The rows as the address narrows them, with a choice for each column by which they can be.
function narrowing(name, { head, rows }, show) {
  const chosen = new URLSearchParams(location.hash.split('?')[1] ?? '');
  const shown = () => rows.filter(row => NARROWED.every(word => !chosen.has(word) || row[head.indexOf(word)] === chosen.get(word)));
  const change = word => value => {
    if (value === '') chosen.delete(word);
    else chosen.set(word, value);
    history.replaceState(history.state, '', `#/registers/${name}${String(chosen) === '' ? '' : `?${chosen}`}`);
    document.getElementById('main').dataset.place = location.hash;
    show(shown());
  };
  const words = NARROWED.filter(word => head.includes(word));
  return { shown, form: el('form', { class: 'narrowing', 'aria-label': 'Narrow the register', onsubmit: event => event.preventDefault() },
    words.map(word => chooser(word, head.indexOf(word), rows, chosen.get(word), change(word)))) };
}

export async function registerView(name) {
  const text = await read(`/registers/${name}`);
  const register = await parsed(text);
  const { columns, rows } = register;
  const heights = [56, 26 * columns.length + 14];
  const table = makeTable({ caption: `Register of ${name}`, columns, kept: { key: SORTED[name], down: false }, layout: `register ${name}`, heights, narrow: '60rem' });
  const counted = el('span', { role: 'status' });
  const show = shown => {
    table.show(shown);
    counted.textContent = shown.length === rows.length ? plural(rows.length, 'file') : `${count(shown.length)} of ${plural(rows.length, 'file')}`;
  };
  const { shown, form } = narrowing(name, register, show);
  show(shown());
  return el('div', {},
    title(`Register: ${REGISTERS[name]}`),
    links(name),
    rows.length === 0 ? null : form,
    el('p', { class: 'lead' }, counted, ' ', button('Print', () => print()), ' ',
      csvButton(`register-${name}`, () => columns.flatMap(column => column.out), table.rows)),
    rows.length === 0 ? el('p', { class: 'none' }, WHY_EMPTY[name]) : table.element,
    el('pre', { class: 'printed' }, text));
}
