// The columns of the tables of files, with what of them goes out as CSV.

import { dateText, isoDate, leftText } from './dates.js';
import { nameOf } from './department.js';
import { el, said } from './dom.js';
import { nextOf } from './next.js';
import { store } from './store.js';
import { addressOf, lotOf, placeNode } from './places.js';
import { KINDS, STAGES, STEPS, party, plainMoney } from './words.js';

export const dateNode = day => el('time', { datetime: isoDate(day) }, dateText(day));

export const fileLink = id => el('a', { href: `#/files/${id}` }, `File ${id}`);

// A file where work is stopped says so wherever it is listed.
export const fileNode = file => (file.stopped ? el('span', {}, fileLink(file.id), ' ', el('strong', { class: 'stopped' }, 'STOP WORK')) : fileLink(file.id));

// Somebody of the staff by the name where it is known, which is what a narrow column has room for.
const staffNode = number => (number === null ? '' : said(nameOf(number) ?? party(number)));

const staffOut = number => (number === null ? '' : party(number));

const staffOrder = number => (number === null ? LAST : (nameOf(number) ?? party(number)).toLowerCase());

// The day from which a file waits for its review: since it was filed, or its plans were sent again.
const sinceOf = file => store.sentAgain.get(file.id) ?? file.filed;

// A deadline's date with the days that are left.
export function deadlineNode(file) {
  if (file.deadline === null) return el('span', { class: 'left' }, 'no deadline');
  return el('span', { class: `left ${file.timing}` }, dateNode(file.deadline), ', ', el('span', { class: 'days' }, leftText(file)));
}

const LATEST = 1_000_000; // Behind every day: what has none comes last.
const LAST = '\uffff'; // Behind every text.

const dateOut = day => (day === null ? '' : isoDate(day));

// The three columns of a place that go out, by what gives a row's parcel.
export const placeOut = parcel => [
  ['Parcel', parcel], ['Lot', row => lotOf(parcel(row))], ['Address', row => addressOf(parcel(row))],
];

export const placeOrder = id => addressOf(id).toLowerCase() || LAST;

const stageWords = file => (file.stopped ? `${STAGES[file.stage]}, stopped` : STAGES[file.stage]);

export const COLUMNS = {
  id: { key: 'id', label: 'File', place: 'at-id', cell: fileNode, order: file => file.id, out: [['File', file => file.id]] },
  kind: {
    key: 'kind', label: 'Kind', place: 'at-kind', cell: file => KINDS[file.kind], order: file => file.kind,
    out: [['Kind', file => KINDS[file.kind]]],
  },
  description: {
    key: 'description', label: 'Description', place: 'at-text', cell: file => said(file.description),
    order: file => file.description.toLowerCase(),
    out: [['Description', file => file.description], ['Valuation', file => plainMoney(file.valuation)]],
  },
  stage: {
    key: 'stage', label: 'Stage', place: 'at-stage', order: file => Object.keys(STAGES).indexOf(file.stage), cell: stageWords,
    out: [['Stage', stageWords]],
  },
  parcel: {
    key: 'parcel', label: 'Place', place: 'at-parcel', order: file => placeOrder(file.parcel), cell: file => placeNode(file.parcel),
    out: placeOut(file => file.parcel),
  },
  applicant: {
    key: 'applicant', label: 'Applicant', place: 'at-applicant', cell: file => party(file.applicant), order: file => file.applicant,
    out: [['Applicant', file => file.applicant]],
  },
  filed: {
    key: 'filed', label: 'Filed', place: 'at-filed', cell: file => dateNode(file.filed), order: file => file.filed,
    out: [['Filed', file => dateOut(file.filed)]],
  },
  since: {
    key: 'since', label: 'Filed or sent again', place: 'at-filed', cell: file => dateNode(sinceOf(file)), order: sinceOf,
    out: [['Filed or sent again', file => dateOut(sinceOf(file))]],
  },
  reviewer: {
    key: 'reviewer', label: 'Reviewer', place: 'at-reviewer', cell: file => staffNode(file.reviewer), order: file => staffOrder(file.reviewer),
    out: [['Reviewer', file => staffOut(file.reviewer)]],
  },
  inspector: {
    key: 'inspector', label: 'Inspector', place: 'at-inspector', cell: file => staffNode(file.inspector), order: file => staffOrder(file.inspector),
    out: [['Inspector', file => staffOut(file.inspector)]],
  },
  next: { key: 'next', label: 'What comes next', place: 'at-next', cell: nextOf, order: nextOf, out: [['What comes next', nextOf]] },
  deadline: {
    key: 'deadline', label: 'Deadline', place: 'at-deadline', cell: deadlineNode, order: file => file.deadline ?? LATEST,
    out: [['Deadline', file => dateOut(file.deadline)]],
  },
  requested: {
    key: 'requested', label: 'Requested', place: 'at-next', order: file => file.requested ?? LATEST,
    cell: file => el('span', {}, `${STEPS[file.request]}, since `, dateNode(file.requested)),
    out: [['Inspection', file => STEPS[file.request]], ['Requested', file => dateOut(file.requested)]],
  },
  asked: {
    key: 'asked', label: 'Asked for', place: 'at-next', cell: file => `${file.ask} days`, order: file => file.ask,
    out: [['Days asked for', file => file.ask]],
  },
};

// What of some columns goes out, each head once.
export const outOf = columns => columns.flatMap(column => column.out);
