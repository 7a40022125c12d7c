// Filing an application on a parcel.

import { read } from './api.js';
import { FILING } from './commands.js';
import { inspectionsOf } from './documents.js';
import { el, factList, said, title } from './dom.js';
import { postForm } from './forms.js';
import { listed } from './lists.js';
import { knownParcel } from './parcels.js';
import { NOT_YOURS, isNotYours, placeNode } from './places.js';
import { TERM } from './rules.js';
import { KINDS, money, plainMoney } from './words.js';

// Everything that is filed, once before it is sent; with the warning that stood beside the parcel's number.
const checkFiling = view => ({ parcel, kind, valuation, description }) => ({
  yes: 'Send the application',
  nodes: [
    el('p', {}, el('strong', {}, 'Check what you send.')),
    ...(isNotYours(knownParcel(parcel), view) ? [el('p', { class: 'fault' }, NOT_YOURS)] : []),
    factList([
      ['Place', placeNode(parcel)], ['Kind of work', KINDS[kind]], ['Inspections that it asks for', inspectionsOf(kind)],
      ['Valuation', money(valuation)], ['Description', said(description)],
    ]),
    el('p', {}, `You are its applicant. It has ${TERM} days from today to its permit.`),
  ],
});

// Looks for a file like the one that was sent, where no answer came.
async function lookForFile(body) {
  const files = (await listed()).filter(file => Object.keys(body).every(key => file[key] === body[key]));
  if (files.length === 0) return 'There is no file like this one so far. It was not filed yet.';
  const { id } = files.at(-1);
  const link = el('a', { href: `#/files/${id}` }, `file ${id}`);
  return el('span', {}, 'There is a file like this one: ', link, '. Look at it before you send this once more.');
}

// What the new file begins with: the parcel that a link named, or what stood in a file before it.
function fieldsFrom(first, view) {
  return FILING.fields.map(field => ({ ...field, view, ...(first[field.key] === undefined ? {} : { first: () => first[field.key] }) }));
}

async function beginning({ parcel, file }) {
  if (file === undefined) return { parcel };
  const before = await read(`/files/${file}`);
  return { parcel: before.parcel, kind: before.kind, valuation: plainMoney(before.valuation), description: before.description };
}

// `from` has a parcel, or a file that is filed again. `filed` is called with the number of the new file.
export async function applyView(from, view, filed) {
  const fields = fieldsFrom(await beginning(from), view);
  return el('div', { class: 'narrow' }, title('File an application'),
    el('p', { class: 'lead' }, `Whoever files it is its applicant. It has ${TERM} days to its permit.`),
    from.file === undefined ? null : el('p', { class: 'hint' }, `The fields begin as they were in file ${from.file}. Change what is different now.`),
    postForm({ ...FILING, fields, check: checkFiling(view), look: lookForFile, done: answer => filed(answer.number) }));
}
