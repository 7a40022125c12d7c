// How lists of files are narrowed: by lists that have a name, by what a file has, and by words. All of it stands in the
// address of a list, so that it can be kept as a bookmark.

import { today } from './dates.js';
import { pause } from './pace.js';
import { placeText } from './places.js';
import { OPEN, RECENT, SOON } from './rules.js';
import { store } from './store.js';
import { KINDS, STAGES, party } from './words.js';

const isIn = (...stages) => file => stages.includes(file.stage);

const daysTo = day => day - today();

// The lists that the official's overview counts.
export const NAMED = {
  review: { label: 'Waiting for review', has: isIn('filed', 'review') },
  inspection: { label: 'Waiting for an inspection', has: file => file.stage === 'working' && file.request !== null },
  asked: { label: 'Extension requests to answer', has: file => file.ask !== null && isIn(...OPEN, 'abandoned', 'lapsed')(file) },
  past: { label: 'Past their deadline', has: file => file.timing === 'past' },
  lapsed: { label: `Lapsed in the last ${RECENT} days`, has: file => file.stage === 'lapsed' && -daysTo(file.deadline) <= RECENT },
  stopped: { label: 'Under a stop work order', has: file => file.stopped },
  temporary: {
    label: `Temporary certificates that end within ${SOON} days`,
    has: file => file.temporary !== null && file.stage !== 'certified' && daysTo(file.temporary) >= 0 && daysTo(file.temporary) <= SOON,
  },
};

const EMPTY = { list: '', stage: '', kind: '', text: '', sort: 'id', down: false };

// What an address says, where it says what there is.
export function filterOf(hash) {
  const given = new URLSearchParams(hash.split('?')[1] ?? '');
  const word = (name, words) => (Object.hasOwn(words, given.get(name) ?? '') ? given.get(name) : '');
  return { list: word('list', NAMED), stage: word('stage', STAGES), kind: word('kind', KINDS), text: given.get('text') ?? '',
    sort: given.get('sort') ?? EMPTY.sort, down: given.has('down') };
}

export function hashOf(place, filter) {
  const said = new URLSearchParams();
  for (const [name, value] of Object.entries(filter)) if (value !== EMPTY[name]) said.set(name, value === true ? '' : value);
  const text = said.toString();
  return text === '' ? place : `${place}?${text}`;
}

function textOf(file) {
  if (!store.texts.has(file)) {
    const people = [file.applicant, file.contractor, file.reviewer, file.inspector].filter(number => number !== null).map(party).join(' ');
    store.texts.set(file, `file ${file.id} ${file.description} parcel ${file.parcel} ${people} ${KINDS[file.kind]} ${STAGES[file.stage]}`.toLowerCase());
  }
  return store.texts.get(file);
}

const SLICE = 2500; // Files whose texts are made ready at once.

// Makes ready what files are looked for by, some at a time, so that the first search of many files is quick too.
export async function makeReady(files, isWanted) {
  for (let first = 0; first < files.length && isWanted(); first += SLICE) {
    files.slice(first, first + SLICE).forEach(textOf);
    await pause(10);
  }
}

// Whether a word stands in a text: a number as a whole, and any other word as a part too.
function wordTest(word) {
  if (!/^\d+$/.test(word)) return text => text.includes(word);
  const whole = new RegExp(`(?<!\\d)${word}(?!\\d)`);
  return text => text.includes(word) && whole.test(text);
}

// The same of what a parcel is known by, asked once for each parcel.
function placeTest(has) {
  const found = new Map();
  return id => {
    if (!found.has(id)) found.set(id, has(placeText(id).toLowerCase()));
    return found.get(id);
  };
}

const NUMBER = /^(?:file\s*|#\s*)(\d+)$/;

// What is looked for: one file by its number, or those that have each word, wherever it stands.
function textTest(typed) {
  const text = typed.trim().toLowerCase();
  const number = NUMBER.exec(text);
  if (number !== null) return file => file.id === Number(number[1]);
  const tests = text.split(/\s+/).filter(word => word !== '').map(wordTest).map(has => [has, placeTest(has)]);
  return file => tests.every(([has, isAt]) => has(textOf(file)) || isAt(file.parcel));
}

export function narrowed(files, { list, stage, kind, text }) {
  const has = list === '' ? () => true : NAMED[list].has;
  const hasText = textTest(text);
  return files.filter(file => has(file) && (stage === '' || file.stage === stage) && (kind === '' || file.kind === kind) && hasText(file));
}
