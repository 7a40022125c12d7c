// One paper of a file as a page to print.

import { Refusal, read } from './api.js';
import { dateNode } from './columns.js';
import { today } from './dates.js';
import { letterheadLines, nameOf } from './department.js';
import { against, authorOf, documentOf, isDocument } from './documents.js';
import { button, el, factList, said } from './dom.js';
import { parcelOf } from './parcels.js';
import { learnToday } from './today.js';
import { KINDS, money, party } from './words.js';

// The page of paper that each has room on, whether it is A4 or Letter.
const WIDTH = '178mm';
const HEIGHT = 236 * 96 / 25.4; // Pixels.
const LONG = 60; // Letters that a column has no room for.
const SIZES = [18, 16, 14, 12, 11, 10, 9, 8, 7, 6.5, 6, 5.5, 5, 4.5, 4]; // Points.
const USUAL = 11; // What is to be posted may be larger.

// Long texts are set smaller, so that each document is one page: a copy out of sight has the width of the paper.
function fit(sheet) {
  const most = sheet.classList.contains('posted') ? SIZES[0] : USUAL;
  const copy = sheet.cloneNode(true);
  copy.classList.add('measured');
  copy.style.width = WIDTH;
  document.body.append(copy);
  const size = SIZES.filter(points => points <= most).find(points => {
    copy.style.setProperty('--points', `${points}pt`);
    return copy.scrollHeight <= HEIGHT;
  });
  copy.remove();
  sheet.style.setProperty('--points', `${size ?? SIZES.at(-1)}pt`);
}

function letterhead(heading, isPlacard) {
  return el('div', { class: 'letterhead' }, el('p', { class: 'from' }, letterheadLines()),
    el('h1', { tabindex: '-1', class: isPlacard ? 'placard' : null }, heading));
}

// Somebody whose name nobody told has a line for it.
const partyLine = number => (number === null || nameOf(number) !== null ? party(number)
  : el('span', { class: 'unnamed' }, party(number), el('span', { class: 'line' }, 'Name: ')));

function facts(file, paper, parcel, { isValued = false }) {
  const place = parcel.refusal === undefined
    ? [['Lot', said(parcel.lot)], ['Address', said(parcel.address), parcel.address.length > LONG], ['Owner', partyLine(parcel.owner)]]
    : [['Lot and address', 'not open to who printed this']];
  return factList([
    ['File', String(file.id)], ['Paper', String(paper.number)], ['Date', dateNode(paper.day)],
    ['Parcel', String(file.parcel)], ...place,
    ['Kind of work', KINDS[file.kind]], ...(isValued ? [['Valuation', money(file.valuation)]] : []),
    ['Applicant', partyLine(file.applicant)], ['Contractor', partyLine(file.contractor)], ['Given by', authorOf(paper)],
    ['Description', said(file.description), true],
  ]);
}

// What became of the paper since, so large that nobody takes it for what it was.
const stampOf = ({ word, day, means }) => el('div', { class: 'stamp' }, el('p', { class: 'word' }, word),
  el('p', {}, 'since ', dateNode(day), `. ${means}`));

function signature(signs) {
  return el('div', { class: 'signature' }, el('p', {}, `Signature of ${signs}`), el('p', {}, 'Date'));
}

function sheetOf(file, paper, parcel) {
  const made = documentOf(paper);
  return el('article', { class: made.isPlacard ? 'sheet posted' : 'sheet' },
    letterhead(made.title, made.isPlacard), against(file, paper).map(stampOf),
    made.isPlacard && parcel.refusal === undefined ? el('p', { class: 'posted-at' }, said(parcel.address), ', lot ', said(parcel.lot)) : null,
    facts(file, paper, parcel, made), el('div', { class: 'body' }, made.body(file, paper)),
    el('p', { class: 'law' }, `This stands on section ${made.section(file, paper)} of the International Building Code 2018.`),
    signature(made.signs),
    el('p', { class: 'print-note' }, 'This is a print of what the department keeps, made on ', dateNode(today()),
      '. What the department keeps is what counts, not this print.'));
}

export async function documentView(id, number) {
  const file = await read(`/files/${id}`);
  await learnToday([file]);
  const paper = file.papers.find(paper => paper.number === number);
  if (paper === undefined || !isDocument(paper)) throw new Refusal('route');
  const sheet = sheetOf(file, paper, await parcelOf(file.parcel));
  fit(sheet);
  return el('div', { class: 'document' },
    el('p', { class: 'actions unprinted' }, button('Print', () => print()), ' ', el('a', { href: `#/files/${id}` }, `Back to file ${id}`)), sheet);
}
