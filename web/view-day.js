// The day sheet of an inspector: what is requested, by address, with open notices and room for remarks.

import { dateNode } from './columns.js';
import { byPlace, daySheet, keepRound, roundOf } from './day-sheet.js';
import { isoDate, today } from './dates.js';
import { department } from './department.js';
import { csvButton } from './downloads.js';
import { button, el, freshId, said, title } from './dom.js';
import { addressOf, lotOf, mapLink } from './places.js';
import { KINDS, STEPS, party, plural } from './words.js';

const noticesOf = file => file.papers.filter(paper => paper.open);

function stopNode(file) {
  if (!file.stopped) return null;
  const order = file.papers.findLast(paper => paper.sort === 'stop');
  return el('p', { class: 'stopped-site' }, el('strong', {}, 'STOP WORK'), ` since `, dateNode(order.day), ': ', said(order.text));
}

function visit(file) {
  const notices = noticesOf(file).map(paper => el('li', {}, `Notice ${paper.number} of `, dateNode(paper.day), ': ', said(paper.text)));
  return el('article', { class: 'visit' },
    el('h3', {}, el('span', { class: 'box', 'aria-hidden': 'true' }), `${STEPS[file.request]}: `, el('a', { href: `#/files/${file.id}` }, `File ${file.id}`),
      `, ${KINDS[file.kind].toLowerCase()}`),
    stopNode(file),
    el('p', {}, 'Requested ', dateNode(file.requested), `. Applicant: ${party(file.applicant)}. Contractor: ${party(file.contractor)}.`),
    el('p', { class: 'what' }, said(file.description)),
    notices.length === 0 ? el('p', { class: 'hint' }, 'No open notice.') : el('ul', {}, notices),
    el('p', { class: 'remarks' }, 'Remarks'));
}

function placeHead(id) {
  if (addressOf(id) === '') return el('h2', {}, `Parcel ${id}`);
  return el('h2', {}, said(addressOf(id)), el('span', { class: 'lot' }, ', lot ', said(lotOf(id)), `, parcel ${id}`));
}

// Who looks for another inspector's sheet chooses among those who are assigned to something.
function chooser(inspectors, chosen) {
  if (inspectors.length < 2) return null;
  const id = freshId();
  const options = inspectors.map(number => el('option', { value: number, selected: number === chosen }, party(number)));
  return el('p', { class: 'unprinted' }, el('label', { for: id }, 'Inspector'), ' ',
    el('select', { id, onchange: event => { location.hash = `#/day/${event.target.value}`; } }, options));
}

const OUT = [
  ['Address', file => addressOf(file.parcel)], ['Lot', file => lotOf(file.parcel)], ['Parcel', file => file.parcel], ['File', file => file.id],
  ['Inspection', file => STEPS[file.request]], ['Requested', file => isoDate(file.requested)], ['Kind', file => KINDS[file.kind]],
  ['Description', file => file.description], ['Stop work', file => (file.stopped ? 'yes' : '')],
  ['Open notices', file => noticesOf(file).map(paper => paper.text).join('; ')],
];

// The places of a sheet in the order of the round, each of which can be moved and left out.
class Round {
  #sheet;
  #round;
  element = el('div', {});
  #counted = el('p', { class: 'lead', role: 'status' });

  constructor(sheet) {
    this.#sheet = sheet;
    this.#round = roundOf(sheet.mine);
    this.#draw();
  }

  #groups = () => byPlace(this.#sheet.files, this.#round);

  #isLeft = parcel => this.#round.left.includes(parcel);

  // The visits of the round, in its order.
  files = () => this.#groups().filter(([parcel]) => !this.#isLeft(parcel)).flatMap(([, files]) => files);

  counted = () => this.#counted;

  #change(change) {
    Object.assign(this.#round, change);
    keepRound(this.#sheet.mine, this.#round);
    this.#draw();
  }

  #move(parcel, by) {
    const order = this.#groups().map(([parcel]) => parcel);
    const place = order.indexOf(parcel);
    const [moved] = order.splice(place, 1);
    order.splice(place + by, 0, moved);
    this.#change({ order });
    this.element.querySelector(`[data-parcel="${parcel}"] .${by < 0 ? 'up' : 'down'}`)?.focus();
  }

  #leave(parcel, isIn) {
    this.#change({ left: isIn ? this.#round.left.filter(other => other !== parcel) : [...this.#round.left, parcel] });
    this.element.querySelector(`[data-parcel="${parcel}"] input`)?.focus();
  }

  #tools(parcel, place, last) {
    const id = freshId();
    const name = addressOf(parcel) || `parcel ${parcel}`;
    const move = (by, label) => el('button', { type: 'button', class: by < 0 ? 'up' : 'down', 'aria-label': `${label}: ${name}`, onclick: () => this.#move(parcel, by) }, label);
    return el('p', { class: 'tools unprinted' },
      el('input', { type: 'checkbox', id, checked: !this.#isLeft(parcel), onchange: event => this.#leave(parcel, event.target.checked) }),
      el('label', { for: id }, 'On my round'), place > 0 ? move(-1, 'Earlier') : null, place < last ? move(1, 'Later') : null, mapLink(parcel));
  }

  #draw() {
    const groups = this.#groups();
    const visits = this.files().length;
    const places = groups.filter(([parcel]) => !this.#isLeft(parcel)).length;
    this.#counted.replaceChildren(dateNode(today()), `: ${plural(visits, 'inspection')} at ${plural(places, 'place')}. `);
    this.element.replaceChildren(...groups.map(([parcel, files], place) => el('section',
      { 'class': this.#isLeft(parcel) ? 'visits left-out unprinted' : 'visits', 'data-parcel': parcel },
      placeHead(parcel), this.#tools(parcel, place, groups.length - 1), files.map(visit))));
  }
}

const timeFormat = new Intl.DateTimeFormat(undefined, { dateStyle: 'medium', timeStyle: 'short' });

function readNode({ at, isKept }) {
  const time = timeFormat.format(at);
  return isKept ? el('p', { class: 'kept', role: 'alert' }, el('strong', {}, 'No connection. '), `This is the day sheet as it was read on ${time}; what changed since isn't in it.`)
    : el('p', { class: 'hint' }, `Read on ${time}.`, el('span', { class: 'unprinted' }, ' It stays readable here without a connection.'));
}

export async function daySheetView(inspector) {
  const sheet = await daySheet(inspector);
  const round = new Round(sheet);
  const { mine, files, inspectors } = sheet;
  return el('div', { class: 'day' },
    el('p', { class: 'from' }, said(department().name)),
    title(`Day sheet${mine === null ? '' : ` of ${party(mine)}`}`),
    round.counted(), readNode(sheet),
    el('p', { class: 'actions unprinted' }, button('Print', () => print()), ' ', csvButton('day-sheet', () => OUT, round.files)),
    chooser(inspectors, mine),
    files.length === 0 ? el('p', { class: 'none' }, 'No inspection is requested. One appears here once a file is assigned to the inspector and its applicant requests it.') : null,
    round.element);
}
