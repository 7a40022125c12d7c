// The fields of the forms: each type has its control, its limits in words, and reads what was typed: as the value that
// goes into a body, or as a fault in words.

import { currency, textsFor } from './department.js';
import { el, freshId } from './dom.js';
import { staffControl, staffNode, staffText } from './field-staff.js';
import { parcelOf } from './parcels.js';
import { NOT_YOURS, isNotYours, placeNode, reasonOf } from './places.js';
import { LONGEST_LOT, LONGEST_TEXT, MOST_CENTS, MOST_NUMBER, MOST_PAPER, ROLES, TOKEN_LETTERS } from './rules.js';
import { KIND_CHOICES, STEPS, VIEWS, count, money, party, stepsOf } from './words.js';

const EMPTY = { fault: 'Fill this in.' };

const sizeOf = text => new TextEncoder().encode(text).length;

const QUIET = { type: 'text', autocomplete: 'off', autocapitalize: 'off', spellcheck: 'false' };

const numberInput = () => el('input', { ...QUIET, inputmode: 'numeric' });

function select(words, options) {
  const shown = options.map(word => el('option', { value: word }, words[word]));
  return el('select', {}, el('option', { value: '' }, 'Choose'), shown);
}

// Line ends become spaces as they are typed.
function textControl(tag, attributes) {
  const control = el(tag, { dir: 'auto', autocomplete: 'off', ...attributes });
  control.addEventListener('input', () => {
    if (/[\r\n\t]/.test(control.value)) control.value = control.value.replace(/[\r\n\t]+/g, ' ');
  });
  return control;
}

// What is wrong with a text, or an empty text.
export function textFault(text) {
  if (text.trim() === '') return EMPTY.fault;
  const over = sizeOf(text) - LONGEST_TEXT;
  if (over > 0) return `This is too long by ${count(over)}. Shorten it.`;
  if (/[\u0000-\u001f\u007f]/.test(text)) return 'Something in this can\'t be shown as text. Type it anew.';
  return text.isWellFormed?.() === false ? 'Half a sign stands in this. Type it anew.' : '';
}

const SETTLED = 1000; // Milliseconds after the last letter until what is left is read out.
const FEW = 200; // Letters left, from which on it is read out.

// What is left of a text: seen as it is typed, and read out where it becomes little and nothing was typed for a moment.
function lengthNode(control) {
  const seen = el('p', { class: 'hint length', 'aria-hidden': 'true' });
  const heard = el('p', { class: 'heard', role: 'status' });
  let waiting;
  function show() {
    const left = LONGEST_TEXT - sizeOf(control.value);
    seen.textContent = left < 0 ? `Too long by ${count(-left)}.` : `${count(left)} letters left. An accented letter counts as two.`;
    clearTimeout(waiting);
    waiting = setTimeout(() => { heard.textContent = left < FEW ? seen.textContent : ''; }, SETTLED);
  }
  control.addEventListener('input', show);
  show();
  return el('div', {}, seen, heard);
}

// Texts of the department to choose from: the one that is chosen is put into the field, behind what stands there.
function textsNode(control, field) {
  const texts = textsFor(field.texts);
  if (texts.length === 0) return null;
  const id = freshId();
  const choice = el('select', { id }, el('option', { value: '' }, 'Choose a text to begin with'), texts.map(text => el('option', { value: text }, text)));
  choice.addEventListener('input', () => {
    control.value = `${control.value} ${choice.value}`.trim();
    choice.value = '';
    control.dispatchEvent(new Event('input'));
    control.focus();
  });
  return el('p', { class: 'texts' }, el('label', { for: id }, 'Usual texts'), choice);
}

function readText(text) {
  const fault = textFault(text);
  return fault === '' ? { value: text } : { fault };
}

// A whole number, as people write it: with spaces around it, a number sign, or commas between thousands.
function readNumber(text, most) {
  const typed = text.replaceAll(/[\s#,]/g, '');
  if (typed === '') return EMPTY;
  const value = Number(typed);
  const isRight = /^[0-9]+$/.test(typed) && value >= 1 && value <= most;
  return isRight ? { value } : { fault: `Give a whole number from 1 to ${count(most)}.` };
}

const AMOUNTS = [
  [/^[0-9]{1,3}(,[0-9]{3})+(\.[0-9]{1,2})?$/, text => text.replaceAll(',', '')],
  [/^[0-9]{1,3}(\.[0-9]{3})+,[0-9]{1,2}$/, text => text.replaceAll('.', '').replace(',', '.')],
  [/^[0-9]+([.,][0-9]{1,2})?$/, text => text.replace(',', '.')],
];

// The cents of an amount as it is typed, counted without fractions.
export function readAmount(text) {
  const typed = text.replace(currency() ?? '', '').replaceAll(/[\s'\u2019$\u20ac\u00a3]/g, '');
  if (typed === '') return EMPTY;
  const form = AMOUNTS.find(([pattern]) => pattern.test(typed));
  if (form === undefined) return { fault: 'Give an amount, such as 2500 or 2,500.00.' };
  const [whole, part = ''] = form[1](typed).split('.');
  const value = Number(whole) * 100 + Number(part.padEnd(2, '0'));
  return value > MOST_CENTS ? { fault: `Give at most ${money(MOST_CENTS)}.` } : { value };
}

function readLot(text) {
  const value = text.replaceAll(/\s/g, '').toUpperCase();
  if (value === '') return EMPTY;
  const isRight = /^[A-Z0-9-]+$/.test(value) && value.length <= LONGEST_LOT;
  return isRight ? { value } : { fault: `Give 1 to ${LONGEST_LOT} letters A to Z, digits and hyphens.` };
}

const TOKEN_FORM = `${TOKEN_LETTERS.least} to ${TOKEN_LETTERS.most} letters and digits`;

export function readToken(text) {
  const value = text.replaceAll(/\s/g, '');
  if (value === '') return EMPTY;
  const isRight = /^[A-Za-z0-9]+$/.test(value) && value.length >= TOKEN_LETTERS.least && value.length <= TOKEN_LETTERS.most;
  return isRight ? { value } : { fault: `A token has ${TOKEN_FORM}.` };
}

export const tokenInput = more => el('input', { ...QUIET, ...more });

// A token for somebody new, of 32 letters and digits.
function freshToken() {
  return [...crypto.getRandomValues(new Uint8Array(16))].map(part => part.toString(16).padStart(2, '0')).join('');
}

// The place of the parcel whose number is typed. A resident may read the own parcels alone.
function parcelNode(control, field) {
  const node = el('p', { class: 'found', role: 'status' });
  let waiting;
  async function show() {
    const { value } = readNumber(control.value, MOST_NUMBER);
    node.replaceChildren();
    if (value === undefined) return;
    const parcel = await parcelOf(value);
    if (readNumber(control.value, MOST_NUMBER).value !== value) return;
    if (parcel.refusal === undefined) node.replaceChildren(placeNode(value), `. Its owner is ${party(parcel.owner)}.`);
    else if (isNotYours(parcel, field.view)) node.textContent = NOT_YOURS;
    else node.textContent = reasonOf(parcel);
  }
  control.addEventListener('input', () => {
    clearTimeout(waiting);
    waiting = setTimeout(show, 250);
  });
  requestAnimationFrame(show);
  return node;
}

const choice = (words, options) => ({
  control: (file, field) => select(words, options(file, field)),
  hint: () => null,
  read: text => (text === '' ? { fault: 'Choose one.' } : { value: text }),
});

const number = (most, more = {}) => ({ control: numberInput, hint: () => null, read: text => readNumber(text, most), ...more });

// By the type of a field. `control`, `hint`, `above` and `below` (what stands there) and `read` may look at the file and the field.
const TYPES = {
  staff: {
    control: (file, field) => staffControl(field, numberInput),
    hint: (file, field) => field.now(file),
    below: (control, field) => staffNode(control, field, numberInput),
    text: staffText,
    read: text => readNumber(text, MOST_NUMBER),
  },
  party: number(MOST_NUMBER, { hint: (file, field) => field.now?.(file) ?? null }),
  parcel: number(MOST_NUMBER, { below: parcelNode }),
  paper: number(MOST_PAPER),
  kind: choice(KIND_CHOICES, () => Object.keys(KIND_CHOICES)),
  role: choice(VIEWS, () => ROLES),
  step: choice(STEPS, stepsOf),
  days: {
    control: numberInput,
    hint: (file, field) => `1 to ${field.most(file)} days.`,
    read: (text, file, field) => readNumber(text, field.most(file)),
  },
  line: { control: () => textControl('input', { type: 'text' }), hint: () => null, read: readText, below: lengthNode },
  text: { control: () => textControl('textarea', { rows: '3' }), hint: () => 'One paragraph.', read: readText, above: textsNode, below: lengthNode },
  lot: {
    control: () => el('input', { ...QUIET, autocapitalize: 'characters' }),
    hint: () => `Such as C-7: at most ${LONGEST_LOT} letters, digits and hyphens.`,
    read: readLot,
  },
  money: { control: () => el('input', { ...QUIET, inputmode: 'decimal' }), hint: () => `Such as ${money(250000)} or 2500.`, read: readAmount },
  newToken: {
    control: () => tokenInput({ value: freshToken() }),
    hint: () => `${TOKEN_FORM}. This one was made at random: leave it as it is.`,
    read: readToken,
  },
};

// A field made for a file, or for none: its control, what stands around it, and what it reads.
export function makeField(field, file) {
  const type = TYPES[field.type];
  const control = type.control(file, field);
  const first = field.first?.(file);
  if (first !== null && first !== undefined) control.value = String(first);
  return { key: field.key, label: field.label, type: field.type, control, hint: type.hint(file, field),
    above: () => type.above?.(control, field) ?? null, below: () => type.below?.(control, field) ?? null,
    read: () => type.read(type.text?.(control) ?? control.value, file, field) };
}
