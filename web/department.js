// What the department says of itself in department.json: its name, address, counter and currency, its staff, the texts to
// choose from, and a map.

import { el, said } from './dom.js';
import { ROLES } from './rules.js';
import { store } from './store.js';

const UNNAMED = { name: 'Building Department', address: [], contact: '', currency: null, staff: [], texts: {}, map: null };

export const department = () => store.department ?? UNNAMED;

export const currency = () => department().currency;

const isText = value => typeof value === 'string';

const isMember = member => Number.isInteger(member?.number) && isText(member.name) && ROLES.includes(member.role);

// A map is opened at the address that this begins, with what is looked for behind it.
const isMap = value => isText(value) && /^https:\/\/\S+$/.test(value);

function isCurrency(word) {
  try {
    new Intl.NumberFormat(undefined, { style: 'currency', currency: word });
    return true;
  } catch {
    return false;
  }
}

const textsOf = value => Object.fromEntries(Object.entries(value ?? {}).map(([name, texts]) => [name, Array.isArray(texts) ? texts.filter(isText) : []]));

// Reads the file once. What it lacks, or has in another form than is wanted, stays out.
export async function readDepartment() {
  try {
    const answer = await fetch('department.json', { cache: 'no-cache', signal: AbortSignal.timeout(5000) });
    const { name, address, contact, currency: unit, staff, texts, map } = await answer.json();
    store.department = {
      name: isText(name) ? name : UNNAMED.name,
      address: Array.isArray(address) ? address.filter(isText) : [],
      contact: isText(contact) ? contact : '',
      currency: isText(unit) && isCurrency(unit) ? unit : null,
      staff: Array.isArray(staff) ? staff.filter(isMember) : [],
      texts: textsOf(texts),
      map: isMap(map) ? map : null,
    };
  } catch (fault) {
    console.warn('department.json', fault);
  }
}

export const staffOf = role => department().staff.filter(member => member.role === role);

export const nameOf = number => department().staff.find(member => member.number === number)?.name ?? null;

export const textsFor = name => department().texts[name] ?? [];

// The head of what is printed: the department's name, its address and its counter.
export function letterheadLines() {
  const { name, address, contact } = department();
  return [said(name, 'strong'), ...[...address, ...(contact === '' ? [] : [contact])].flatMap(line => [el('br'), said(line)])];
}
