// The words of the office as a reader says them. The keys are those of rules.js.

import { currency, nameOf } from './department.js';
import { CERTIFIABLE, REQUIRED } from './rules.js';

export const VIEWS = {
  public: 'Resident',
  clerk: 'Clerk',
  reviewer: 'Reviewer',
  inspector: 'Inspector',
  official: 'Official',
};

export const KINDS = {
  construct: 'Construct',
  enlarge: 'Enlarge',
  alter: 'Alter',
  repair: 'Repair',
  move: 'Move',
  demolish: 'Demolish',
  occupancy: 'Occupancy',
};

// The same for who chooses one.
export const KIND_CHOICES = {
  construct: 'Construct: a new building',
  enlarge: 'Enlarge: an addition to a building',
  alter: 'Alter: a change inside a building',
  repair: 'Repair: mend what is there',
  move: 'Move: a building to another place',
  demolish: 'Demolish: take a building down',
  occupancy: 'Occupancy: a new use of a building',
};

export const STEPS = { footing: 'Footing', slab: 'Slab', frame: 'Frame', energy: 'Energy', lath: 'Lath', final: 'Final' };

// When the work is ready for each inspection.
export const STEP_HINTS = {
  footing: 'once the footings are dug and their steel is in place',
  slab: 'before the concrete of the floor is poured',
  frame: 'once roof, framing and bracing are in place and before they are covered',
  energy: 'once the insulation is in place and before it is covered',
  lath: 'once lath and wallboard are in place and before they are plastered',
  final: 'once all the work is done',
};

// An answer doesn't say from when a file is: that shows once frame is approved.
const hasEnergy = file => file.done.includes('energy') || file.next === 'energy';
const isPastEnergy = file => file.next === null || file.next === 'lath' || file.done.includes('lath');

export const isEnergyOpen = file => !hasEnergy(file) && !isPastEnergy(file);

export const stepsOf = file => REQUIRED[file.kind].filter(step => step !== 'energy' || hasEnergy(file) || !isPastEnergy(file));

// Whether a kind of work ends with a certificate.
export const isCertifiable = kind => CERTIFIABLE.includes(kind);

export const STAGES = {
  filed: 'Filed',
  review: 'In review',
  returned: 'Returned',
  approved: 'Plans approved',
  rejected: 'Rejected',
  issued: 'Permit issued',
  working: 'Work under way',
  revoked: 'Revoked',
  finaled: 'Work approved',
  certified: 'Certified',
  abandoned: 'Abandoned',
  lapsed: 'Lapsed',
};

export const SORTS = {
  permit: 'Permit',
  returned: 'Returned for changes',
  resubmitted: 'Sent again',
  rejected: 'Rejection',
  asked: 'Extension asked for',
  granted: 'Extension granted',
  refused: 'Extension refused',
  notice: 'Correction notice',
  stop: 'Stop work order',
  lifted: 'Stop work order lifted',
  revoked: 'Revocation',
  temporary: 'Temporary certificate',
  certificate: 'Certificate',
};

export const REGISTERS = { files: 'Files', deadlines: 'Deadlines', inspections: 'Inspections' };

// Parties are known by their numbers, since no answer has a name. The names of the staff stand in department.json.
export function party(number) {
  if (number === null) return 'none';
  const name = nameOf(Number(number));
  return name === null ? `party ${number}` : `party ${number}, ${name}`;
}

// The same at the beginning of a sentence.
export const partyFirst = number => `${party(number).replace('p', 'P')}${nameOf(Number(number)) === null ? '' : ','}`;

const digits = { minimumFractionDigits: 2, maximumFractionDigits: 2 };

// An amount with the currency of the department, where it names one.
export function money(cents) {
  const unit = currency() === null ? {} : { style: 'currency', currency: currency(), currencyDisplay: 'narrowSymbol' };
  return new Intl.NumberFormat(undefined, { ...digits, ...unit }).format(cents / 100);
}

// The same for a spreadsheet.
export const plainMoney = cents => (cents / 100).toFixed(2);

const countFormat = new Intl.NumberFormat();

export const count = number => countFormat.format(number);

export const plural = (number, one, many = `${one}s`) => `${count(number)} ${number === 1 ? one : many}`;
