// Every command of docs/HTTP.md as a form: its words and its fields. Who does it and in which stages stands in rules.js.
// What can't be taken back has `so`: what will follow, in a sentence, and `undone`
// where somebody else can take it back. `did` says what was changed.

import { dateText, today } from './dates.js';
import { COMMANDS, LONGEST_TEMPORARY, TERM, askLimit } from './rules.js';
import { STEPS, party, partyFirst } from './words.js';

const nowIs = (what, key) => file => (file[key] === null ? null : `Now ${what} is ${party(file[key])}. You name another in their place.`);

const stepOf = ({ step }) => STEPS[step].toLowerCase();

const approvedStep = (file, body) => (body.step === 'final'
  ? `All of the work on file ${file.id} is approved. No inspection comes after this one.`
  : `The inspection of ${stepOf(body)} is approved, and the work may go on past it.`);

// An activity never makes a deadline earlier.
const afterActivity = file => dateText(Math.max(file.deadline, today() + TERM));

// The commands on a file, each with the fields of its body.
export const FILE_COMMANDS = [
  { action: 'assign-reviewer', label: 'Assign a reviewer', did: (file, body) => `${partyFirst(body.party)} reviews file ${file.id}`,
    fields: [{ key: 'party', type: 'staff', role: 'reviewer', label: 'Reviewer', now: nowIs('the reviewer', 'reviewer') }] },
  { action: 'assign-inspector', label: 'Assign an inspector', did: (file, body) => `${partyFirst(body.party)} inspects file ${file.id}`,
    fields: [{ key: 'party', type: 'staff', role: 'inspector', label: 'Inspector', now: nowIs('the inspector', 'inspector') }] },
  { action: 'start-review', label: 'Start the review', did: file => `The review of file ${file.id} has begun`, fields: [] },
  { action: 'approve-plans', label: 'Approve the plans', did: file => `The plans of file ${file.id} are approved`,
    so: file => `The plans of file ${file.id} are approved as they are. The permit can be issued on them.`, fields: [] },
  { action: 'return', label: 'Return the plans for changes', did: file => `The plans of file ${file.id} went back to the applicant for changes`,
    fields: [{ key: 'text', type: 'text', texts: 'return', label: 'What has to be changed' }] },
  { action: 'reject', label: 'Reject the plans', did: file => `File ${file.id} is rejected and closed`,
    so: file => `File ${file.id} is closed for good. Its applicant has to file anew.`,
    fields: [{ key: 'text', type: 'text', texts: 'reject', label: 'Reasons' }] },
  { action: 'resubmit', label: 'Send the plans again', did: file => `The plans of file ${file.id} were sent again`,
    fields: [{ key: 'text', type: 'text', label: 'What was changed' }] },
  { action: 'issue', label: 'Issue the permit', did: file => `The permit of file ${file.id} is issued`,
    so: file => `The permit of file ${file.id} is issued today. The work has to begin by ${dateText(today() + TERM)}, or it lapses.`, fields: [] },
  { action: 'begin-work', label: 'Begin the work', did: file => `The work on file ${file.id} has begun`,
    so: () => 'From today the work counts as begun, and inspections can be requested.', fields: [] },
  { action: 'request-inspection', label: 'Request an inspection', did: (file, body) => `The inspection of ${stepOf(body)} is requested on file ${file.id}`,
    fields: [{ key: 'step', type: 'step', label: 'Inspection', first: file => file.next }] },
  { action: 'approve-step', label: 'Approve a step', did: (file, body) => `The inspection of ${stepOf(body)} is approved on file ${file.id}`, so: approvedStep,
    fields: [{ key: 'step', type: 'step', label: 'Inspection', first: file => file.request }] },
  { action: 'notice', label: 'Give a correction notice', did: (file, body, number) => `Correction notice ${number} is given on file ${file.id}`,
    so: file => `The request for the inspection of ${stepOf({ step: file.request })} is closed. It has to be requested again, and can't be approved before this notice is cleared. The deadline is then ${afterActivity(file)}.`,
    fields: [{ key: 'text', type: 'text', texts: 'notice', label: 'What has to be corrected' }] },
  { action: 'clear-notice', label: 'Clear a correction notice', did: (file, body) => `Correction notice ${body.paper} of file ${file.id} is cleared`,
    fields: [{ key: 'paper', type: 'paper', label: 'Number of the notice', first: file => file.papers.find(paper => paper.open)?.number }] },
  { action: 'stop', label: 'Order the work stopped', did: file => `The work on file ${file.id} is stopped`,
    so: file => `All work on file ${file.id} has to stop at once. No work can begin, no inspection can be requested or approved and no certificate can be given. The deadline runs on.`,
    undone: 'Only the building official can lift the order.',
    fields: [{ key: 'text', type: 'text', texts: 'stop', label: 'Reason' }, { key: 'conditions', type: 'text', label: 'Conditions for going on' }] },
  { action: 'lift', label: 'Lift the stop work order', did: file => `The stop work order on file ${file.id} is lifted`, fields: [] },
  { action: 'ask-extension', label: 'Ask for more time', did: (file, body) => `${body.days} days more are asked for on file ${file.id}`,
    fields: [{ key: 'days', type: 'days', label: 'Days', most: askLimit }, { key: 'text', type: 'text', label: 'Cause' }] },
  { action: 'grant-extension', label: 'Grant the extension', did: file => `File ${file.id} has ${file.ask} days more`,
    so: file => `The deadline moves by ${file.ask} days, to ${dateText(file.deadline + file.ask)}.`, fields: [] },
  { action: 'refuse-extension', label: 'Refuse the extension', did: file => `The extension of file ${file.id} is refused`,
    so: file => `The deadline stays ${dateText(file.deadline)}. The applicant can ask again until then.`,
    fields: [{ key: 'text', type: 'text', texts: 'refuse', label: 'Reasons' }] },
  { action: 'name-contractor', label: 'Name the contractor', did: (file, body) => `${partyFirst(body.party)} is the contractor of file ${file.id}`,
    fields: [{ key: 'party', type: 'party', label: 'Number of the contractor', now: nowIs('the contractor', 'contractor') }] },
  { action: 'temporary', label: 'Give a temporary certificate', did: (file, body) => `File ${file.id} has a temporary certificate of ${body.days} days`,
    so: (file, { days }) => `The building may be occupied until ${dateText(today() + days)}, and not after that day.`,
    fields: [{ key: 'days', type: 'days', label: 'Days', most: () => LONGEST_TEMPORARY }, { key: 'text', type: 'text', label: 'For what' }] },
  { action: 'certify', label: 'Give the certificate', did: file => `File ${file.id} has its certificate`,
    so: file => `The building of file ${file.id} may be occupied from today, for good.`, fields: [] },
  { action: 'revoke', label: 'Revoke the permit', did: file => `The permit of file ${file.id} is revoked`,
    so: file => `File ${file.id} is closed for good, and its work has to stop.`,
    fields: [{ key: 'text', type: 'text', label: 'Reasons' }] },
];

// Who does a command: those whose part it is, and the official.
export const actorsOf = ({ action }) => [...COMMANDS[action].who, 'official'];

// Whether a command is what a file waits for, so that its form stands open.
const EXPECTED = {
  'assign-reviewer': file => file.reviewer === null,
  'assign-inspector': file => file.inspector === null,
  'name-contractor': () => false,
  'return': () => false,
  'reject': () => false,
  'stop': () => false,
  'ask-extension': () => false,
  'temporary': () => false,
  'revoke': () => false,
  'refuse-extension': () => false,
  'notice': () => false,
};
export const isExpected = ({ action }, file) => EXPECTED[action]?.(file) ?? true;

// The commands on a parcel, and who does them.
export const PARCEL_COMMANDS = [
  { action: 'declare', label: 'Declare an interest in this parcel', who: ['clerk', 'reviewer', 'inspector', 'official'],
    did: id => `Your interest in parcel ${id} is declared`,
    so: () => 'You can\'t be assigned to a file on this parcel any more. On its files the department\'s policy then forbids you to start a review, to return, approve or reject plans, to issue a permit, to approve an inspection, to give or clear a notice, and to give a certificate. It forbids neither to stop or revoke, nor to lift a stop work order, nor to answer an extension request.',
    fields: [] },
  { action: 'transfer', label: 'Transfer this parcel', who: ['clerk', 'official'],
    did: (id, { to }) => `Parcel ${id} is now with ${party(to)}`,
    so: (id, { to }) => `Parcel ${id} belongs to ${party(to)} from now on, who sees its files. The owner before sees them no longer, unless as applicant or contractor.`,
    undone: 'Only another transfer changes it.',
    fields: [{ key: 'to', type: 'party', label: 'Number of the new owner' }] },
];

// What makes a file, a parcel and a party, each by a POST to its path.
export const FILING = { path: '/files', label: 'File an application', fields: [
  { key: 'parcel', type: 'parcel', label: 'Number of the parcel' },
  { key: 'kind', type: 'kind', label: 'Kind of work' },
  { key: 'valuation', type: 'money', label: 'Valuation of the work' },
  { key: 'description', type: 'text', label: 'Description of the work and the use' },
] };

export const NEW_PARCEL = { path: '/parcels', label: 'Add a parcel', fields: [
  { key: 'lot', type: 'lot', label: 'Lot' },
  { key: 'address', type: 'line', label: 'Address' },
  { key: 'owner', type: 'party', label: 'Number of the owner' },
] };

export const NEW_PARTY = { path: '/parties', label: 'Add a person', fields: [
  { key: 'name', type: 'line', label: 'Name' },
  { key: 'role', type: 'role', label: 'Role' },
  { key: 'token', type: 'newToken', label: 'Token' },
] };
