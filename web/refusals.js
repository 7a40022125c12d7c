// What each refusal says, and what to do about it. Every refusal, and every reason, of docs/HTTP.md has a line here.

import { el, said } from './dom.js';
import { LONGEST_EXTENSION, LONGEST_TEMPORARY, MOST_NUMBER } from './rules.js';
import { view } from './session.js';
import { count } from './words.js';

// By the word that is refused. The last four are not the office's: the proxy held it back, nothing came, not in time,
// or something else than an answer.
export const REFUSALS = {
  'syntax': ['Something here is out of its limits.', 'Compare each field with the limits beside it, and send it again.'],
  'large': ['This is more than the office takes at once.', 'Shorten the texts, and send it again.'],
  'route': ['There is no page at this address.', `Check the number in it: it is 1 to ${count(MOST_NUMBER)}.`],
  'caller': ['Nobody in this office has this token.', 'Check each letter of it, or ask who gave it to you.'],
  'clock': ['The clock of the office is behind the last thing it accepted.', 'Nothing is accepted until it is set right: tell who runs the machine.'],
  'record': ['There is no file or parcel with this number.', 'Check the number, or look for it in the list of files.'],
  'denied': ['The policy of the office denies this.', 'Ask {whom} who does this.'],
  'not-admitted': ['The state of things stands against it.', 'See below what stands against it.'],
  'store': ['The disk or the memory of the office failed.', 'Tell who runs the machine, and try again once it is mended.'],
  'busy': ['Too many requests came from your address at once.', 'This one was held back, and nothing was done. Wait some seconds, and send it again.'],
  'away': ['The office does not answer.', 'Try again in a moment. What you had sent may or may not have been done.'],
  'slow': ['The office has not answered for 15 seconds.', 'What you had sent may or may not have been done. Look before you send it again.'],
  'unclear': ['What came back is no answer of the office.', 'What you had sent may or may not have been done. Tell who runs the machine.'],
};

// By the reason, where the state doesn't admit it.
export const REASONS = {
  'stage': ['The file is not in a stage for this.', 'Look at the file again: somebody may have moved it on, or its deadline has passed.'],
  'stopped': ['A stop work order stands.', 'Meet its conditions, and have the official lift it first.'],
  'person': ['The party is not there, or has another role than this needs.', 'Check the number of the party.'],
  'interested': ['The party is applicant, contractor or owner, or declared an interest in the parcel.', 'Name somebody who has no part in it.'],
  'days': ['These are more days than may be asked for.', `Ask for at most ${LONGEST_EXTENSION.application} before the permit, at most ${LONGEST_EXTENSION.permit} after it, and at most ${LONGEST_TEMPORARY} for a temporary certificate.`],
  'pending': ['This was asked for already, and is not answered yet.', 'Wait until it is answered.'],
  'nothing-pending': ['Nothing is pending that this would answer.', 'Look at the file again: somebody may have answered it before you.'],
  'step': ['This is not the next step, or not the one requested.', 'Look at the steps of the file, and take the one that is next or requested.'],
  'notice-open': ['A correction notice is open.', 'Clear the notice first, once what it names is corrected.'],
  'no-such-notice': ['No open notice of this file has this number.', 'Take the number of a notice that the file shows as open.'],
  'kind': ['This kind of work has no certificate.', 'Nothing more is to be done: the file ends with the final inspection.'],
  'taken': ['The token, the lot, the owner or the interest is there already.', 'Look whether it was done before; else take another.'],
  'full': ['No number is left for one more.', 'Tell the official: the office has reached its limit.'],
  'far': ['The new deadline would be too far off.', 'Refuse this ask; fewer days may then be asked for.'],
};

// By the rule that denied, for the standard policy. A rule of another name is named alone.
export const RULES = {
  'default': ['No rule allows it to you here.', 'It is for somebody else: ask {whom} whose part it is.'],
  'no-conflict': ['You declared an interest in this parcel.', 'Somebody without an interest has to decide; tell {whom}.'],
  'own-work': ['You are applicant, contractor or owner here.', 'Nobody decides on a file of their own; tell {whom}.'],
  'closed-to-public': ['The deadline of this file has passed.', 'The application is abandoned, or its permit lapsed, and the file is closed to the public: ask {whom} about it. To go on with the work, file a new application.'],
};

const ANOTHER_RULE = ['The rule of this name stands in the policy of the office.', 'Ask {whom} what it is for.'];

// Whom each reader asks: nobody is sent to themselves.
const WHOM = { public: 'the counter', clerk: 'the official', reviewer: 'the clerk', inspector: 'the clerk', official: 'who keeps the policy' };

// What a refusal says, and what to do, as two sentences.
export function wordsOf({ word, reason, rule }) {
  const words = word === 'not-admitted' && reason in REASONS ? REASONS[reason]
    : word === 'denied' ? RULES[rule] ?? ANOTHER_RULE : REFUSALS[word] ?? REFUSALS.unclear;
  return words.map(sentence => sentence.replace('{whom}', WHOM[view()]));
}

// What is there already, by the field that says it. A form without one of them is that of an interest.
const TAKEN = {
  token: ['Somebody has this token already.', 'Look whether the person was added before; else take another token.'],
  lot: ['A parcel of this lot is there already.', 'Look for it among the parcels, and check the lot.'],
  to: ['The parcel is with this party already.', 'Nothing has to be done, or the number is another one.'],
};
const TAKEN_INTEREST = ['You declared an interest in this parcel before.', 'It holds for good: nothing has to be done.'];

// The same, for a form whose field is the cause.
export const wordsFor = (refusal, field) => (refusal.reason === 'taken' ? TAKEN[field?.key] ?? TAKEN_INTEREST : wordsOf(refusal));

// The field that a refusal is about, by its reason: the first of these keys that a form has.
const CAUSES = {
  'person': ['party', 'owner', 'to'], 'interested': ['party'], 'days': ['days'], 'step': ['step'], 'no-such-notice': ['paper'],
  'taken': ['token', 'lot', 'to'],
};

export function causeOf({ word, reason }, keys) {
  const causes = word === 'record' ? ['parcel'] : CAUSES[reason] ?? [];
  return causes.find(key => keys.includes(key)) ?? null;
}

// A link to a field of the form, which is no address of the page.
function fieldLink(field, words) {
  const go = event => {
    event.preventDefault();
    field.control.focus();
  };
  return el('a', { href: `#${field.control.id}`, onclick: go }, words);
}

const ruleNode = ({ rule }) => el('details', {}, el('summary', {}, 'Which rule'), el('p', {}, 'The rule: ', said(rule, 'code')));

const UNANSWERED = ['away', 'slow', 'unclear'];
const ASKED_AGAIN = ['busy', ...UNANSWERED];

const box = (...children) => el('div', { class: 'refusal', role: 'alert', tabindex: '-1' }, children);

// What is wrong with the fields of a form, before it is sent: each with its fault.
export function faultBox(faults) {
  const item = ([field, fault]) => el('li', {}, fieldLink(field, `${field.label}: ${fault}`));
  return box(el('p', {}, el('strong', {}, 'There is a problem')), el('ul', {}, faults.map(item)));
}

// A refusal in the place of what was to be read. Nothing was sent, and where nothing came it is asked again by itself.
export function unreadBox(refusal, ...actions) {
  const [what, todo] = wordsOf(refusal);
  const isAskedAgain = ASKED_AGAIN.includes(refusal.word);
  return box(el('p', {}, el('strong', {}, what)), el('p', {}, isAskedAgain ? 'It is asked again by itself.' : todo),
    refusal.word === 'denied' ? ruleNode(refusal) : null, el('p', { class: 'actions' }, actions));
}

// A refusal to show. It takes the focus, so that it is read out and met by the keyboard. `field` is the one it is about,
// and `found` tells what came of looking whether it was done.
export function refusalBox(refusal, { field = null, found = null, actions = [] } = {}) {
  const [what, todo] = wordsFor(refusal, field);
  const denied = refusal.word === 'denied';
  const begins = UNANSWERED.includes(refusal.word) ? 'No answer. ' : 'Refused. ';
  return box(
    el('p', {}, el('strong', {}, begins), denied ? 'The policy of the office denies this. ' : null,
      field ? fieldLink(field, `${field.label}: ${what}`) : what),
    denied ? ruleNode(refusal) : null,
    el('p', {}, todo), found,
    actions.length > 0 ? el('p', { class: 'actions' }, actions) : null);
}
