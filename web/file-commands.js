// What can be done on a file: what it admits as it stands, by who does it, and the rest under one line.

import { read } from './api.js';
import { FILE_COMMANDS, actorsOf, isExpected } from './commands.js';
import { el, said } from './dom.js';
import { foldedForm } from './forms.js';
import { placeNode } from './places.js';
import { REASONS } from './refusals.js';
import { COMMANDS, reasonAgainst } from './rules.js';
import { STAGES } from './words.js';

// What is shown before a command that can't be taken back.
function checkOf(command, file) {
  if (command.so === undefined) return null;
  return body => ({
    yes: command.label,
    nodes: [
      el('p', {}, el('strong', {}, command.so(file, body)), ` ${command.undone ?? 'This can\'t be taken back.'}`),
      el('p', {}, `File ${file.id}: `, said(file.description)), el('p', {}, placeNode(file.parcel)),
      body.text === undefined ? null : el('p', {}, 'In writing: ', said(body.text)),
    ].filter(node => node !== null),
  });
}

// Looks at the file as it stands, where the answer to a command never came.
async function looked(file) {
  const now = await read(`/files/${file.id}`);
  if (JSON.stringify(now) === JSON.stringify(file)) return 'The file stands as it did before: this was not done so far.';
  return 'The file has changed since: look at it again before you send this once more.';
}

function commandForm(command, file, isOwn, { again, done }) {
  return foldedForm({
    path: `/files/${file.id}/${command.action}`,
    label: command.label,
    fields: command.fields,
    file,
    open: isOwn && isExpected(command, file),
    check: checkOf(command, file),
    look: () => looked(file),
    again,
    done: ({ number }, body) => done(`${command.did(file, body, number)}.`, file.id),
  });
}

// What isn't there for a command to answer, or is there already.
const NOT_NOW = {
  'ask-extension': 'More time was asked for already.',
  'grant-extension': 'Nobody asked for more time.',
  'refuse-extension': 'Nobody asked for more time.',
  'request-inspection': 'An inspection is requested already.',
  'approve-step': 'No inspection is requested.',
  'notice': 'No inspection is requested.',
  'lift': 'No stop work order stands.',
};
const isPending = reason => reason === 'pending' || reason === 'nothing-pending';

function refusedNode(command, file) {
  const reason = reasonAgainst(command.action, file);
  const stages = COMMANDS[command.action].stages.map(stage => STAGES[stage].toLowerCase()).join(', ');
  const words = reason === 'stage' ? `Not in the stage ${STAGES[file.stage].toLowerCase()}, only in: ${stages}.`
    : isPending(reason) ? NOT_NOW[command.action] : REASONS[reason].join(' ');
  return el('li', {}, el('strong', {}, command.label), `: ${words}`);
}

// The forms of the reader's own part, and, folded, those that the official may do in the place of somebody else.
function groupsOf(commands, view, file, calls) {
  const isOwn = command => view !== 'official' || COMMANDS[command.action].who.length === 0;
  const own = commands.filter(isOwn);
  const others = commands.filter(command => !isOwn(command));
  const forms = (list, isFirst) => list.map(command => commandForm(command, file, isFirst, calls));
  return [
    own.length === 0 ? null : el('div', { class: 'group own' }, forms(own, true)),
    others.length === 0 ? null : el('details', { class: 'others' },
      el('summary', {}, `In the place of somebody else (${others.length})`), forms(others, false)),
  ];
}

// What the reader's role may do on a file; what isn't admitted now stands under one line, with why.
export function commandsSection(file, view, calls) {
  const mine = FILE_COMMANDS.filter(command => actorsOf(command).includes(view));
  const open = mine.filter(command => reasonAgainst(command.action, file) === null);
  const rest = mine.filter(command => !open.includes(command));
  return el('section', { class: 'unprinted' }, el('h2', {}, 'What you can do'),
    open.length === 0 ? el('p', { class: 'none' }, 'Nothing is to be done by you now.') : groupsOf(open, view, file, calls),
    rest.length === 0 ? null : el('details', { class: 'others' },
      el('summary', {}, `What can't be done now (${rest.length})`), el('ul', {}, rest.map(command => refusedNode(command, file)))));
}
