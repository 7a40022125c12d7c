// One file: what comes next, what stands against the work, what can be done, its way, its inspections and its papers.

import { read } from './api.js';
import { dateNode, deadlineNode } from './columns.js';
import { documentOf, isDocument } from './documents.js';
import { el, factList, said, title } from './dom.js';
import { calendarButton } from './downloads.js';
import { commandsSection } from './file-commands.js';
import { endOf, isApplicants, nextOf, toDoOf, untilOf } from './next.js';
import { placeNode, placeText } from './places.js';
import { CLOSED, PASSED } from './rules.js';
import { learnToday } from './today.js';
import { KINDS, SORTS, STAGES, STEPS, STEP_HINTS, isCertifiable, isEnergyOpen, money, party, stepsOf } from './words.js';

function paperBody(paper) {
  return [
    paper.days > 0 ? el('p', {}, `${paper.days} days`) : null,
    paper.text === '' ? null : said(paper.text, 'p'),
    paper.terms === '' ? null : el('p', { class: 'label' }, 'Conditions for going on:'),
    paper.terms === '' ? null : said(paper.terms, 'p'),
  ];
}

function paperHead(paper) {
  const open = paper.sort === 'notice' ? (paper.open ? ', open' : ', cleared') : '';
  return el('p', { class: 'paper-head' }, el('strong', {}, `${SORTS[paper.sort]}${open}`),
    ` (paper ${paper.number}), `, dateNode(paper.day), `, by ${party(paper.author)}`);
}

function printLink(file, paper) {
  if (!isDocument(paper)) return null;
  const what = documentOf(paper).title.toLowerCase();
  return el('p', { class: 'unprinted' }, el('a', { href: `#/files/${file.id}/papers/${paper.number}` }, `Print paper ${paper.number}: ${what}`));
}

// What an applicant has to do and until when; to others, what comes next and until when.
function nextSection(file, view) {
  const isMine = view === 'public';
  const until = untilOf(file, isMine);
  const waits = isApplicants(file) ? 'This waits for the applicant: ' : '';
  const end = endOf(file);
  const sentences = isMine ? [el('strong', {}, toDoOf(file)), isApplicants(file) ? null : ` ${nextOf(file)}.`]
    : [waits, el('strong', {}, `${nextOf(file)}.`)];
  return el('section', { class: 'next' }, el('h2', {}, end === null ? 'What happens next' : 'What happened'),
    end === null ? null : el('p', {}, end), el('p', {}, sentences.filter(part => part !== null)),
    until === null ? null : el('p', {}, until),
    isMine && CLOSED.includes(file.stage) ? el('p', { class: 'unprinted' }, el('a', { href: `#/apply/again/${file.id}` }, 'File this again')) : null);
}

// Open notices and the standing stop order come before everything else.
function againstSection(file) {
  const stop = file.stopped ? file.papers.filter(paper => paper.sort === 'stop').slice(-1) : [];
  const papers = [...stop, ...file.papers.filter(paper => paper.open)];
  if (papers.length === 0) return null;
  return el('section', { class: 'against' }, el('h2', {}, 'Against the work'),
    papers.map(paper => el('article', {}, paperHead(paper), paperBody(paper), printLink(file, paper))));
}

// The way from filing to certificate with the stage that the file is in. What closes a file ends its way.
function waySection(file) {
  const passed = PASSED[file.stage];
  const last = isCertifiable(file.kind) ? ['finaled', 'certified'] : ['finaled'];
  const whole = ['filed', 'review', 'approved', 'issued', 'working', ...last];
  const place = whole.indexOf(file.stage === 'returned' ? 'filed' : file.stage);
  const coming = CLOSED.includes(file.stage) ? [] : whole.slice(place + 1);
  const stages = [...passed, file.stage, ...coming];
  const items = stages.map((stage, place) => {
    const how = place < passed.length ? 'passed' : place === passed.length ? 'here' : 'coming';
    const words = { passed: 'done', here: CLOSED.includes(stage) ? 'ended here' : 'now', coming: 'to come' };
    return el('li', { class: `${how} ${stage}`, 'aria-current': how === 'here' ? 'step' : null },
      el('span', { class: 'stage' }, STAGES[stage]), el('span', { class: 'how' }, words[how]));
  });
  const title = isCertifiable(file.kind) ? 'The way to the certificate' : 'The way to the final inspection';
  return el('section', {}, el('h2', {}, title), el('ol', { class: 'way' }, items));
}

function stepWords(file, step) {
  if (file.done.includes(step)) return ['passed', 'approved'];
  if (step === file.request) return ['here', 'requested'];
  if (step === file.next) return [file.stage === 'working' ? 'here' : 'coming', `next: ${STEP_HINTS[step]}`];
  if (step === 'energy' && isEnergyOpen(file)) return ['coming', 'to come, unless the file is from before this inspection'];
  return ['coming', 'to come'];
}

function stepsSection(file) {
  const items = stepsOf(file).map(step => {
    const [how, words] = stepWords(file, step);
    const since = step === file.request ? [', since ', dateNode(file.requested)] : [];
    return el('li', { class: how }, el('span', { class: 'stage' }, STEPS[step]), el('span', { class: 'how' }, words, since));
  });
  const where = file.request === null ? null
    : el('p', {}, `${STEPS[file.request]} is to be inspected at `, placeNode(file.parcel), '.');
  return el('section', {}, el('h2', {}, 'Inspections'), where, el('ol', { class: 'way' }, items));
}

function factsSection(file) {
  const facts = [
    ['Place', placeNode(file.parcel)],
    ['Kind of work', KINDS[file.kind]],
    ['Valuation', money(file.valuation)],
    ['Filed', dateNode(file.filed)],
    ['Deadline', deadlineNode(file)],
    ['Applicant', party(file.applicant)],
    ['Contractor', party(file.contractor)],
    ['Reviewer', party(file.reviewer)],
    ['Inspector', party(file.inspector)],
    ['Extension asked for', file.ask === null ? 'none' : `${file.ask} days`],
    ['Temporary certificate', file.temporary === null ? 'none' : el('span', {}, 'until ', dateNode(file.temporary))],
  ];
  return el('section', {}, el('h2', {}, 'Facts'), factList(facts));
}

function papersSection(file) {
  const items = file.papers.map(paper => el('li', { class: paper.sort }, paperHead(paper), paperBody(paper), printLink(file, paper)));
  return el('section', {}, el('h2', {}, `History (${file.papers.length})`),
    items.length === 0 ? el('p', { class: 'none' }, 'None yet. The permit, notices and certificates appear here.') : el('ol', { class: 'papers' }, items));
}

function calendarLine(file) {
  if (file.deadline === null) return null;
  return el('p', { class: 'actions unprinted' }, calendarButton(file, () => placeText(file.parcel), `${nextOf(file)}. ${untilOf(file) ?? ''}`));
}

// `calls` has `again`, which reads the file anew, and `done`, which does so with words for what was accepted.
export async function fileView(id, view, calls) {
  const file = await read(`/files/${id}`);
  await learnToday([file]);
  const stopped = file.stopped ? ', stopped' : '';
  return el('div', {},
    title(`File ${file.id}: ${KINDS[file.kind]}`),
    said(file.description, 'p'),
    el('p', { class: 'where' }, placeNode(file.parcel)),
    el('p', { class: 'lead' }, el('strong', {}, `${STAGES[file.stage]}${stopped}`), '. Deadline: ', deadlineNode(file), '.'),
    againstSection(file),
    nextSection(file, view),
    commandsSection(file, view, calls),
    papersSection(file),
    stepsSection(file),
    waySection(file),
    factsSection(file),
    calendarLine(file));
}
