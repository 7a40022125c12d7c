// The papers that a person is owed, each as it is printed: its title, the section of the code that it stands on, who
// signs it, and what it says. The sections are those of the International Building Code 2018.

import { dateNode } from './columns.js';
import { today } from './dates.js';
import { el, said } from './dom.js';
import { BEFORE_PERMIT, LONGEST_EXTENSION, REQUIRED, TERM, UNDER_PERMIT } from './rules.js';
import { STEPS, STEP_HINTS, isCertifiable, party, stepsOf } from './words.js';

const OFFICIAL = 'the building official';

// A text that somebody wrote, under what it is.
const quoted = (head, text) => [el('h2', {}, head), said(text, 'p')];

const paragraph = (...words) => el('p', {}, words);

const lastOf = (file, sort) => file.papers.findLast(paper => paper.sort === sort);

// What a permit is today, by the stage of its file: a word, since when, and what that means.
const ENDED = {
  rejected: file => ({ word: 'Rejected', day: lastOf(file, 'rejected').day, means: 'This application was rejected. No permit was issued on it.' }),
  abandoned: file => ({ word: 'Abandoned', day: file.deadline + 1, means: 'No permit was issued by the deadline, so this application counts as abandoned.' }),
  revoked: file => ({ word: 'Revoked', day: lastOf(file, 'revoked').day, means: 'This permit was revoked. No work may go on under it.' }),
  lapsed: file => ({ word: 'Lapsed', day: file.deadline + 1, means: 'This permit lapsed at its deadline. No work may go on under it.' }),
};

const stopOf = file => ({ word: 'Stop work', day: lastOf(file, 'stop').day, means: 'A stop work order stands on this file. No work may go on until it is lifted in writing.' });

// What stands against the permit of a file today. Nothing does while work may go on, or is done.
const againstPermit = file => [ENDED[file.stage]?.(file), file.stopped ? stopOf(file) : undefined].filter(found => found !== undefined);

// A temporary certificate ends with its last day, or by the next one, which takes its place.
function againstTemporary(file, paper) {
  const next = file.papers.find(other => other.sort === 'temporary' && other.number > paper.number);
  if (next !== undefined) return [{ word: 'Replaced', day: next.day, means: `Paper ${next.number} has taken the place of this certificate.` }];
  const end = paper.day + paper.days + 1;
  return today() < end ? [] : [{ word: 'Ended', day: end, means: 'The building may not be occupied by this certificate any longer.' }];
}

function againstStop(file, paper) {
  const lifted = file.papers.find(other => other.sort === 'lifted' && other.number > paper.number);
  return lifted === undefined ? [] : [{ word: 'Lifted', day: lifted.day, means: `This order was lifted by paper ${lifted.number}.` }];
}

const SAY_IT = { rejected: 'Rejected', revoked: 'Revoked', stop: 'Stop work' };

// What stands against a paper, which is more than what it says itself.
export function against(file, paper) {
  const own = paper.sort === 'temporary' ? againstTemporary(file, paper) : paper.sort === 'stop' ? againstStop(file, paper) : [];
  return [...own, ...againstPermit(file).filter(({ word }) => word !== SAY_IT[paper.sort])];
}

function aliveParts(file) {
  return [
    el('h2', {}, 'What keeps the permit alive'),
    paragraph(el('strong', {}, 'Deadline: ', dateNode(file.deadline)), ', as it stands today. The permit lapses the day after.'),
    paragraph(`Work has to begin within ${TERM} days. Beginning it, requesting an inspection, an approved inspection and a correction notice each give ${TERM} days from that day.`),
    paragraph(`An extension of at most ${LONGEST_EXTENSION.permit} days can be asked for in writing, with its cause, before the deadline.`),
  ];
}

// A permit that is stopped has still its deadline; one that ended has none.
function endedBody(file, paper) {
  const runsOn = UNDER_PERMIT.includes(file.stage) ? paragraph('Deadline: ', dateNode(file.deadline), '. It runs on while the work is stopped.') : null;
  return [paragraph('This permit was issued on ', dateNode(paper.day), '. What stands above in large letters holds now.'), runsOn];
}

function permitBody(file, paper) {
  if (againstPermit(file).length > 0) return endedBody(file, paper);
  const steps = el('ol', {}, stepsOf(file).map(step => el('li', {}, el('strong', {}, STEPS[step]), `: ${STEP_HINTS[step]}`)));
  return [
    paragraph('The work described above is permitted.'),
    el('h2', {}, 'Inspections, in this order'), steps,
    paragraph('Request each one when the work is ready for it. No work goes on past an inspection before it is approved.'),
    ...(UNDER_PERMIT.includes(file.stage) ? aliveParts(file) : [paragraph('The work is done, and all of its inspections are approved.')]),
    isCertifiable(file.kind) && file.stage !== 'certified' ? paragraph('The building may not be occupied before the department has given a certificate.') : null,
  ];
}

// Whether a paper was made under a permit: another paper before it is one.
const isUnderPermit = (file, paper) => file.papers.some(other => other.sort === 'permit' && other.number < paper.number);

function stopBody(file, paper) {
  const isLifted = againstStop(file, paper).length > 0;
  return [...quoted('Reason', paper.text), ...quoted('Conditions for going on', paper.terms),
    isLifted ? null : paragraph('Nobody may go on with this work until the department has lifted this order in writing.')];
}

function extensionSection(file, paper) {
  return isUnderPermit(file, paper) ? '105.5' : '105.3.2';
}

function grantBody(file, paper) {
  const isOpen = file.deadline !== null && [...BEFORE_PERMIT, ...UNDER_PERMIT].includes(file.stage);
  return [
    paragraph('The deadline is moved by ', el('strong', {}, `${paper.days} days`), '.'),
    isOpen ? paragraph(el('strong', {}, 'Deadline: ', dateNode(file.deadline)), ', as it stands today.') : null,
  ];
}

// By the sort of a paper. What isn't here is what an applicant wrote.
const DOCUMENTS = {
  permit: { title: 'Building permit', section: () => '105.3.1', signs: OFFICIAL, isValued: true, body: permitBody },
  certificate: {
    title: 'Certificate of occupancy', section: () => '111.2', signs: OFFICIAL, isValued: true,
    body: () => [paragraph('The building was inspected, and all inspections that the work asks for are approved. It may be occupied for the use described above.')],
  },
  temporary: {
    title: 'Temporary certificate of occupancy', section: () => '111.3', signs: OFFICIAL, isValued: true,
    body: (file, paper) => [
      paragraph('The building may be occupied, as far as this certificate says, before the work is done.'),
      paragraph(el('strong', {}, 'Last day: ', dateNode(paper.day + paper.days)), ` (${paper.days} days)`), ...quoted('For what', paper.text),
    ],
  },
  stop: { title: 'Stop work', section: () => '115.2', signs: 'the inspector or the building official', isPlacard: true, body: stopBody },
  lifted: {
    title: 'Stop work order lifted', section: () => '115.2', signs: OFFICIAL,
    body: file => [paragraph('The stop work order on this file is lifted', againstPermit(file).length > 0 ? '.' : '. The work may go on.')],
  },
  notice: {
    title: 'Correction notice', section: () => '110.6', signs: 'the inspector',
    body: (file, paper) => [
      ...quoted('What has to be corrected', paper.text),
      paragraph(!paper.open ? 'This notice is cleared: what it names was corrected.'
        : againstPermit(file).length > 0 ? 'This notice is open.'
          : 'Correct this, and request the inspection again. No work may cover it before it is approved.'),
    ],
  },
  returned: {
    title: 'Plans returned for changes', section: () => '105.3.1', signs: 'the reviewer',
    body: (file, paper) => [...quoted('What has to be changed', paper.text), file.stage === 'returned' ? paragraph('Answer, and send the plans again.') : null],
  },
  rejected: {
    title: 'Application rejected', section: () => '105.3.1', signs: OFFICIAL,
    body: (file, paper) => [...quoted('Reasons', paper.text), paragraph('This file is closed. To go on, file a new application.')],
  },
  granted: { title: 'Extension granted', section: extensionSection, signs: OFFICIAL, body: grantBody },
  refused: {
    title: 'Extension refused', section: extensionSection, signs: OFFICIAL,
    body: (file, paper) => [...quoted('Reasons', paper.text), paragraph('The deadline stays as it is.')],
  },
  revoked: {
    title: 'Permit revoked', section: () => '105.6', signs: OFFICIAL,
    body: (file, paper) => [...quoted('Reasons', paper.text), paragraph('The permit holds no longer. The work has to stop.')],
  },
};

export const isDocument = paper => paper.sort in DOCUMENTS;

export const documentOf = paper => DOCUMENTS[paper.sort];

// The inspections of a kind of work in words, for who is about to file.
export const inspectionsOf = kind => REQUIRED[kind].map(step => STEPS[step].toLowerCase()).join(', ');

export const authorOf = paper => party(paper.author);
