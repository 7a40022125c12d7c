// What comes next in a file: in a few words for a table, and told to its applicant with what there is to do and until when.

import { dateText } from './dates.js';
import { BEFORE_PERMIT, UNDER_PERMIT } from './rules.js';
import { STEPS, isCertifiable } from './words.js';

const stepOf = step => STEPS[step].toLowerCase();

const afterPermit = file => {
  if (file.stopped) return 'Meet the stop work order; the official lifts it';
  if (file.stage === 'issued') return 'Begin the work';
  if (file.request !== null) {
    const open = file.notices > 0 ? ', with a notice open' : '';
    return `The inspector comes for ${stepOf(file.request)}${open}`;
  }
  if (file.notices > 0) return `Correct what the notice says and request ${stepOf(file.next)} again`;
  return `Request the inspection of ${stepOf(file.next)}`;
};

const NEXT = {
  filed: file => (file.reviewer === null ? 'The clerk assigns a reviewer' : 'The reviewer starts the review'),
  review: () => 'The reviewer decides on the plans',
  returned: () => 'Answer the reviewer and send the plans again',
  approved: () => 'The official issues the permit',
  rejected: () => 'Closed: the plans were rejected',
  issued: afterPermit,
  working: afterPermit,
  revoked: () => 'Closed: the permit was revoked',
  finaled: file => {
    if (!isCertifiable(file.kind)) return 'Done: this work has no certificate';
    return file.stopped ? 'The official lifts the stop work order' : 'The official gives the certificate';
  },
  certified: () => 'Done: the certificate was given',
  abandoned: () => 'Closed: no permit came before the deadline',
  lapsed: () => 'Closed: the permit lapsed at its deadline',
};

// What comes next, whoever does it.
export const nextOf = file => NEXT[file.stage](file);

const NOTHING = 'You have nothing to do now.';
const NEW_FILE = 'To go on, file a new application.';

function workToDo(file) {
  if (file.stopped) return 'Stop the work. Do what the stop work order asks, and tell the department when it is done.';
  if (file.stage === 'issued') return 'Begin the work, and say here that it has begun.';
  if (file.request !== null) return 'Keep the work open to see until the inspector has been there.';
  if (file.notices > 0) return `Correct what the notice says. Then request the inspection of ${stepOf(file.next)} again.`;
  return `Request the inspection of ${stepOf(file.next)} once the work is ready for it.`;
}

const TO_DO = {
  filed: () => NOTHING,
  review: () => NOTHING,
  returned: () => 'Read what the reviewer wants changed. Answer, and send the plans again.',
  approved: () => NOTHING,
  rejected: () => `Read the reasons below. ${NEW_FILE}`,
  issued: workToDo,
  working: workToDo,
  revoked: () => 'Stop the work. Read the reasons below.',
  finaled: file => (file.stopped ? 'Do what the stop work order asks.' : NOTHING),
  certified: () => 'You may occupy and use the building as it was certified.',
  abandoned: () => `More time can't be given any more. ${NEW_FILE}`,
  lapsed: () => `No work may go on under this permit, and more time can't be given any more. ${NEW_FILE}`,
};

// What its applicant has to do, in sentences.
export const toDoOf = file => TO_DO[file.stage](file);

// Whether it is the applicant, or the contractor, for whom a file waits.
export const isApplicants = file => file.stage === 'returned' || (UNDER_PERMIT.includes(file.stage) && !file.stopped && file.request === null);

const CLOSED_BY = { rejected: 'The plans were rejected', revoked: 'The permit was revoked' };

// How a file ended, by a paper or at its deadline, in sentences; null where it didn't.
export function endOf(file) {
  if (file.stage in CLOSED_BY) return `${CLOSED_BY[file.stage]} on ${dateText(file.papers.findLast(paper => paper.sort === file.stage).day)}.`;
  if (file.stage !== 'abandoned' && file.stage !== 'lapsed') return null;
  const [last, since] = [dateText(file.deadline), dateText(file.deadline + 1)];
  const asked = file.ask === null ? '' : ` The extension of ${file.ask} days that was asked for was not granted in time.`;
  return (file.stage === 'abandoned'
    ? `No permit was issued by ${last}. The application counts as abandoned since ${since}.`
    : `The deadline of the permit, ${last}, passed without anything that would have moved it. The permit lapsed, and holds no longer since ${since}.`) + asked;
}

// Until when something has to happen, and what comes of it otherwise; null where no deadline runs. `isMine` says that
// it is told to who has to do it.
export function untilOf(file, isMine = true) {
  if (file.deadline === null) return null;
  const day = dateText(file.deadline);
  if (BEFORE_PERMIT.includes(file.stage)) {
    const longer = file.ask !== null ? 'More time was asked for.'
      : isMine ? 'You can ask for more time until then.' : 'The applicant can ask for more time until then.';
    return `The permit has to be issued by ${day}, or the application is abandoned. ${longer}`;
  }
  if (!UNDER_PERMIT.includes(file.stage)) return null;
  const waits = !isMine || file.stopped || file.request !== null;
  return waits ? `The permit lapses after ${day}, unless the work goes on before then.` : `Do this by ${day}, or the permit lapses.`;
}
