// What waits for me, by the view: groups of the files that I may list; and the official's counts of the whole office.

import { read } from './api.js';
import { COLUMNS, outOf } from './columns.js';
import { button, el, title as heading } from './dom.js';
import { csvButton } from './downloads.js';
import { NAMED, hashOf } from './filters.js';
import { listed, listedIn } from './lists.js';
import { pace } from './pace.js';
import { BEFORE_PERMIT, NEAR, UNDER_PERMIT } from './rules.js';
import { store } from './store.js';
import { makeTable } from './table.js';
import { VIEWS, count, isCertifiable, plural } from './words.js';

const { id, kind, description, stage, parcel, next, deadline, requested, asked, since, reviewer, inspector } = COLUMNS;
const isIn = (...stages) => file => stages.includes(file.stage);
const byDeadline = { key: 'deadline', down: false };
const oldest = { key: 'since', down: false };

const isUnderWay = file => isIn(...BEFORE_PERMIT, ...UNDER_PERMIT)(file) || (file.stage === 'finaled' && isCertifiable(file.kind));
const isEnded = isIn('abandoned', 'lapsed');
const isNearIn = stages => file => isIn(...stages)(file) && file.timing === 'near';
const THE_DAY = 'Look at the day sheet for the way round.';
const MOST = 10; // Rows of a group that are shown at first.

export const WHY_MISSING = 'A file may be missing once its deadline has passed, where the policy of the office closes it to its applicant: ask the counter about it.';

const RETURNED = { title: 'Returned to the applicant for changes', has: isIn('returned'), columns: [reviewer, deadline], sorted: byDeadline,
  empty: 'No plans are with their applicant for changes.' };

// For each view the stages to ask for (null asks for all files), and the groups: what is in one, its last columns, how it
// is sorted at first, and why it may be empty.
const WAITING = {
  public: {
    stages: null,
    groups: [
      { title: 'My files under way', has: isUnderWay, columns: [next, deadline], sorted: byDeadline,
        empty: 'You have no file under way. To begin, file an application.' },
      { title: 'My files that ended at their deadline', has: isEnded, columns: [stage, deadline], sorted: { key: 'deadline', down: true },
        empty: `None that you may read. ${WHY_MISSING}` },
      { title: 'My files that are done or closed', has: file => !isUnderWay(file) && !isEnded(file), columns: [stage, next],
        sorted: { key: 'id', down: true }, empty: 'No file of yours is done, rejected or revoked.' },
    ],
  },
  clerk: {
    stages: ['filed', 'returned', 'approved', 'issued', 'working'],
    groups: [
      { title: 'Filed, without a reviewer', has: file => file.stage === 'filed' && file.reviewer === null, columns: [since, deadline],
        sorted: oldest, empty: 'Each application that was filed has a reviewer.' },
      { title: 'Plans approved, without an inspector', has: file => isIn('approved', 'issued', 'working')(file) && file.inspector === null,
        columns: [stage, deadline], sorted: byDeadline, empty: 'Each file with approved plans has an inspector.' },
      RETURNED,
    ],
  },
  reviewer: {
    stages: ['filed', 'review', 'returned'],
    groups: [
      { title: 'In review', has: isIn('review'), columns: [since, deadline], sorted: oldest,
        empty: 'You have started no review that is still open. A file whose plans you returned comes back here once they are sent again.' },
      { title: 'Filed, for a review to start', has: isIn('filed'), columns: [since, deadline], sorted: oldest,
        empty: 'No file waits for its review to start. Files appear here once the clerk assigns them to you.' },
      RETURNED,
    ],
  },
  inspector: {
    stages: ['issued', 'working', 'finaled'],
    groups: [
      { title: 'Requested inspections', has: file => file.request !== null, columns: [requested, deadline],
        sorted: { key: 'requested', down: false }, hint: THE_DAY,
        empty: 'No inspection is requested of you. Files appear here once the clerk assigns them to you and an inspection is requested.' },
      { title: 'Open notices', has: file => file.notices > 0, columns: [next, deadline], sorted: byDeadline,
        empty: 'No correction notice is open on your files.' },
      { title: 'Stop work orders', has: file => file.stopped, columns: [stage, deadline], sorted: byDeadline, empty: 'No work on your files is stopped.' },
    ],
  },
  official: {
    stages: null,
    groups: [
      { title: 'Plans approved, for a permit', has: isIn('approved'), columns: [stage, deadline], sorted: byDeadline,
        empty: 'No approved plans wait for their permit.' },
      { title: 'Extensions asked for', has: NAMED.asked.has, columns: [asked, deadline], sorted: byDeadline,
        empty: 'Nobody waits for more time.' },
      { title: `Permits that lapse within ${NEAR} days`, has: isNearIn(UNDER_PERMIT), columns: [stage, deadline], sorted: byDeadline,
        empty: `Each permit has more than ${NEAR} days left.` },
      { title: `Applications that are abandoned within ${NEAR} days`, has: isNearIn(BEFORE_PERMIT), columns: [stage, deadline],
        sorted: byDeadline, empty: `Each application has more than ${NEAR} days left.` },
      { title: 'Work approved, for a certificate', has: file => file.stage === 'finaled' && isCertifiable(file.kind), columns: [inspector, next],
        sorted: { key: 'id', down: false }, empty: 'No finished work waits for its certificate.' },
      { title: 'Stop work orders', has: file => file.stopped, columns: [stage, deadline], sorted: byDeadline, empty: 'No work is stopped.' },
      RETURNED,
    ],
  },
};

// The day on which plans were sent again stands among the papers of a file alone: those in review are read one by one.
async function learnSentAgain(files, told) {
  await Promise.all(files.filter(file => file.stage === 'review' && !store.sentAgain.has(file.id)).map(async file => {
    await pace.turn(true);
    const { papers } = await read(`/files/${file.id}`);
    store.sentAgain.set(file.id, papers.findLast(paper => paper.sort === 'resubmitted')?.day ?? null);
    told();
  }));
}

function groupSection({ title, has, columns, sorted, empty, hint = null }, files) {
  const mine = files.filter(has);
  const head = el('h2', {}, `${title} (${count(mine.length)})`);
  if (mine.length === 0) return el('section', { class: 'empty' }, head, el('p', { class: 'none' }, empty));
  const all = [id, parcel, kind, description, ...columns];
  const table = makeTable({ caption: title, columns: all, kept: { ...sorted }, layout: 'waiting', heights: [72, 196], most: MOST });
  table.show(mine);
  if (columns.includes(since)) learnSentAgain(mine.slice(0, 4 * MOST), () => table.showAnew(mine)).catch(() => {}); // Without it the day of the filing stands.
  const rest = mine.length <= MOST ? null : button(`Show all ${count(mine.length)}`, event => {
    table.showRest();
    event.target.remove();
  });
  return el('section', {}, head, hint === null ? null : el('p', { class: 'hint' }, el('a', { href: '#/day' }, hint)), table.element,
    el('p', { class: 'actions' }, rest, ' ', csvButton(title.toLowerCase().replaceAll(/[^a-z0-9]+/g, '-'), () => outOf(all), table.rows)));
}

// What the office has to look after, in numbers: each leads to its list.
function overview(files) {
  const item = ([list, { label, has }]) => el('li', {}, el('a', { href: hashOf('#/files', { list, sort: 'deadline' }) },
    el('strong', {}, count(files.filter(has).length)), ' ', label));
  return el('section', { class: 'overview' }, el('h2', {}, 'The office today'), el('ul', {}, Object.entries(NAMED).map(item)));
}

export async function waitingView(view) {
  const { stages, groups } = WAITING[view];
  if (!store.isBack) store.sentAgain.clear();
  const files = stages === null ? await listed() : await listedIn(stages);
  const waits = files.filter(file => groups.some(group => group.has(file))).length;
  return el('div', {},
    heading('What waits for me'),
    el('p', { class: 'lead' }, `${VIEWS[view]}: ${plural(waits, 'file')} of those that you may see.`),
    view === 'official' ? overview(files) : null,
    groups.map(group => groupSection(group, files)));
}
