// What the page repeats of the office's rules, in this one place: numbers, lists of words in their order, who acts in
// which stage, and what in a file stands against a command. `.ci/page` compares each with what the built program does.

export const TERM = 180; // Days from a filing to a permit, and from one activity under a permit to the next.
export const NEAR = 30; // With so many days left, or fewer, a deadline is near.
export const LONGEST_EXTENSION = { application: 90, permit: 180 }; // Days that may be asked for at once.
export const LONGEST_TEMPORARY = 180; // Days of a temporary certificate.
export const LONGEST_TEXT = 2000; // Of UTF-8, in which a plain letter counts as one.
export const LONGEST_LOT = 20;
export const TOKEN_LETTERS = { least: 16, most: 64 };
export const MOST_NUMBER = 99_999; // Parties, parcels and files.
export const MOST_PAPER = 9_999;
export const MOST_CENTS = 9_999_999_999_999;

// What the page itself counts as recent and as soon, in days.
export const RECENT = 30;
export const SOON = 14;

export const ROLES = ['public', 'clerk', 'reviewer', 'inspector', 'official'];
export const KINDS = ['construct', 'enlarge', 'alter', 'repair', 'move', 'demolish', 'occupancy'];
export const CERTIFIABLE = ['construct', 'enlarge', 'alter', 'move', 'occupancy'];
export const STEPS = ['footing', 'slab', 'frame', 'energy', 'lath', 'final'];
export const REGISTERS = ['files', 'deadlines', 'inspections'];
export const SORTS = ['permit', 'returned', 'resubmitted', 'rejected', 'asked', 'granted', 'refused', 'notice', 'stop', 'lifted',
  'revoked', 'temporary', 'certificate'];

// The inspections that each kind of work asks for, in their order. A file from before that of energy has none of it.
export const REQUIRED = {
  construct: ['footing', 'slab', 'frame', 'energy', 'lath', 'final'],
  enlarge: ['footing', 'slab', 'frame', 'energy', 'lath', 'final'],
  alter: ['frame', 'energy', 'lath', 'final'],
  repair: ['frame', 'final'],
  move: ['footing', 'frame', 'final'],
  demolish: ['final'],
  occupancy: ['final'],
};

// The stages that a file has behind it in each stage, but for those that it may have left out.
const TO_PERMIT = ['filed', 'review', 'approved', 'issued'];
export const PASSED = {
  filed: [],
  review: ['filed'],
  returned: ['filed', 'review'],
  approved: ['filed', 'review'],
  rejected: ['filed', 'review'],
  issued: ['filed', 'review', 'approved'],
  working: TO_PERMIT,
  revoked: TO_PERMIT,
  finaled: [...TO_PERMIT, 'working'],
  certified: [...TO_PERMIT, 'working', 'finaled'],
  abandoned: ['filed'],
  lapsed: TO_PERMIT,
};
export const STAGES = Object.keys(PASSED);
export const BEFORE_PERMIT = ['filed', 'review', 'returned', 'approved'];
export const UNDER_PERMIT = ['issued', 'working'];
export const CLOSED = ['rejected', 'revoked', 'abandoned', 'lapsed'];
export const OPEN = [...BEFORE_PERMIT, ...UNDER_PERMIT];
const STOPPABLE = ['issued', 'working', 'revoked', 'finaled', 'lapsed'];

// Who does each command on a file, beside the official, and the stages that admit it.
export const COMMANDS = {
  'assign-reviewer': { who: ['clerk'], stages: ['filed', 'review', 'returned'] },
  'assign-inspector': { who: ['clerk'], stages: ['approved', 'issued', 'working'] },
  'name-contractor': { who: ['public', 'clerk'], stages: OPEN },
  'start-review': { who: ['reviewer'], stages: ['filed'] },
  'return': { who: ['reviewer'], stages: ['review'] },
  'resubmit': { who: ['public'], stages: ['returned'] },
  'approve-plans': { who: ['reviewer'], stages: ['review'] },
  'reject': { who: ['reviewer'], stages: ['review'] },
  'issue': { who: [], stages: ['approved'] },
  'ask-extension': { who: ['public'], stages: OPEN },
  'grant-extension': { who: [], stages: OPEN },
  'refuse-extension': { who: [], stages: OPEN },
  'begin-work': { who: ['public'], stages: ['issued'] },
  'request-inspection': { who: ['public'], stages: ['working'] },
  'approve-step': { who: ['inspector'], stages: ['working'] },
  'notice': { who: ['inspector'], stages: ['working'] },
  'clear-notice': { who: ['inspector'], stages: ['working'] },
  'stop': { who: ['inspector'], stages: STOPPABLE },
  'lift': { who: [], stages: STOPPABLE },
  'revoke': { who: [], stages: ['issued', 'working', 'lapsed'] },
  'temporary': { who: [], stages: ['working'] },
  'certify': { who: [], stages: ['finaled'] },
};

export const askLimit = file => (UNDER_PERMIT.includes(file.stage) ? LONGEST_EXTENSION.permit : LONGEST_EXTENSION.application);

const isStopped = file => file.stopped && 'stopped';
const isAsked = file => file.ask !== null && 'pending';
const isUnasked = file => file.ask === null && 'nothing-pending';
const isRequested = file => file.request !== null && 'pending';
const isUnrequested = file => file.request === null && 'nothing-pending';
const isNoticed = file => file.notices > 0 && 'notice-open';
const isUncertifiable = file => !CERTIFIABLE.includes(file.kind) && 'kind';

// What of a file stands against a command beside its stage, in the office's order: each gives a reason or false.
const TESTS = {
  'ask-extension': [isAsked],
  'grant-extension': [isUnasked],
  'refuse-extension': [isUnasked],
  'begin-work': [isStopped],
  'request-inspection': [isStopped, isRequested],
  'approve-step': [isStopped, isUnrequested, isNoticed],
  'notice': [isUnrequested],
  'clear-notice': [file => file.notices === 0 && 'no-such-notice'],
  'stop': [isStopped],
  'lift': [file => !file.stopped && 'nothing-pending'],
  'temporary': [isStopped, isNoticed, isUncertifiable],
  'certify': [isStopped, isUncertifiable],
};

// The reason for which the office would refuse a command on a file as it stands, or null where the file has none. What
// isn't in the file (a person, an interest, the days asked for) is the office's to say.
export function reasonAgainst(action, file) {
  if (!COMMANDS[action].stages.includes(file.stage)) return 'stage';
  for (const test of TESTS[action] ?? []) {
    const reason = test(file);
    if (reason) return reason;
  }
  return null;
}
