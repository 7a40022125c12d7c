// What an inspector's day sheet is made of: read from the office, kept for the tab so that it can be read where there is
// no connection, and put into the order of the inspector's round.

import { isUncertain, read } from './api.js';
import { listed } from './lists.js';
import { parcelOf } from './parcels.js';
import { keep, kept, store } from './store.js';

// The number that most of the files are assigned to: an inspector lists little else than what is the own.
function likeliest(files) {
  const counts = new Map();
  files.forEach(({ inspector }) => counts.set(inspector, (counts.get(inspector) ?? 0) + 1));
  return [...counts].sort((left, right) => right[1] - left[1])[0]?.[0] ?? null;
}

async function readSheet(inspector) {
  const at = Date.now();
  const working = (await listed('working')).filter(file => file.inspector !== null);
  const mine = inspector ?? likeliest(working.filter(file => file.request !== null)) ?? likeliest(working);
  const requested = working.filter(file => file.request !== null && file.inspector === mine);
  const files = await Promise.all(requested.map(file => (file.notices > 0 || file.stopped ? read(`/files/${file.id}`) : { ...file, papers: [] })));
  const parcels = await Promise.all([...new Set(files.map(file => file.parcel))].map(id => parcelOf(id)));
  const inspectors = [...new Set(working.map(file => file.inspector))].sort((left, right) => left - right);
  return { at, mine, files, inspectors, parcels: parcels.filter(parcel => parcel.refusal === undefined) };
}

// The sheet of an inspector, or of whose it is likely where none is named; `isKept` where nobody answers and it is the one
// that was read before.
export async function daySheet(inspector) {
  try {
    const sheet = await readSheet(inspector);
    keep('day', { ...sheet, asked: inspector });
    return { ...sheet, isKept: false };
  } catch (refusal) {
    const before = kept('day');
    if (!isUncertain(refusal) || before === null || ![before.asked, before.mine].includes(inspector)) throw refusal;
    before.parcels.forEach(parcel => store.parcels.set(parcel.id, parcel));
    return { ...before, isKept: true };
  }
}

// How an inspector goes round: the parcels in the order that was chosen, and those that are left out.
export const roundOf = inspector => kept('rounds')?.[inspector] ?? { order: [], left: [] };

export const keepRound = (inspector, round) => keep('rounds', { ...kept('rounds'), [inspector]: round });

// The requested files in groups of one parcel, in the order of the round. What isn't in it yet comes behind: the place
// with the oldest request first, and so in each.
export function byPlace(files, { order }) {
  const groups = new Map();
  for (const file of [...files].sort((left, right) => left.requested - right.requested || left.id - right.id)) {
    groups.set(file.parcel, [...groups.get(file.parcel) ?? [], file]);
  }
  const placeOf = parcel => (order.includes(parcel) ? order.indexOf(parcel) : order.length);
  return [...groups.entries()].sort((left, right) => placeOf(left[0]) - placeOf(right[0]));
}
