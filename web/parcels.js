// Parcels by their numbers. Each is asked once and kept for the tab, so that a lot and an address can stand wherever a
// number stands. Nothing changes them but a transfer, which makes it another owner.

import { ask, isUncertain } from './api.js';
import { pace, pause } from './pace.js';
import { token } from './session.js';
import { keep, kept, store } from './store.js';

const READERS = 4; // So many are asked together.
const MANY = 100; // So many take a moment, which is told at once.
const MOST_KEPT = 20_000; // So many are kept while the page is read anew.
const LOOK_AGAIN = 5000; // Milliseconds until an office that doesn't answer is asked again.

// A parcel as it is known: with its lot, or with the refusal to show it; undefined where it wasn't asked yet.
export function knownParcel(id) {
  const parcel = store.parcels.get(id);
  return parcel?.awaited === undefined ? parcel : undefined;
}

export const knownParcels = () => [...store.parcels.values()].filter(parcel => parcel.lot !== undefined);

// Something was changed: it is asked anew.
export const forgetParcel = id => store.parcels.delete(id);

// An answer that is the office's. Where there were too many requests it is asked again.
async function answered(id, isUrgent) {
  for (;;) {
    await pace.turn(isUrgent);
    try {
      const parcel = await ask('GET', `/parcels/${id}`);
      pace.faster();
      return parcel;
    } catch (refusal) {
      if (refusal.word === undefined) throw refusal;
      if (refusal.word !== 'busy') return { id, refusal };
    }
  }
}

// What was denied stays so. What isn't there may come to be, and what nobody answered is asked again.
async function readParcel(id, isUrgent) {
  const mine = token();
  const parcel = await answered(id, isUrgent);
  if (token() !== mine) return parcel;
  const lasts = parcel.refusal === undefined || parcel.refusal.word === 'denied';
  if (lasts) store.parcels.set(id, parcel);
  else store.parcels.delete(id);
  return parcel;
}

// The parcel of a number, once it is known: it has a lot, or a refusal. Until then the store has what is awaited.
export function parcelOf(id, isUrgent = true) {
  const known = store.parcels.get(id);
  if (known !== undefined) return Promise.resolve(known.awaited ?? known);
  const awaited = readParcel(id, isUrgent);
  store.parcels.set(id, { id, awaited });
  return awaited;
}

// One of the readers of many parcels: it asks for the next one as long as it is wanted, and waits while nobody answers.
async function learnNext(ids, isWanted, told) {
  while (ids.length > 0 && isWanted()) {
    const id = ids.pop();
    const parcel = await parcelOf(id, false);
    if (parcel.refusal !== undefined && isUncertain(parcel.refusal)) {
      ids.push(id);
      await pause(LOOK_AGAIN);
    } else told();
  }
}

// The parcels of many numbers, behind all that is looked at, as long as they are wanted; `told` is called with how many
// of how many are read.
export async function learnParcels(ids, isWanted, told = () => {}) {
  const all = [...new Set(ids)];
  const missing = all.filter(id => knownParcel(id) === undefined).reverse();
  if (missing.length === 0) return;
  let count = all.length - missing.length;
  let toldAt = Date.now();
  if (missing.length > MANY) setTimeout(() => { if (isWanted()) told(count, all.length); });
  const one = () => {
    count += 1;
    if (Date.now() - toldAt < 500 || count === all.length) return;
    toldAt = Date.now();
    told(count, all.length);
  };
  await Promise.all(Array.from({ length: READERS }, () => learnNext(missing, isWanted, one)));
  if (isWanted()) told(count, all.length);
}

// A page that is read anew in the same tab finds them again.
addEventListener('pagehide', () => {
  if (token() !== null && store.parcels.size <= MOST_KEPT) keep('parcels', knownParcels());
});

for (const parcel of kept('parcels') ?? []) store.parcels.set(parcel.id, parcel);
