// A parcel's lot and address beside its number.

import { department } from './department.js';
import { button, el, said } from './dom.js';
import { parcelOf, knownParcel } from './parcels.js';
import { wordsOf } from './refusals.js';
import { tell } from './tell.js';

export const parcelLink = id => el('a', { href: `#/parcels/${id}` }, `Parcel ${id}`);

// Why a parcel is shown by its number alone.
export function reasonOf({ id, refusal }) {
  const [what, todo] = wordsOf(refusal);
  if (refusal.word === 'denied') return `The lot and the address of parcel ${id} are not open to you. ${what} ${todo}`;
  return `Parcel ${id} can't be shown. ${what} ${todo}`;
}

function fillPlace(node, parcel) {
  if (parcel.refusal === undefined) node.append(', lot ', said(parcel.lot), ', ', said(parcel.address));
  else if (parcel.refusal.word === 'denied') {
    const why = button('why no address?', () => tell(reasonOf(parcel)));
    why.classList.add('why');
    node.append(' ', why);
  }
}

// A resident is denied each parcel but the own ones.
export const isNotYours = (parcel, view) => view === 'public' && parcel?.refusal?.word === 'denied';

export const NOT_YOURS = 'This is not your parcel. Check the number.';

// The number with lot and address, which come as soon as they are known.
export function placeNode(id, first = parcelLink(id)) {
  const node = el('span', { class: 'place' }, first);
  const parcel = knownParcel(id);
  if (parcel !== undefined) fillPlace(node, parcel);
  else parcelOf(id).then(found => fillPlace(node, found));
  return node;
}

// What a parcel is looked for by, and sorted by: its address, or nothing while it isn't known.
export function placeText(id) {
  const parcel = knownParcel(id);
  return parcel?.lot === undefined ? '' : `lot ${parcel.lot} ${parcel.address}`;
}

export const addressOf = id => knownParcel(id)?.address ?? '';

export const lotOf = id => knownParcel(id)?.lot ?? '';

// Opens the phone's map at a parcel's address, or the map that department.json names.
export function mapLink(id) {
  const address = addressOf(id);
  if (address === '') return null;
  const { map } = department();
  const sought = encodeURIComponent(address);
  if (map === null) return el('a', { class: 'map', href: `geo:0,0?q=${sought}` }, 'Map');
  return el('a', { class: 'map', href: `${map}${sought}`, target: '_blank', rel: 'noopener noreferrer' }, 'Map');
}
