// The head of the page: the places, which view is chosen and signing out; and its foot and letterhead.

import { department, letterheadLines } from './department.js';
import { button, el, freshId, said } from './dom.js';
import * as session from './session.js';
import { VIEWS } from './words.js';

const EVERYBODY = Object.keys(VIEWS);

// The places, each with the views in which it stands in the list of places.
const PLACES = [
  { href: '#/waiting', label: 'Waiting', views: EVERYBODY },
  { href: '#/day', label: 'Day sheet', views: ['inspector', 'official'] },
  { href: '#/files', label: 'All files', views: EVERYBODY },
  { href: '#/registers/files', area: '#/registers', label: 'Registers', views: EVERYBODY },
  { href: '#/apply', label: 'File an application', views: ['public', 'official'] },
  { href: '#/parcels', label: 'Parcels', views: EVERYBODY },
  { href: '#/people', label: 'People', views: ['clerk', 'official'] },
];

const isHere = ({ href, area = href }) => location.hash === href || [`${area}/`, `${area}?`].some(beginning => location.hash.startsWith(beginning));

// `changeView` is called with the view that is chosen.
export function drawHead({ changeView, signOut }) {
  const places = document.getElementById('places');
  const account = document.getElementById('account');
  const isIn = session.token() !== null;
  places.hidden = !isIn;
  account.hidden = !isIn;
  if (!isIn) return;
  const shown = PLACES.filter(place => place.views.includes(session.view()));
  const link = place => el('a', { href: place.href, 'aria-current': isHere(place) ? 'page' : null }, place.label);
  places.replaceChildren(el('ul', {}, shown.map(place => el('li', {}, link(place)))));
  const id = freshId();
  const options = Object.entries(VIEWS).map(([view, name]) => el('option', { value: view, selected: view === session.view() }, name));
  account.replaceChildren(el('label', { for: id }, 'View'), el('select', { id, onchange: event => changeView(event.target.value) }, options),
    button('Sign out', signOut));
}

export function drawFoot() {
  const { name, address, contact } = department();
  document.getElementById('office').textContent = name;
  document.getElementById('letterhead').replaceChildren(...letterheadLines());
  document.getElementById('foot').replaceChildren(el('p', {}, said(name)), address.length > 0 ? el('p', {}, said(address.join(', '))) : '',
    contact === '' ? '' : el('p', {}, said(contact)));
}
