// Adding somebody, and the slip that is shown once: the number, the token to hand over, and the parcels.

import { ask } from './api.js';
import { NEW_PARCEL, NEW_PARTY, PARCEL_COMMANDS } from './commands.js';
import { department } from './department.js';
import { button, el, factList, said, title } from './dom.js';
import { foldedForm, postForm } from './forms.js';
import { forgetParcel, parcelOf } from './parcels.js';
import { placeNode } from './places.js';
import { qrNode } from './qr.js';
import { PROBE } from './session.js';
import { VIEWS } from './words.js';

const RENEW = 'A token that is lost can be replaced: whoever runs the machine gives the person another one with permit renew-token.';

// Looks whether somebody was added whose answer never came: then the token is theirs.
async function lookForPerson(body, show) {
  try {
    await ask('GET', PROBE, undefined, body.token);
  } catch (refusal) {
    if (refusal.word === 'caller') return 'Nobody has this token so far: the person was not added yet. You can send this once more.';
    throw refusal;
  }
  const slip = button('Show the slip', () => show(slipView({ ...body, number: null })));
  return el('span', {}, 'The token is somebody\'s now: the person was added. Don\'t send this once more. '
    + `Only the number is not known: whoever runs the machine can look it up in the office's database. ${RENEW} `, slip);
}

// `show` shows, once, who was added and with which token.
export function peopleView(show) {
  const done = ({ number }, body) => show(slipView({ ...body, number }));
  return el('div', { class: 'narrow' }, title('People'),
    el('p', { class: 'lead' }, 'Everybody whom the office knows has a number, as a party: a resident, or somebody of the staff.'),
    el('section', {}, el('h2', {}, NEW_PARTY.label), postForm({ ...NEW_PARTY, done, look: body => lookForPerson(body, show) })),
    el('p', { class: 'hint' }, RENEW));
}

const inFours = token => token.match(/.{1,4}/g).join(' ');

// What gives a resident a parcel, before the slip is printed: each one goes on it.
function parcelForms(number, add) {
  const [lot, address] = NEW_PARCEL.fields;
  const transfer = PARCEL_COMMANDS.find(({ action }) => action === 'transfer');
  const giving = { key: 'parcel', type: 'parcel', label: 'Number of the parcel' };
  return el('section', { class: 'unprinted' }, el('h2', {}, 'Parcels of this person'),
    el('p', { class: 'hint' }, 'Each one that you add here stands on the slip.'),
    foldedForm({ path: NEW_PARCEL.path, label: 'Add a parcel of this person', fields: [lot, address], open: false, isRepeated: true,
      to: body => [NEW_PARCEL.path, { ...body, owner: number }], done: answer => add(answer.number) }),
    foldedForm({ path: 'transfer', label: 'Transfer a parcel to this person', fields: [giving], open: false, isRepeated: true,
      to: ({ parcel }) => [`/parcels/${parcel}/transfer`, { to: number }], done: (answer, { parcel }) => add(parcel),
      check: body => ({ yes: transfer.label, nodes: [el('p', {}, el('strong', {}, transfer.so(body.parcel, { to: number })), ` ${transfer.undone}`),
        el('p', {}, placeNode(body.parcel))] }) }));
}

function slipView({ number, name, role, token }) {
  const { name: from, contact } = department();
  const address = `${location.origin}${location.pathname}`;
  const parcels = el('ul', { class: 'parcels' }, el('li', {}, 'none yet'));
  const given = [];
  function add(parcel) {
    forgetParcel(parcel);
    given.push(parcelOf(parcel).then(() => el('li', {}, placeNode(parcel, `Parcel ${parcel}`))));
    Promise.all(given).then(items => parcels.replaceChildren(...items));
  }
  const isResident = role === 'public' && number !== null;
  return el('div', { class: 'document' },
    el('p', { class: 'actions unprinted' }, button('Print the slip', () => print()), ' ', el('a', { href: '#/people' }, 'Add another person')),
    el('p', { class: 'lead unprinted' }, 'The token is shown this once. Print the slip, or write the token down, before you leave this page.'),
    isResident ? parcelForms(number, add) : null,
    el('article', { class: 'sheet slip' },
      el('p', { class: 'from' }, said(from, 'strong'), contact === '' ? null : [el('br'), said(contact)]),
      title(number === null ? 'Somebody was added' : `Party ${number} was added`),
      factList([['Name', said(name)], ['Number', number === null ? 'ask the counter' : `party ${number}`], ['Role', VIEWS[role]],
        ['Sign in at', address, true], ...(isResident ? [['Parcels', parcels, true]] : [])]),
      el('p', {}, 'Token'), el('p', { class: 'token' }, inFours(token)),
      el('div', { class: 'code' }, qrNode(`${address}#/in/${role}/${token}`, 'The address and the token as a code'),
        el('p', {}, 'A phone\'s camera opens the page by this code, with the token filled in.')),
      el('p', {}, 'Type the token with or without the spaces. Keep this slip to yourself: who has the token can act in your name.')));
}
