// The page: which view stands behind which address, who is signed in, and what is said of what was done.

import { Refusal, isUncertain } from './api.js';
import { department, readDepartment } from './department.js';
import { button, el, title } from './dom.js';
import { drawFoot, drawHead } from './head.js';
import { watchIdleness } from './idle.js';
import { unreadBox } from './refusals.js';
import { ROLES } from './rules.js';
import * as session from './session.js';
import { store } from './store.js';
import { printWholeTables } from './table.js';
import { answerNewTabs, askOpener, tellSignedOut } from './tabs.js';
import { tell } from './tell.js';
import { applyView } from './view-apply.js';
import { daySheetView } from './view-day.js';
import { documentView } from './view-document.js';
import { fileView } from './view-file.js';
import { filesView } from './view-files.js';
import { parcelView, parcelsView } from './view-parcels.js';
import { peopleView } from './view-people.js';
import { registerView } from './view-registers.js';
import { signInView } from './view-signin.js';
import { waitingView } from './view-waiting.js';

const main = document.getElementById('main');
const account = document.getElementById('account');

const RETRY = 5000; // Milliseconds until the office is asked again where it doesn't answer.

const calls = { again: () => showAnew(), done, show: place };

// The views by their addresses.
const ID = '([1-9][0-9]{0,4})';
const ADDRESSES = [
  [/^#\/waiting$/, () => waitingView(session.view())],
  [/^#\/day$/, () => daySheetView(null)],
  [new RegExp(`^#/day/${ID}$`), inspector => daySheetView(Number(inspector))],
  [/^#\/files(\?.*)?$/, () => filesView()],
  [new RegExp(`^#/files/${ID}$`), id => fileView(Number(id), session.view(), calls)],
  [new RegExp(`^#/files/${ID}/papers/${ID}$`), (id, paper) => documentView(Number(id), Number(paper))],
  [/^#\/registers\/(files|deadlines|inspections)(?:\?.*)?$/, name => registerView(name)],
  [/^#\/apply$/, () => applyView({}, session.view(), filed)],
  [new RegExp(`^#/apply/${ID}$`), parcel => applyView({ parcel: Number(parcel) }, session.view(), filed)],
  [new RegExp(`^#/apply/again/${ID}$`), file => applyView({ file: Number(file) }, session.view(), filed)],
  [/^#\/parcels$/, () => parcelsView(session.view(), added)],
  [new RegExp(`^#/parcels/${ID}$`), id => parcelView(Number(id), session.view(), calls)],
  [/^#\/people$/, () => peopleView(place)],
];

const drawHere = () => drawHead({ changeView, signOut: () => signOut() });

function changeView(view) {
  session.setView(view);
  tell('');
  showAnew();
  account.querySelector('select').focus();
}

// Shows a view from its top, with the focus on its heading.
function place(view) {
  main.replaceChildren(view);
  main.removeAttribute('aria-busy');
  main.dataset.place = location.hash;
  const heading = main.querySelector('h1');
  document.title = `${heading.textContent} · ${department().name}`;
  if (!store.isBack) scrollTo(0, 0);
  if (account.hidden || !account.contains(document.activeElement)) heading.focus({ preventScroll: true });
}

// Only what was asked for last is shown.
let turn = 0;
let retry;

async function show() {
  turn += 1;
  clearTimeout(retry);
  drawHere();
  if (session.token() === null) return showSignIn({ leadsOn: isAddress() });
  const mine = turn;
  main.setAttribute('aria-busy', 'true');
  const slow = setTimeout(() => { if (mine === turn) main.replaceChildren(el('p', { class: 'none' }, 'The office is asked.')); }, 300);
  try {
    const view = await viewOf(location.hash);
    if (mine === turn) place(view);
  } catch (fault) {
    if (mine === turn) showFault(fault);
  } finally {
    clearTimeout(slow);
  }
}

async function showAnew() {
  store.isBack = false;
  await show();
}

const isAddress = () => ADDRESSES.some(([pattern]) => pattern.test(location.hash));

async function viewOf(hash) {
  for (const [pattern, make] of ADDRESSES) {
    const found = pattern.exec(hash);
    if (found !== null) return await make(...found.slice(1));
  }
  throw new Refusal('route');
}

const link = (href, words) => el('a', { href }, words);

// What leads on from a refusal: what was denied stays so, and all else may be tried again.
function waysOn({ word, rule }) {
  if (word !== 'denied') return [button('Try again', () => showAnew())];
  const waiting = link('#/waiting', 'What waits for me');
  return rule === 'closed-to-public' ? [link('#/apply', 'File a new application'), ' ', waiting] : [waiting];
}

// A refusal in the place of a view. Where the office is away it is asked again by itself.
function showFault(fault) {
  const refusal = fault instanceof Refusal ? fault : new Refusal('unclear');
  if (!(fault instanceof Refusal)) console.error(fault);
  if (refusal.word === 'caller') return askWho(refusal);
  place(el('div', { class: 'narrow' }, title('This can\'t be shown'), unreadBox(refusal, ...waysOn(refusal))));
  if (isUncertain(refusal) || refusal.word === 'busy') retry = setTimeout(show, RETRY);
}

// Where the address is a place of the page, it comes behind the sign-in.
function showSignIn(told) {
  place(signInView(told, () => {
    if (isAddress()) showAnew();
    else location.hash = '#/waiting';
  }));
}

// The office doesn't know the token any more: who signs in goes on where this was, with what was typed.
function askWho(refusal) {
  endSession({ keepsTyped: true, byAnybody: true });
  showSignIn({ refusal, leadsOn: isAddress() });
}

function endSession(how) {
  turn += 1;
  clearTimeout(retry);
  session.signOut(how);
  tell('');
  drawHere();
}

function signOut() {
  tellSignedOut(session.group());
  endSession();
  history.replaceState({ visited: true }, '', '#/');
  showSignIn({});
}

// The code of a slip leads to an address with the view and the token, which stays nowhere.
const SLIP = new RegExp(`^#/in/(${ROLES.join('|')})/([A-Za-z0-9]+)$`);

function isSlip() {
  const found = SLIP.exec(location.hash);
  if (found === null) return false;
  endSession();
  history.replaceState({ visited: true }, '', '#/');
  showSignIn({ slip: { view: found[1], token: found[2] } });
  return true;
}

// A tab that was opened from a signed-in one goes on as that one.
async function begin() {
  if (isSlip()) return;
  const opener = session.token() === null && isAddress() ? await askOpener() : null;
  if (opener !== null) await session.signIn(opener.token, opener.view, opener.group);
  history.replaceState({ visited: true }, '', session.token() !== null && location.hash.length < 3 ? '#/waiting' : '');
  show();
}

// Who reads the day sheet without a connection couldn't sign in again.
function signOutIdle() {
  if (!navigator.onLine && location.hash.startsWith('#/day')) return;
  endSession({ keepsTyped: true });
  const why = 'You were signed out, since nothing was done here for 15 minutes. What you had typed is there again once you sign in.';
  showSignIn({ why, leadsOn: isAddress() });
}

// What can be done next by who did something: the form that the file waits for now, and the next file of the list.
function nextSteps(file) {
  const form = main.querySelector('details.command[open] > summary');
  const step = form === null ? [] : [button(`Next: ${form.textContent}`, () => form.focus())];
  const place = store.trail.indexOf(file);
  const next = place === -1 ? undefined : store.trail[place + 1];
  return [...step, next === undefined ? link('#/waiting', 'What waits for me') : link(`#/files/${next}`, `Next file: ${next}`)];
}

// Says what was done, and reads anew what is shown.
async function done(words, file) {
  if (session.token() === null) return;
  await showAnew();
  tell(words, nextSteps(file));
}

function goTo(hash, words) {
  if (session.token() === null) return;
  location.hash = hash;
  toTell = words;
}

// What is to be said once the next view is shown.
let toTell = '';

const filed = number => goTo(`#/files/${number}`, `File ${number} was filed.`);
const added = number => goTo(`#/parcels/${number}`, `Parcel ${number} was added.`);

// A place that is come to by Back or Forward is marked by its first visit, and may show a list as it was read then.
// Each other visit, a click on the place where one is already too, reads its lists anew.
addEventListener('hashchange', () => {
  if (isSlip()) return;
  tell(toTell);
  toTell = '';
  store.isBack = history.state?.visited === true;
  history.replaceState({ visited: true }, '');
  show();
});

document.addEventListener('click', event => {
  const link = event.target.closest?.('a[href^="#/"]');
  if (link?.getAttribute('href') !== location.hash || event.ctrlKey || event.metaKey || event.shiftKey) return;
  event.preventDefault();
  tell('');
  showAnew();
});

addEventListener('permit:caller', event => askWho(event.detail));
document.getElementById('skip').addEventListener('click', () => main.querySelector('h1')?.focus());
answerNewTabs(() => { if (session.token() !== null) signOut(); });
await readDepartment();
drawFoot();
watchIdleness(signOutIdle);
printWholeTables();
begin();
