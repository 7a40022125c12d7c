// Signing in: the token, and the view to begin with, since no answer says whose a token is.

import { ask } from './api.js';
import { department } from './department.js';
import { button, el, freshId, title } from './dom.js';
import { readToken, tokenInput } from './fields.js';
import { faultBox, refusalBox } from './refusals.js';
import * as session from './session.js';
import { VIEWS } from './words.js';

function viewChoice(chosen) {
  const options = Object.entries(VIEWS).map(([view, name]) => {
    const radio = el('input', { type: 'radio', name: 'view', value: view, checked: view === chosen });
    return el('label', { class: 'choice' }, radio, name);
  });
  return el('fieldset', {}, el('legend', {}, 'I am here as'), el('div', { class: 'choices' }, options));
}

// A password manager keeps a token under a name: that of the view. It stands out of sight, and chooses the view where the
// manager fills it in.
function keptName(form, chosen) {
  const name = el('input', { type: 'text', name: 'username', autocomplete: 'username', class: 'heard', tabindex: '-1',
    'aria-label': 'Name under which a password manager keeps the token' });
  name.value = VIEWS[chosen];
  const radios = () => [...form().elements.view];
  name.addEventListener('input', () => {
    const radio = radios().find(({ value }) => VIEWS[value] === name.value);
    if (radio !== undefined) radio.checked = true;
  });
  return { name, follow: event => { if (event.target.name === 'view') name.value = VIEWS[event.target.value]; } };
}

// Shows the letters that are typed, or hides them again.
function revealButton(token) {
  const reveal = button('Show', () => {
    const isShown = token.type === 'text';
    token.type = isShown ? 'password' : 'text';
    reveal.textContent = isShown ? 'Show' : 'Hide';
    reveal.setAttribute('aria-pressed', String(!isShown));
    token.focus();
  });
  reveal.setAttribute('aria-label', 'Show the token');
  reveal.setAttribute('aria-pressed', 'false');
  return reveal;
}

function showBox(answer, box) {
  answer.replaceChildren(box);
  box.focus();
}

// `why`, where there is one, says why somebody has to sign in again; `leadsOn` that a page waits behind it; `slip` is what
// stood in the code of a slip.
export function signInView({ refusal = null, why = null, leadsOn = false, slip = null }, signedIn) {
  const id = freshId();
  const chosen = slip?.view ?? session.view();
  const token = tokenInput({ id, name: 'token', type: 'password', autocomplete: 'current-password', 'aria-describedby': `${id}-hint` });
  if (slip !== null) token.value = slip.token;
  const answer = el('div', { class: 'answer' }, refusal === null ? null : refusalBox(refusal));
  const { name, follow } = keptName(() => form, chosen);
  const submit = el('button', { type: 'submit' }, 'Sign in');
  const form = el('form', { class: 'signin', 'aria-label': 'Sign in', novalidate: true, onchange: follow }, answer, name,
    el('div', { class: 'field' }, el('label', { for: id }, 'Token'),
      el('p', { class: 'hint', id: `${id}-hint` }, 'The letters and digits on the slip that the counter gave you, with or without spaces.'),
      el('div', { class: 'revealed' }, token, revealButton(token))),
    viewChoice(chosen), el('p', { class: 'actions' }, submit));

  form.addEventListener('submit', async event => {
    event.preventDefault();
    const { value, fault } = readToken(token.value);
    if (fault !== undefined) return showBox(answer, faultBox([[{ label: 'Token', control: token }, fault]]));
    submit.disabled = true;
    try {
      await ask('GET', session.PROBE, undefined, value);
      await session.signIn(value, new FormData(form).get('view'));
      signedIn();
    } catch (refused) {
      submit.disabled = false;
      showBox(answer, refusalBox(refused));
    }
  });
  return el('section', { class: 'narrow' }, title('Sign in'),
    why === null ? null : el('p', { class: 'lead' }, why),
    leadsOn ? el('p', { class: 'lead' }, 'The page that you asked for comes once you have signed in.') : null,
    slip === null ? null : el('p', { class: 'lead' }, 'The token of your slip is filled in.'), form,
    el('p', { class: 'hint' }, 'The token stays in this tab, and goes with it. No token? ',
      `Ask the counter. ${department().contact}`));
}
