// A form for a command: it reads what was typed, asks once more where it is to, sends once, and shows what was answered.

import { ask, isUncertain } from './api.js';
import { learnDay } from './dates.js';
import { button, el, freshId } from './dom.js';
import { makeField } from './fields.js';
import { causeOf, faultBox, refusalBox, wordsFor } from './refusals.js';
import { dropLists, store } from './store.js';
import { tell } from './tell.js';

const LOOK_AGAIN = 5000; // Milliseconds until an office that doesn't answer is asked again.

// A field with its label, its hint and the place of its fault. `show` says what is wrong with it, or nothing.
function fieldRow(field, path) {
  const { control, hint } = field;
  const draft = `${path} ${field.key}`;
  control.id = freshId();
  control.name = field.key;
  if (store.drafts.has(draft)) control.value = store.drafts.get(draft);
  control.addEventListener('input', () => store.drafts.set(draft, control.value));
  const fault = el('p', { class: 'fault', id: freshId(), hidden: true });
  const hintId = freshId();
  control.setAttribute('aria-describedby', hint === null ? fault.id : `${hintId} ${fault.id}`);
  control.setAttribute('aria-required', 'true');
  const row = el('div', { class: 'field' }, el('label', { for: control.id }, field.label),
    hint === null ? null : el('p', { class: 'hint', id: hintId }, hint), fault, field.above(), control, field.below());
  function show(words) {
    fault.textContent = words;
    fault.hidden = words === '';
    row.classList.toggle('wrong', words !== '');
    if (words === '') control.removeAttribute('aria-invalid');
    else control.setAttribute('aria-invalid', 'true');
  }
  return { ...field, row, show };
}

// Looks whether what was sent was done, until the office answers. `look` gives what it found, in words.
async function looked(look, node) {
  while (node.isConnected) {
    try {
      node.replaceChildren(await look());
      return;
    } catch (refusal) {
      if (!isUncertain(refusal)) return;
      await new Promise(ready => { setTimeout(ready, LOOK_AGAIN); });
    }
  }
}

// A form that posts its fields to a path.
class CommandForm {
  #options;
  #fields;
  #isSending = false;
  #submit;
  #answer = el('div', { class: 'answer' });
  #entry;
  #checked = el('div', { class: 'check', role: 'group', 'aria-label': 'Check before you send', tabindex: '-1', hidden: true });

  constructor(options) {
    const { path, label, fields, file = null } = options;
    this.#options = options;
    this.#fields = fields.map(field => fieldRow(makeField(field, file), path));
    this.#submit = el('button', { type: 'submit' }, label);
    this.#entry = el('div', { class: 'entry' }, this.#fields.map(field => field.row), el('p', { class: 'actions' }, this.#submit));
    this.element = el('form', { 'aria-label': label, novalidate: true, onsubmit: event => this.#submitted(event) },
      this.#answer, this.#entry, this.#checked);
  }

  #submitted(event) {
    event.preventDefault();
    if (this.#isSending) return;
    const body = this.#body();
    if (body === null) return;
    if (this.#options.check) this.#showCheck(body);
    else this.#send(body);
  }

  // The body, or null where something has to be typed anew.
  #body() {
    const readings = this.#fields.map(field => [field, field.read()]);
    const faults = readings.filter(([, reading]) => reading.fault !== undefined).map(([field, { fault }]) => [field, fault]);
    this.#fields.forEach(field => field.show(''));
    faults.forEach(([field, fault]) => field.show(fault));
    tell('');
    if (faults.length > 0) this.#showBox(faultBox(faults));
    return faults.length > 0 ? null : Object.fromEntries(readings.map(([field, { value }]) => [field.key, value]));
  }

  #turnTo(panel) {
    this.#entry.hidden = panel !== this.#entry;
    this.#checked.hidden = panel !== this.#checked;
  }

  #showCheck(body) {
    const { nodes, yes } = this.#options.check(body);
    const send = el('button', { type: 'button', class: 'yes', onclick: () => this.#send(body) }, yes);
    const back = button('Go back', () => {
      this.#turnTo(this.#entry);
      this.#submit.focus();
    });
    this.#checked.replaceChildren(...nodes, el('p', { class: 'actions' }, send, back));
    this.#answer.replaceChildren();
    this.#turnTo(this.#checked);
    this.#checked.focus();
  }

  #showBox(box) {
    this.#turnTo(this.#entry);
    this.#answer.replaceChildren(box);
    box.focus();
    if (!document.title.startsWith('Error: ')) document.title = `Error: ${document.title}`;
  }

  #showRefusal(refusal, body) {
    const { again, look } = this.#options;
    const key = causeOf(refusal, this.#fields.map(field => field.key));
    const field = this.#fields.find(field => field.key === key);
    const found = isUncertain(refusal) && look ? el('p', { class: 'looked', role: 'status' }, 'Looking whether it was done.') : null;
    field?.show(wordsFor(refusal, field)[0]);
    this.#showBox(refusalBox(refusal, { field, found, actions: again ? [button('Look again', again)] : [] }));
    if (found !== null) looked(() => look(body), found);
  }

  // Once it is accepted nothing can be sent from here again, unless it is for one after the other: what is shown next
  // takes this form's place.
  async #send(body) {
    const { path, done, to = given => [path, this.#fields.length > 0 ? given : undefined], isRepeated = false } = this.#options;
    if (this.#isSending) return;
    this.#setSending(true);
    this.#answer.replaceChildren();
    tell('');
    try {
      const answered = await ask('POST', ...to(body));
      this.#fields.forEach(field => store.drafts.delete(`${path} ${field.key}`));
      learnDay(answered.day);
      dropLists();
      if (isRepeated) this.#begin();
      await done(answered, body);
    } catch (refusal) {
      this.#setSending(false);
      if (refusal.word === 'caller') dispatchEvent(new CustomEvent('permit:caller', { detail: refusal }));
      else this.#showRefusal(refusal, body);
    }
  }

  // Once more from the beginning, for another one.
  #begin() {
    this.#setSending(false);
    this.#fields.forEach(({ control }) => {
      control.value = '';
      control.dispatchEvent(new Event('input'));
    });
    this.#turnTo(this.#entry);
  }

  // That something is being sent shows at once, on the button that sent it.
  #setSending(isSending) {
    this.#isSending = isSending;
    const send = this.#checked.hidden ? this.#submit : this.#checked.querySelector('.yes');
    send.disabled = isSending;
    if (isSending) send.dataset.label = send.textContent;
    send.textContent = isSending ? 'Sending\u2026' : send.dataset.label;
    this.element.toggleAttribute('aria-busy', isSending);
  }
}

// `path`, `label`, `fields` and `file` say what is sent; `done` is called with the answer and the body that was sent.
// `check`, where there is one, gives what is shown of a body before it is sent, with the label of its button.
// `look`, where there is one, finds out whether a body was accepted whose answer never came.
// `to`, where there is one, gives path and body of what is sent; else it goes to `path` as it is.
// `isRepeated` says that one after the other is sent from it.
// `again`, where there is one, reads anew what the form stands beside.
export const postForm = options => new CommandForm(options).element;

// The same folded under its label. It opens by itself where it is expected, or something was typed into it before.
export function foldedForm({ open, ...options }) {
  const typed = options.fields.some(field => store.drafts.has(`${options.path} ${field.key}`));
  return el('details', { class: 'command', open: open || typed }, el('summary', {}, options.label), postForm(options));
}
