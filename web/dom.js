// Makes elements. What is said in them becomes text nodes: nothing here reads HTML.

let made = 0;

// An id that no other element has.
export function freshId() {
  made += 1;
  return `id-${made}`;
}

// An element with attributes and children. A function is an event's listener, under the name 'on' and the event; true
// sets an attribute and false, null or undefined leaves it out. A child is a node or a text.
export function el(tag, attributes = {}, ...children) {
  const element = document.createElement(tag);
  for (const [name, value] of Object.entries(attributes)) {
    if (typeof value === 'function') element.addEventListener(name.slice(2), value);
    else if (value === true) element.setAttribute(name, '');
    else if (value !== false && value !== null && value !== undefined) element.setAttribute(name, value);
  }
  element.append(...children.flat().filter(child => child !== null && child !== undefined));
  return element;
}

// A text that somebody wrote. It stands apart, so that its direction changes nothing around it.
export function said(text, tag = 'bdi') {
  return el(tag, { class: 'said', dir: 'auto' }, text);
}

export const title = text => el('h1', { tabindex: '-1' }, text);

export const button = (label, onclick) => el('button', { type: 'button', onclick }, label);

// Terms with their values; one that is long takes a whole line.
export function factList(facts) {
  const row = ([term, value, isLong = false]) => el('div', { class: isLong ? 'whole' : null }, el('dt', {}, term), el('dd', {}, value));
  return el('dl', { class: 'facts' }, facts.map(row));
}
