// The field for a reviewer or an inspector: a choice among the staff of department.json, each with the files that are
// assigned to them now, and a number where it is somebody else.

import { staffOf } from './department.js';
import { el, freshId } from './dom.js';
import { listedIn } from './lists.js';
import { plural } from './words.js';

const OTHER = 'other';

// The stages in which a file is the work of each.
const WORK = { reviewer: ['filed', 'review', 'returned'], inspector: ['approved', 'issued', 'working'] };

const nameWords = ({ number, name }) => `${name}, party ${number}`;

export function staffControl(field, numberInput) {
  const staff = staffOf(field.role);
  if (staff.length === 0) return numberInput();
  const options = staff.map(member => el('option', { value: member.number }, nameWords(member)));
  return el('select', {}, el('option', { value: '' }, 'Choose'), options, el('option', { value: OTHER }, 'Somebody else, by number'));
}

async function showWork(control, role) {
  const files = await listedIn(WORK[role]);
  for (const member of staffOf(role)) {
    const count = files.filter(file => file[role] === member.number).length;
    const option = [...control.options].find(({ value }) => value === String(member.number));
    option.textContent = `${nameWords(member)}: ${plural(count, 'file')} now`;
  }
}

// The number of somebody else stands below the choice. Who has how much to do is read once the choice is looked at.
export function staffNode(control, field, numberInput) {
  if (control.tagName !== 'SELECT') return null;
  const number = numberInput();
  number.id = freshId();
  const row = el('p', { class: 'other', hidden: true }, el('label', { for: number.id }, `Number of the ${field.role}`), number);
  const show = () => { row.hidden = control.value !== OTHER; };
  control.addEventListener('input', show);
  control.other = number;
  requestAnimationFrame(show);
  const seen = new IntersectionObserver(entries => {
    if (!entries.some(entry => entry.isIntersecting)) return;
    seen.disconnect();
    showWork(control, field.role).catch(() => {}); // Without it the choice stands by names alone.
  });
  seen.observe(control);
  return row;
}

// The text of the number that is chosen or typed.
export const staffText = control => (control.value === OTHER ? control.other.value : control.value);
