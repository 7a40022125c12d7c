// A table that draws only the rows that are looked at, so that it stays quick with 99,999 of them.

import { dateText, today } from './dates.js';
import { el, said } from './dom.js';
import { store } from './store.js';

const LONG = 24; // Letters.
const MARGIN = 8; // Rows drawn above and below those that are seen.

function headCell(column, sorted, sort) {
  const { key, label, place } = column;
  const direction = sorted.key === key ? (sorted.down ? 'descending' : 'ascending') : null;
  const content = column.order === undefined ? label : el('button', { type: 'button', onclick: () => sort(column) }, label);
  return el('th', { role: 'columnheader', scope: 'col', class: place, 'aria-sort': direction }, content);
}

function bodyRow(columns, row, index, height) {
  const cells = columns.map(({ label, place, cell }) => el('td', { role: 'cell', class: place, 'data-label': label }, cell(row)));
  const line = el('tr', { role: 'row', 'aria-rowindex': String(index + 2), 'data-index': String(index) }, cells);
  line.row = row;
  line.style.top = `${index * height}px`;
  line.style.height = `${height}px`;
  return line;
}

// What is longer than a column may be broken anywhere.
const wholeCell = text => el('td', { class: text.length > LONG ? 'long' : null }, said(text));

const compare = (left, right) => (left < right ? -1 : left > right ? 1 : 0);

class Table {
  #columns;
  #out;
  #most;
  #sorted;
  #kept;
  #heights;
  #narrow;
  #rows = [];
  #body = el('tbody', { role: 'rowgroup' });
  #head = el('tr', { role: 'row', 'aria-rowindex': '1' });
  #table;

  constructor({ caption, columns, kept, layout, heights, narrow = '40rem', most = Infinity, out = columns, moved = () => {}, sorted = () => {} }) {
    this.#columns = columns;
    this.#out = out;
    this.#most = most;
    this.#sorted = sorted;
    this.#kept = kept;
    this.#heights = heights;
    this.#narrow = matchMedia(`(max-width: ${narrow})`);
    this.#table = el('table', { role: 'table', 'aria-label': caption }, el('thead', { role: 'rowgroup' }, this.#head), this.#body);
    this.element = el('div', { class: `scroller ${layout}`, tabindex: '0', role: 'region', 'aria-label': caption }, this.#table);
    this.element.addEventListener('scroll', () => {
      kept.top = this.element.scrollTop;
      moved(kept.top);
      requestAnimationFrame(() => this.#draw());
    });
    this.element.addEventListener('keydown', event => this.#pressed(event));
    this.element.addEventListener('click', event => this.#followed(event.target.closest('a')?.getAttribute('href') ?? ''));
    this.element.addEventListener('permit:print', () => this.element.after(this.#whole(caption)));
    this.#watchSize();
  }

  // Who opens a file from here finds the next one of the list behind it.
  #followed(href) {
    if (href.startsWith('#/files/')) store.trail = this.#rows.map(row => row.id ?? Number(row[0]));
  }

  // All rows, to print: with what goes out of each as CSV too.
  #whole(caption) {
    const out = this.#out.flatMap(column => column.out);
    return el('table', { class: 'whole' }, el('caption', {}, `${caption}, printed on ${dateText(today())}`), el('thead', {}, el('tr', {}, out.map(([head]) => el('th', {}, head)))),
      el('tbody', {}, this.#rows.map(row => el('tr', {}, out.map(([, value]) => wholeCell(String(value(row) ?? '')))))));
  }

  // Other rows than before: those that stay where they were keep their lines, and with them the focus.
  show(rows) {
    this.#rows = rows;
    this.#sort();
    for (const line of [...this.#body.children]) if (this.#rows[Number(line.dataset.index)] !== line.row) line.remove();
    this.#drawFrame();
    this.#draw();
  }

  // The same, where more is known of rows that stay.
  showAnew(rows) {
    this.#body.replaceChildren();
    this.show(rows);
  }

  // The rows as they are sorted.
  rows = () => this.#rows;

  // Goes back to where the reader was; only an element that stands in the page can be moved.
  restore = () => {
    this.element.scrollTop = this.#kept.top ?? 0;
    this.#draw();
  };

  // So many rows are shown.
  #count() {
    return Math.min(this.#rows.length, this.#most);
  }

  // Shows those too that stand behind the first ones.
  showAll = () => {
    this.#most = Infinity;
    this.#drawAll();
  };

  // The same, with the focus on the first row that wasn't shown.
  showRest = () => {
    const first = this.#count();
    this.showAll();
    this.#moveTo(first);
  };

  toTop = () => {
    this.#kept.top = 0;
    this.restore();
  };

  #rowHeight() {
    return this.#heights[this.#narrow.matches ? 1 : 0];
  }

  // A row on a wide screen and one on a narrow screen have other heights.
  #watchSize() {
    let drawn = this.#rowHeight();
    new ResizeObserver(() => {
      const isSame = drawn === this.#rowHeight();
      drawn = this.#rowHeight();
      if (isSame) this.#draw();
      else this.#drawAll();
    }).observe(this.element);
  }

  #draw() {
    const height = this.#rowHeight();
    const { scrollTop, clientHeight } = this.element;
    const first = Math.max(0, Math.floor(scrollTop / height) - MARGIN);
    const last = Math.min(this.#count(), Math.ceil((scrollTop + clientHeight) / height) + MARGIN);
    const drawn = new Map([...this.#body.children].map(line => [Number(line.dataset.index), line]));
    const lines = [];
    for (let index = first; index < last; index += 1) lines.push(drawn.get(index) ?? bodyRow(this.#columns, this.#rows[index], index, height));
    for (const [index, line] of drawn) if (index < first || index >= last) line.remove();
    lines.forEach((line, place) => {
      if (this.#body.children[place] !== line) this.#body.insertBefore(line, this.#body.children[place] ?? null);
    });
  }

  // The heads, and room for all rows.
  #drawFrame() {
    this.#body.style.height = `${this.#count() * this.#rowHeight()}px`;
    this.element.classList.toggle('whole-list', this.#most === Infinity);
    this.#table.setAttribute('aria-rowcount', String(this.#rows.length + 1));
    if (!this.#head.contains(document.activeElement)) {
      this.#head.replaceChildren(...this.#columns.map(column => headCell(column, this.#kept, chosen => this.#sortBy(chosen))));
    }
  }

  #drawAll() {
    const focused = this.#body.contains(document.activeElement);
    this.#body.replaceChildren();
    this.#drawFrame();
    this.#draw();
    if (focused) this.element.focus();
  }

  #sort() {
    const column = this.#columns.find(column => column.key === this.#kept.key);
    if (column === undefined) return;
    const sign = this.#kept.down ? -1 : 1;
    const keyed = this.#rows.map(row => [column.order(row), row]);
    keyed.sort((left, right) => sign * compare(left[0], right[0]));
    this.#rows = keyed.map(([, row]) => row);
  }

  #sortBy(column) {
    const kept = this.#kept;
    kept.down = kept.key === column.key && !kept.down;
    kept.key = column.key;
    this.#sort();
    this.element.scrollTop = 0;
    document.activeElement.blur();
    this.#drawAll();
    this.#sorted(kept);
    this.#head.children[this.#columns.indexOf(column)].querySelector('button').focus();
  }

  // Moves from one row's link to another's, and draws it first where it isn't.
  #moveTo(index) {
    if (index >= this.#count()) this.showAll();
    const height = this.#rowHeight();
    const top = index * height;
    const seen = this.element.clientHeight - this.#head.offsetHeight;
    if (top < this.element.scrollTop) this.element.scrollTop = top;
    if (top + height > this.element.scrollTop + seen) this.element.scrollTop = top + height - seen;
    this.#draw();
    this.#body.querySelector(`[data-index="${index}"] a`)?.focus({ preventScroll: true });
  }

  #pressed(event) {
    const line = event.target.closest('tr[data-index]');
    if (line === null || this.#rows.length === 0) return;
    const index = Number(line.dataset.index);
    const page = Math.max(1, Math.floor(this.element.clientHeight / this.#rowHeight()) - 1);
    const end = this.#rows.length - 1;
    const places = { ArrowDown: index + 1, ArrowUp: index - 1, PageDown: index + page, PageUp: index - page, Home: 0, End: end };
    if (!(event.key in places)) return;
    event.preventDefault();
    this.#moveTo(Math.min(end, Math.max(0, places[event.key])));
  }
}

// A column has `key`, `label`, `place` (a class that says where it stands), `cell` (what is shown of a row), `order` (what
// rows are sorted by) where it can be sorted by, and `out` (what goes out of it as CSV). `kept` is where the sorting and
// the place in the table stay. `heights` are those of a row on a wide screen and on one that is at most `narrow`, as
// tables.css has it. `most` rows are shown at first. `out` are the columns that are printed, `moved` is called with how far it is scrolled, and `sorted`
// with how it is sorted. The result has the table's element, `show` and `showAnew`, which take other rows, `rows`, which gives them as
// they are sorted, `restore`, `toTop`, `showAll` and `showRest`.
export const makeTable = options => new Table(options);

// A list is printed with all of its rows, and not with those alone that are drawn.
export function printWholeTables() {
  addEventListener('beforeprint', () => document.querySelectorAll('.scroller').forEach(at => at.dispatchEvent(new Event('permit:print'))));
  addEventListener('afterprint', () => document.querySelectorAll('table.whole').forEach(at => at.remove()));
}
