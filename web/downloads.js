// What goes out as a file: tables as CSV (RFC 4180), and a deadline as an entry of a calendar (RFC 5545).

import { isoDate } from './dates.js';
import { department } from './department.js';
import { button, el } from './dom.js';
import { NEAR } from './rules.js';

function download(name, type, text) {
  const address = URL.createObjectURL(new Blob([text], { type }));
  el('a', { href: address, download: name }).click();
  setTimeout(() => URL.revokeObjectURL(address), 10_000);
}

// A spreadsheet would read a text that begins so as a formula. An apostrophe before it keeps it a text.
const plainText = text => (/^[=+@\t\r-]/.test(text) && Number.isNaN(Number(text)) ? `'${text}` : text);

function csvField(value) {
  const text = plainText(String(value ?? ''));
  return /[",\r\n]/.test(text) ? `"${text.replaceAll('"', '""')}"` : text;
}

// A table's rows, with the columns that go out: each has a head and what it gives of a row. The mark at the beginning
// tells spreadsheets that it is UTF-8.
export function csvOf(columns, rows) {
  const lines = [columns.map(([head]) => head), ...rows.map(row => columns.map(([, value]) => value(row)))];
  return `\ufeff${lines.map(line => line.map(csvField).join(',')).join('\r\n')}\r\n`;
}

// A button that hands a table out. Columns and rows are asked for at the click.
export const csvButton = (name, columns, rows) => button('Download as CSV',
  () => download(`${name}.csv`, 'text/csv;charset=utf-8', csvOf(columns(), rows())));

const escaped = text => text.replaceAll(/[\\;,]/g, '\\$&').replaceAll('\n', '\\n');

// A line of at most 75 octets; what is longer goes on in lines that begin with a space. No character is cut.
function folded(line) {
  const encoder = new TextEncoder();
  const parts = [''];
  let size = 0;
  for (const letter of line) {
    const octets = encoder.encode(letter).length;
    if (size + octets > 75) {
      parts.push(' ');
      size = 1;
    }
    parts[parts.length - 1] += letter;
    size += octets;
  }
  return parts.join('\r\n');
}

const dayStamp = day => isoDate(day).replaceAll('-', '');

// A file's deadline: a whole day, with a reminder when it comes near.
export function calendarOf({ file, title, place, text, now }) {
  const lines = ['BEGIN:VCALENDAR', 'VERSION:2.0', 'PRODID:-//permit//page//EN', 'BEGIN:VEVENT',
    `UID:file-${file.id}-deadline@${location.hostname}`, `DTSTAMP:${now.toISOString().replaceAll(/[-:]|\.\d+/g, '')}`,
    `DTSTART;VALUE=DATE:${dayStamp(file.deadline)}`, `DTEND;VALUE=DATE:${dayStamp(file.deadline + 1)}`,
    `SUMMARY:${escaped(title)}`, `DESCRIPTION:${escaped(text)}`, ...(place === '' ? [] : [`LOCATION:${escaped(place)}`]),
    'TRANSP:TRANSPARENT', 'BEGIN:VALARM', 'ACTION:DISPLAY', `TRIGGER:-P${NEAR}D`, `DESCRIPTION:${escaped(title)}`, 'END:VALARM',
    'END:VEVENT', 'END:VCALENDAR'];
  return `${lines.map(folded).join('\r\n')}\r\n`;
}

export function calendarButton(file, place, what) {
  const title = `Deadline of file ${file.id}`;
  const text = `${what}\n${department().name}\n${location.href}`;
  return button('Add the deadline to a calendar', () => download(`file-${file.id}-deadline.ics`, 'text/calendar;charset=utf-8',
    calendarOf({ file, title, place: place(), text, now: new Date() })));
}
