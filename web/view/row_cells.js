// The columns of the list, and a row of it.

import { element, newName } from './dom.js';
import { milliseconds } from './digits.js';

const CELLS = [
  { name: 'Row', class: 'number', of: (row) => String(row.number) },
  { name: 'Line', class: 'number', of: (row) => String(row.line) },
  { name: 'Date and time', class: 'stamp', of: (row) => row.stamp },
  { name: 'Offset, ms', class: 'offset', of: (row) => milliseconds(row.offset) },
  { name: 'Bus', class: 'bus', of: (row) => (row.bus === 0 ? '' : String(row.bus)) },
  { name: 'Kind', class: 'kind', of: (row) => row.kind },
  { name: 'ID', class: 'row-id', of: (row) => row.id },
  { name: 'Length', class: 'length', of: (row) => String(row.length) },
  { name: 'Data', class: 'data', of: (row) => row.data },
  { name: 'Step back', class: 'back', of: (row) => (row.stepBack ? 'steps back' : '') },
];

// Lines and offsets have as much room as the longest of this file.
export function setWidths(list, facts) {
  const line = Math.max(4, String(facts.lines).length);
  const offset = Math.max(10, milliseconds(facts.latest.offset).length);
  list.style.setProperty('--line-digits', `${line}ch`);
  list.style.setProperty('--offset-digits', `${offset}ch`);
}

export function headOfList() {
  const cells = CELLS.map((cell) => element('span', { role: 'columnheader', class: cell.class, text: cell.name }));
  return element('div', { class: 'list-head', role: 'row', 'aria-rowindex': '1' }, ...cells);
}

export function rowElement(index) {
  const cells = CELLS.map((cell) => element('span', { role: 'gridcell', class: cell.class }));
  const made = element('div', { class: 'row', role: 'row', id: newName('row'), test: 'row' }, ...cells);
  made.dataset.index = String(index);
  made.setAttribute('aria-rowindex', String(index + 2));
  return made;
}

export function fillRow(made, row) {
  CELLS.forEach((cell, at) => {
    made.children[at].textContent = cell.of(row);
  });
  made.classList.toggle('steps-back', row.stepBack);
  made.dataset.filled = 'yes';
}

// A row as text, to be copied.
export function rowText(made) {
  return [...made.children].map((cell) => cell.textContent).join('\t');
}
