// The picture's cursor, which always stands on a row, and what it tells of that row.

import { setText } from './dom.js';
import { milliseconds } from './digits.js';
import { columnOf } from './picture_window.js';

export function nearestColumn(first, column) {
  for (let away = 0; away < first.length; away += 1) {
    if (column - away >= 0 && first[column - away] >= 0) return column - away;
    if (column + away < first.length && first[column + away] >= 0) return column + away;
  }
  return -1;
}

export function nextColumn(first, column, step) {
  let at = column + step;
  while (at >= 0 && at < first.length && first[at] < 0) at += step;
  return at >= 0 && at < first.length ? at : -1;
}

function rowInWords(row) {
  const bus = row.bus === 0 ? '' : `, bus ${row.bus}`;
  const id = row.id === '' ? '' : ` ${row.id}`;
  const data = row.data === '' ? '' : `: ${row.data}`;
  const back = row.stepBack ? ', steps back' : '';
  const where = `Row ${row.number}, line ${row.line}, at ${milliseconds(row.offset)} ms, ${row.stamp}`;
  return `${where}${bus}, ${row.kind}${id}, length ${row.length}${data}${back}`;
}

export class Cursor {
  constructor(held, plot, line, told) {
    this.held = held;
    this.plot = plot;
    this.line = line;
    this.told = told;
    this.column = -1;
    this.index = -1;
    this.row = null;
    this.asking = false;
  }

  // On the first row of a column.
  toColumn(picture, column) {
    if (column < 0 || picture.first[column] === this.index) return;
    this.index = picture.first[column];
    this.row = null;
    this.at(picture, column);
    this.ask();
  }

  toRow(picture, row) {
    this.index = row.index;
    this.row = row;
    this.tell();
    this.placeIn(picture);
  }

  // Another picture has come: the row stays, and stands elsewhere.
  placeIn(picture) {
    const inside = this.row !== null && this.row.offset >= picture.from && this.row.offset <= picture.to;
    if (inside) this.at(picture, nearestColumn(picture.first, columnOf(picture, this.row.offset)));
    else if (this.row === null) this.toColumn(picture, nearestColumn(picture.first, Math.max(this.column, 0)));
    else this.line.hidden = true;
  }

  at(picture, column) {
    this.column = column;
    this.line.hidden = false;
    this.line.style.left = `${(100 * (column + 0.5)) / picture.columns}%`;
  }

  // One question at a time: while the mouse moves, only the last place matters.
  ask() {
    if (this.asking) return;
    this.asking = true;
    const index = this.index;
    this.held.rows(index, 1).then(([row]) => {
      this.asking = false;
      if (index !== this.index) this.ask();
      else {
        this.row = row;
        this.tell();
      }
    });
  }

  tell() {
    setText(this.told, rowInWords(this.row));
    this.plot.setAttribute('aria-valuenow', String(this.index));
    this.plot.setAttribute('aria-valuetext', `${milliseconds(this.row.offset)} ms`);
  }
}
