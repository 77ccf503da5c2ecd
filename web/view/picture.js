// The picture of a trace: time across, a strip for each ID.

import { onLook } from './look.js';
import { pictureParts, showNames, FIRST_STRIPS } from './picture_parts.js';
import { TimeWindow, offsetOf } from './picture_window.js';
import { showAxis } from './picture_axis.js';
import { drawStrips } from './picture_strips.js';
import { drawMarks, nextMark } from './picture_marks.js';
import { listenToPlot } from './picture_hands.js';
import { Cursor, nearestColumn, nextColumn } from './cursor.js';
import { milliseconds } from './digits.js';
import { spanInWords } from './numbers.js';

const COLUMN = 2;
const PAPER_WIDTH = 520;

export class Picture {
  constructor(held, facts, show) {
    this.held = held;
    this.facts = facts;
    this.show = show;
    this.window = new TimeWindow(facts.earliest.offset, facts.latest.offset);
    this.strips = Math.min(FIRST_STRIPS, facts.ids.length);
    this.picture = null;
    this.due = false;
    this.awaited = false;
    this.ended = false;
    this.parts = pictureParts(facts, {
      zoom: (factor) => this.zoom(factor),
      whole: () => this.whole(),
      pan: (part) => this.pan(part),
      mark: () => this.toMark(),
      more: (strips) => this.more(strips),
    });
    this.element = this.parts.element;
    this.cursor = new Cursor(held, this.parts.plot, this.parts.cursor, this.parts.told);
    listenToPlot(this);
  }

  shown() {
    showNames(this.parts, this.facts, this.strips);
    this.watch = new ResizeObserver(() => this.resized());
    this.watch.observe(this.parts.plot);
    this.unlook = onLook(() => this.draw());
    this.ask();
  }

  end() {
    this.ended = true;
    this.watch.disconnect();
    this.unlook();
  }

  // No more than there are microseconds, of which each has its own column then.
  columns() {
    const room = Math.max(50, Math.floor(this.parts.plot.clientWidth / COLUMN));
    return Math.min(room, this.window.span());
  }

  resized() {
    this.draw();
    if (this.picture === null || this.columns() === this.picture.columns) return;
    clearTimeout(this.later);
    this.later = setTimeout(() => this.ask(), 150);
  }

  // One question at a time: while a picture is awaited, of all that is wanted meanwhile only the last matters.
  ask() {
    this.due = true;
    if (this.awaited || this.ended) return;
    this.awaited = true;
    this.due = false;
    const { from, to } = this.window;
    const strips = this.strips;
    this.held.picture({ from, to, columns: this.columns(), strips }).then((picture) => {
      this.awaited = false;
      this.arrived(picture, strips);
      if (this.due) this.ask();
    });
  }

  arrived(picture, strips) {
    this.picture = picture;
    this.drawn = strips;
    this.draw();
    this.cursor.placeIn(picture);
    const { from, to } = picture;
    const { earliest, latest } = this.facts;
    this.parts.shows.textContent = from === earliest.offset && to === latest.offset
      ? `the whole trace, ${spanInWords(to - from)}`
      : `${milliseconds(from)} ms to ${milliseconds(to)} ms, ${spanInWords(to - from)}`;
  }

  draw() {
    if (this.picture === null) return;
    const paper = document.documentElement.classList.contains('paper');
    const width = paper ? PAPER_WIDTH : this.parts.plot.clientWidth;
    const ratio = paper ? 3 : 4;
    drawMarks(this.parts.marks, this.picture, width, ratio);
    drawStrips(this.parts.strips, this.picture, this.drawn, width, ratio);
    showAxis(this.parts.axis, this.picture, width);
  }

  more(strips) {
    this.strips = strips;
    showNames(this.parts, this.facts, strips);
    this.ask();
  }

  zoom(factor) {
    if (this.picture === null) return;
    const { row, column } = this.cursor;
    const offset = row === null ? offsetOf(this.picture, Math.max(column, 0)) : row.offset;
    this.window.zoom(factor, this.window.holds(offset) ? offset : this.window.middle());
    this.ask();
  }

  whole() {
    this.window.whole();
    this.ask();
  }

  pan(part) {
    this.window.pan(part);
    this.ask();
  }

  // The cursor goes to this row; the window follows if it must. Where the list says the row itself, it is not said twice.
  stand(row, aloud = true) {
    this.parts.told.setAttribute('aria-live', aloud ? 'polite' : 'off');
    if (!this.window.holds(row.offset)) {
      this.window.centre(row.offset);
      this.ask();
    }
    if (this.picture !== null) this.cursor.toRow(this.picture, row);
  }

  toIndex(index) {
    if (index < 0 || index >= this.facts.rows) return;
    this.held.rows(index, 1).then(([row]) => this.stand(row));
  }

  toMark() {
    if (this.picture === null) return;
    const index = nextMark(this.picture, this.cursor.column);
    if (index >= 0) this.toIndex(index);
    else this.parts.told.textContent = 'No row steps back here, and there is no error frame.';
  }

  // To the next column that has rows; at the edge of a part of the trace to the next row, whatever its time is.
  step(by) {
    const column = this.parts.cursor.hidden ? -1 : nextColumn(this.picture.first, this.cursor.column, by);
    if (column >= 0) this.cursor.toColumn(this.picture, column);
    else if (!this.window.isWhole()) this.toIndex(this.cursor.index + by);
  }

  edge(column) {
    this.cursor.toColumn(this.picture, nearestColumn(this.picture.first, column));
  }
}
