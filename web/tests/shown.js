// Holds what the page's side works out by itself to what it is: shown [COUNT [SEED]]

import { nameOf, withEnd } from './bytes.js';
import { nearestColumn, nextColumn } from './cursor.js';
import { shownName } from './names.js';
import { milliseconds } from './digits.js';
import { percent, spanInWords } from './numbers.js';
import { countsInWords, titleOf } from './overview.js';
import { markNear, nextMark } from './picture_marks.js';
import { TimeWindow, columnOf, offsetOf } from './picture_window.js';
import { randomFrom } from './recount_trace.js';
import { tryAxis } from './shown_axis.js';
import { tryScroll } from './shown_scroll.js';

const { deepStrictEqual: just, ok: holds } = require('node:assert');

const DAY_MS = 86400000;

// However it is zoomed and moved, it lies within the trace, holds what it was zoomed to, and comes back to the whole.
function tryWindow(random) {
  const earliest = Math.floor(random() * 2 ** 40);
  const latest = earliest + Math.floor(random() ** 6 * 2 ** 47);
  const window = new TimeWindow(earliest, latest);
  const least = Math.min(500, latest - earliest + 1);
  for (let turn = 0; turn < 60; turn += 1) {
    const offset = window.from + Math.floor(random() * window.span());
    if (turn % 3 === 2) window.pan(random() < 0.5 ? -0.5 : 0.5);
    else window.zoom(turn % 7 === 6 ? 2 : 0.5, offset);
    holds(turn % 3 === 2 || window.holds(offset));
    holds(Number.isInteger(window.from) && Number.isInteger(window.to));
    holds(window.from >= earliest && window.to <= latest && window.span() >= least);
  }
  for (let turn = 0; turn < 50; turn += 1) window.zoom(2, window.from);
  holds(window.isWhole());
}

// The column of an offset is the last that begins there or before; the middle of a column lies in it.
function tryColumns(random) {
  const columns = 1 + Math.floor(random() * 40);
  const from = Math.floor(random() * 1000);
  const to = from + columns + Math.floor(random() * 1000);
  const span = to - from + 1;
  const begins = Float64Array.from({ length: columns }, (_, column) => from + Math.floor((column * span) / columns));
  const picture = { from, to, columns, begins };
  for (let column = 0; column < columns; column += 1) {
    just([columnOf(picture, begins[column]), columnOf(picture, offsetOf(picture, column))], [column, column]);
    if (column > 0) just(columnOf(picture, begins[column] - 1), column - 1);
  }
}

function tryMarks() {
  const first = Int32Array.of(-1, 7, -1, -1, 3, -1);
  just([0, 1, 2, 3, 4, 5].map((column) => nearestColumn(first, column)), [1, 1, 1, 4, 4, 4]);
  just([nextColumn(first, 1, 1), nextColumn(first, 4, 1), nextColumn(first, 4, -1), nextColumn(first, 1, -1)], [4, -1, 1, -1]);
  just([markNear(first, 0, 0), markNear(first, 0, 1), markNear(first, 2, 4), markNear(first, 3, 1)], [-1, 7, 7, 3]);
  const picture = { columns: 6, stepBack: first, error: Int32Array.of(-1, 8, 9, -1, -1, -1) };
  just([-1, 1, 2, 4, 5].map((column) => nextMark(picture, column)), [7, 9, 3, 7, 7]);
  just(nextMark({ columns: 1, stepBack: [-1], error: [-1] }, 0), -1);
}

function tryBytes() {
  const named = { 0: 'NUL', 9: 'TAB', 10: 'LF', 13: 'CR', 31: 'x1F', 127: 'x7F', 128: 'x80', 255: 'xFF' };
  for (const [byte, name] of Object.entries(named)) just(nameOf(Number(byte)), name);
  for (let byte = 32; byte <= 126; byte += 1) just(nameOf(byte), null);
  just([withEnd([1], 'CR LF'), withEnd([1], 'LF'), withEnd([1], 'CR'), withEnd([1], '')], [[1, 13, 10], [1, 10], [1, 13], [1]]);
}

// A span is told in units that are as much as it is.
function trySpan(random) {
  const span = Math.floor(2 ** (random() * 48));
  const of = (unit) => Number(new RegExp(`([\\d,.]+) ${unit}\\b`).exec(spanInWords(span))?.[1].replaceAll(',', '') ?? 0);
  const ms = of('d') * DAY_MS + of('h') * 3600000 + of('min') * 60000;
  just(Math.round((ms + of('s') * 1000 + of('ms')) * 1000), span);
  just(Number(milliseconds(span).replace('.', '')), span);
}

function tryWords() {
  just(shownName('a b\u202egpj\x01\n\u00e9.trc'), 'a b\\u202Egpj\\x01\\x0A\u00e9.trc');
  just([percent(0, 0), percent(0, 3), percent(2, 3), percent(3, 3), percent(4, 3)], ['', '0 %', '66 %', '100 %', '100 %']);
  const states = ['accepted', 'refused', 'waiting', 'reading', 'accepted', 'stopped', 'failed'];
  just(countsInWords(states), '7 files: 1 waiting, 1 reading, 2 accepted, 1 refused, 1 failed, 1 stopped');
  just(titleOf(states), '7 files: 2 at work, 1 refused, 1 failed, 1 stopped - Bushingowl');
  just([titleOf([]), titleOf(['accepted']), titleOf(['accepted', 'accepted']), titleOf(['refused'])],
    ['Bushingowl', '1 file: accepted - Bushingowl', '2 files: all accepted - Bushingowl', '1 file: refused - Bushingowl']);
}

function showAll(count, seed) {
  const random = randomFrom(seed);
  for (const one of [tryMarks, tryBytes, tryWords]) one();
  for (let at = 0; at < count; at += 1) for (const one of [tryAxis, tryScroll, tryWindow, tryColumns, trySpan]) one(random);
  console.log(`${count} windows, axes, lists and spans tried`);
}

showAll(Number(process.argv[2] ?? 3000), Number(process.argv[3] ?? 26));
