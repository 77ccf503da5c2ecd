// The facts, the rows and what is found, counted again by going through all rows.

import { findId, findLine } from './find.js';
import { below, hexOf, oneOf, stampOf } from './recount_trace.js';

const { deepStrictEqual } = require('node:assert');

const ALL_KINDS = ['Rx', 'Tx', 'Rx RTR', 'Tx RTR', 'Warng', 'Error'];

export function stripName(row) {
  return row.kind === 'Warng' || row.kind === 'Error' ? row.kind : row.id;
}

// Of each strip its name and its rows, the most frequent first, and those that are as frequent by their names.
export function stripsIn(rows) {
  const names = [...new Set(rows.map(stripName))].sort();
  const strips = names.map((name) => ({ name, count: rows.filter((row) => stripName(row) === name).length }));
  return strips.sort((a, b) => b.count - a.count);
}

export function recountFacts({ version, first, lines, rows }, facts) {
  const offsets = rows.map((row) => row.offset);
  const end = (offset) => (rows.length === 0 ? null : { offset, stamp: stampOf(offset) });
  const back = rows.find((row) => row.stepBack);
  const strips = stripsIn(rows);
  const { name, size, form, names, ...told } = facts;
  deepStrictEqual(told, {
    version,
    versionName: version === 11 ? '1.1' : '1.2',
    start: stampOf(0),
    rows: rows.length,
    first,
    lines: lines.length,
    earliest: end(Math.min(...offsets)),
    latest: end(Math.max(...offsets)),
    covered: rows.length === 0 ? 0 : Math.max(...offsets) - Math.min(...offsets),
    firstStepBack: back ? { index: back.index, number: back.number, line: back.line } : null,
    stepsBack: rows.filter((row) => row.stepBack).length,
    kinds: ALL_KINDS.map((kind) => ({ kind, count: rows.filter((row) => row.kind === kind).length })),
    ids: strips.slice(0, 256),
    idCount: strips.length,
    houseVersion: version,
    busless: rows.some((row) => row.bus === 0),
  });
}

export function recountRows({ rows }, held) {
  rows.forEach((row, index) => deepStrictEqual(held.row(index), row));
}

// Four digits are a standard ID and eight an extended one; of any others the number counts.
function isMeant(row, text) {
  const name = stripName(row);
  if (/^(warng|error)$/i.test(text) || /^(Warng|Error)$/.test(name)) return name.toLowerCase() === text.toLowerCase();
  if (text.length === 4 || text.length === 8) return name === text.toUpperCase();
  return Number(`0x${name}`) === Number(`0x${text}`);
}

export function recountFound({ rows, lines }, held, random) {
  const number = below(random, 20) * 7;
  const text = oneOf(random, [hexOf(number, 4), hexOf(number, 8).toLowerCase(), hexOf(number, 1), hexOf(number, 6), 'Error', 'warng']);
  const from = below(random, rows.length + 2) - 1;
  for (const step of [1, -1]) {
    const found = rows.filter((row) => isMeant(row, text) && (row.index - from) * step >= 0).map((row) => row.index);
    const inside = from >= 0 && from < rows.length;
    const index = inside && found.length > 0 ? found.at(step === 1 ? 0 : -1) : -1;
    deepStrictEqual(findId(held.seen, text, from, step), { index }, `${text} from ${from} by ${step}`);
  }
  for (let line = 1; line <= lines.length; line += 1) {
    const at = rows.findIndex((row) => row.line >= line);
    const found = findLine(held.lineOfRow, held.lines, line);
    deepStrictEqual(at < 0 ? typeof found.wrong : found, at < 0 ? 'string' : { index: at }, `line ${line}`);
  }
  for (const line of [0, -1, 1.5, lines.length + 1]) deepStrictEqual(typeof findLine(held.lineOfRow, held.lines, line).wrong, 'string');
}
