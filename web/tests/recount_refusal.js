// A good trace with one wrong line in it: number and line, the lines around it, and what is marked.

import { below, oneOf, textOf } from './recount_trace.js';

const { deepStrictEqual: isJust } = require('node:assert');

const BESIDE_IT = 3;
const END = { 'CR LF': '\r\n', LF: '\n', '': '' };

// Ways to spoil a row of a trace: what stands there then, the number, and the letters that are marked.
const WAYS = [
  (row) => ({ line: row.replace(/ (Rx|Tx|Warng|Error) /, ' Zz '), number: 7, marked: 'Zz' }),
  (row) => ({ line: row.replace(/^\d+\)/, '0)'), number: 7, marked: '0)' }),
  (row) => ({ line: `${row} \t`, number: 7, marked: '\t' }),
  (row) => ({ line: `${row}${' '.repeat(230)} \xff`, number: row.length > 18 ? 3 : 7, marked: null }),
  () => ({ line: '', number: 7, marked: '' }),
  () => ({ line: '  ;  $x', number: 7, marked: ';' }),
  () => ({ line: ';  $x', number: 6, marked: '$' }),
  () => ({ line: `;${'c'.repeat(250)}`, number: 3, marked: 'c' }),
  () => ({ line: `;${'c'.repeat(9000)}`, number: 3, marked: null }),
  (row) => ({ line: row, end: '\n', number: 2, marked: '' }),
];

export function spoiled(random, { lines, rows }) {
  const { line: place } = oneOf(random, rows);
  const { line, number, marked, end } = oneOf(random, WAYS)(lines[place - 1]);
  const ended = lines.map((one) => `${one}\r\n`);
  ended[place - 1] = `${line}${end ?? '\r\n'}`;
  const cut = random() < 0.3 ? below(random, ended.at(-1).length) : 0;
  const text = Buffer.from(ended.join('').slice(0, cut > 0 && place < lines.length ? -cut : undefined), 'latin1');
  return { text, place, number, marked };
}

// The lines of a text with their ends, as they are split by LF alone.
function linesIn(text) {
  return text.toString('latin1').match(/[^\n]*\n|[^\n]+$/g);
}

export function recountRefusal({ text, place, number, marked }, refused) {
  isJust([refused.number, refused.place], [number, place]);
  const lines = linesIn(text);
  const from = Math.max(1, place - BESIDE_IT);
  const to = Math.min(lines.length, place + BESIDE_IT);
  isJust(refused.around.map((one) => one.line), Array.from({ length: to - from + 1 }, (_, at) => from + at));
  for (const one of refused.around) recountLine(one, lines[one.line - 1]);
  isJust(refused.around.filter((one) => one.wrong !== null).map((one) => one.line), [place]);
  const { bytes, before, wrong } = refused.around.find((one) => one.line === place);
  isJust(before + wrong.start, refused.wrong.start);
  isJust(wrong.end, Math.min(refused.wrong.end - before, bytes.length));
  if (marked !== null) isJust(Buffer.from(bytes.subarray(wrong.start, wrong.end)).toString('latin1'), marked);
}

// What is shown of a line, and how much is not, are the line.
function recountLine({ bytes, before, behind, end }, line) {
  const shown = Buffer.from(bytes).toString('latin1');
  const whole = line.slice(0, line.length - END[end].length);
  isJust(line.slice(whole.length), END[end]);
  isJust([/\n$/.test(whole), end === 'LF' && /\r$/.test(whole)], [false, false]);
  isJust(whole.slice(before, whole.length - behind), shown);
  isJust(shown.length <= 260 && (shown.length === 260 || behind === 0 || before > 0), true);
}

export function goodText(trace) {
  return textOf(trace.lines);
}
