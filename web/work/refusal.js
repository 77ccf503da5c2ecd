// All that is told of a refused file.

import { refusal, refusal_1, refusal_2, refusal_3, refusal_31, refusal_32, refusal_33, refusal_34 } from './words.js';
import { refusal_22, refusal_23, refusal_24, refusal_25, refusal_26, refusal_35 } from './words.js';
import { refusal_4, refusal_5, refusal_6, refusal_7, refusal_8, refusal_20, refusal_21, refusal_30 } from './words.js';
import { remedy_1, remedy_2, remedy_3, remedy_31, remedy_32, remedy_33, remedy_34 } from './words.js';
import { remedy_4, remedy_5, remedy_6, remedy_7 } from './words.js';
import { MOST_CHANNEL, MOST_OFFSET, MOST_ROWS, MOST_TEXT } from './limits.js';
import { linesAround } from './around.js';
import { explainAscii } from './explain_ascii.js';
import { explainHead } from './explain_head.js';
import { explainRow } from './explain_row.js';
import { partOf } from './library.js';
import { LINE_LIMIT, beforeEnd, endOf, lineBegin, lineEnd, withoutEnd } from './line.js';
import { separated } from './digits.js';

const REFUSALS = {
  1: refusal_1,
  2: refusal_2,
  3: refusal_3,
  4: refusal_4,
  5: refusal_5,
  6: refusal_6,
  7: refusal_7,
  8: refusal_8,
  20: refusal_20,
  21: refusal_21,
  22: refusal_22,
  23: refusal_23,
  24: refusal_24,
  25: refusal_25,
  26: refusal_26,
  30: refusal_30,
  31: refusal_31,
  32: refusal_32,
  33: refusal_33,
  34: refusal_34,
  35: refusal_35,
};

const REMEDIES = {
  1: remedy_1,
  2: remedy_2,
  3: remedy_3,
  4: remedy_4,
  5: remedy_5,
  6: remedy_6,
  7: remedy_7,
  31: remedy_31,
  32: remedy_32,
  33: remedy_33,
  34: remedy_34,
};

const LIMITS = {
  most_text: separated(MOST_TEXT),
  most_rows: separated(MOST_ROWS),
  most_offset: separated(MOST_OFFSET),
  most_channel: MOST_CHANNEL,
  line_limit: LINE_LIMIT,
};

// The refusal in words, with its number.
export function refusalWords(number, place) {
  return refusal({ words: REFUSALS[number]({ ...LIMITS, place }), number });
}

// What is told of a text that was refused with this number at this line.
export function refusalOf(library, form, text, { number, place }, records) {
  const told = { number, place, words: refusalWords(number, place), remedy: REMEDIES[number]?.(LIMITS) ?? null };
  const begin = place === 0 ? null : lineBegin(library.bytes(text), place);
  if (begin === null) return { ...told, wrong: null, why: null, expected: null, around: [] };
  const explained = form === 'ascii' ? ofAscii(library, number, text, begin) : ofTrace(library, number, text, begin, records);
  const around = linesAround(library.bytes(text), place, begin, explained.place);
  return { ...told, wrong: explained.place, why: explained.why, expected: explained.expected, around };
}

function ofAscii(library, number, text, begin) {
  const bytes = library.bytes(text);
  const line = bytes.slice(begin, lineEnd(bytes, begin));
  return explainAscii(library, number, withoutEnd(line), endOf(line) !== '');
}

function ofTrace(library, number, text, begin, records) {
  const bytes = library.bytes(text);
  const line = beforeEnd(bytes.subarray(begin, lineEnd(bytes, begin)));
  const end = begin + line.length;
  if (number === 7) return explainRow(library, partOf(text, 0, begin), partOf(text, begin, end), records);
  return explainHead(library, number, line.slice(), bytes.slice(end, end + 2));
}
