// What is wrong with a line of a trace that is refused with 2 to 6: its end, its length, lines 1 and 2, a comment.

import { dollar, dollar_expected, end_cr, end_cr_of_file, end_expected, end_lf, end_of_file } from './words.js';
import { long, long_expected, start_expected, start_good, start_missing, start_none, start_wrong } from './words.js';
import { version_byte_order_mark, version_empty, version_expected, version_good, version_none } from './words.js';
import { version_utf_16, version_wrong } from './words.js';
import { LINE_LIMIT, latin1 } from './line.js';
import { separated } from './digits.js';
import { quoted } from './quoted.js';

// How line 1 and line 2 begin.
const VERSION_LINE = ';$FILEVERSION=';
const START_LINE = ';$STARTTIME=';

// The line is given up to its first CR or LF, with what stands behind it; line 1 begins the text.
export function explainHead(library, number, line, behind) {
  switch (number) {
    case 2:
      return notEnded(line, behind);
    case 3:
      return tooLong(line);
    case 4:
      return noVersion(library, line, behind);
    case 5:
      return noStart(library, line);
    default:
      return dollarFirst(line);
  }
}

function notEnded(line, behind) {
  const end = line.length;
  return { place: { start: end, end }, why: endWords(behind), expected: end_expected() };
}

function endWords(behind) {
  if (behind.length === 0) return end_of_file();
  if (behind[0] === 10) return end_lf();
  return behind.length === 1 ? end_cr_of_file() : end_cr();
}

function tooLong(line) {
  const why = long({ length: separated(line.length) });
  return { place: { start: LINE_LIMIT, end: line.length }, why, expected: long_expected({ line_limit: LINE_LIMIT }) };
}

function noVersion(library, line, behind) {
  const found = line.length === 0 && behind.length === 0 ? { end: 0, why: version_empty() } : encoded(line);
  if (found) return { place: { start: 0, end: found.end }, why: found.why, expected: version_expected() };
  const letters = latin1(line);
  const value = valueOf(letters, VERSION_LINE);
  if (value === null) return { place: { start: 0, end: line.length }, why: version_none(), expected: version_expected() };
  const good = `${VERSION_LINE}${letters.slice(value)}\r\n${START_LINE}0.0\r\n`;
  return { ...valueFound(library, letters, value, good, version_good, version_wrong), expected: version_expected() };
}

// A file whose letters are not bytes of their own.
function encoded(line) {
  const [a, b, c] = line;
  if (a === 0xef && b === 0xbb && c === 0xbf) return { end: 3, why: version_byte_order_mark() };
  if ((a === 0xff && b === 0xfe) || (a === 0xfe && b === 0xff)) return { end: 2, why: version_utf_16() };
  return null;
}

function noStart(library, line) {
  const letters = latin1(line);
  const value = valueOf(letters, START_LINE);
  const expected = start_expected();
  if (value === null) {
    return { place: { start: 0, end: line.length }, why: line.length === 0 ? start_missing() : start_none(), expected };
  }
  const good = `${VERSION_LINE}1.1\r\n${START_LINE}${letters.slice(value)}\r\n`;
  return { ...valueFound(library, letters, value, good, start_good, start_wrong), expected };
}

function dollarFirst(line) {
  const start = line.indexOf(0x24);
  return { place: { start, end: start + 1 }, why: dollar(), expected: dollar_expected() };
}

// Where the value begins in a line that begins nearly so, in any letter case; null where none is found.
function valueOf(letters, begin) {
  const name = begin.slice(1);
  const at = letters.search(new RegExp(name.replace('$', '\\$'), 'i'));
  return at < 0 ? null : at + name.length;
}

// What is wrong with a line in which a value was found: the value, or else what stands before it. The library is asked, by a text that has the value in a line
// as it must be.
function valueFound(library, letters, value, text, good, wrong) {
  const bytes = quoted(letters.slice(value));
  const { number } = library.read(library.lendLetters(text), library.nothing);
  if (number === 0) return { place: { start: 0, end: value }, why: good({ bytes }) };
  return { place: { start: value, end: letters.length }, why: wrong({ bytes }) };
}
