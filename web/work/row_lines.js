// On which lines of an accepted file its rows stand.

import { lineEnd } from './line.js';

const SEMICOLON = 59;
// Lines 1 and 2 of a trace are its version and its start.
const HEAD_LINES = 2;

// From line 3 on a trace has comments, which begin with a semicolon, and rows; of lines of ASCII each is a row.
export function rowLines(form, text, rows) {
  const lineOfRow = new Uint32Array(rows);
  let found = 0;
  let lines = 0;
  for (let begin = 0; begin < text.length; begin = lineEnd(text, begin)) {
    lines += 1;
    if (form === 'trace' && (lines <= HEAD_LINES || text[begin] === SEMICOLON)) continue;
    lineOfRow[found] = lines;
    found += 1;
  }
  if (found !== rows) throw new Error(`${found} lines are rows, and the library has ${rows}`);
  return { lineOfRow, lines };
}
