// A file given to the library: accepted, or refused.

import { LEAST_LINE, LEAST_ROW, MOST_ROWS, RECORD } from './limits.js';
import { formOf } from './form.js';
import { HeldTrace } from './held.js';
import { Library, partOf } from './library.js';
import { refusalOf } from './refusal.js';
import { rowLines } from './row_lines.js';
import { loadText } from './text.js';

// What the page is told of a file, and, where it was accepted, what is held of it. The form is null where name and first byte decide.
export async function judge(module, file, form, progress) {
  const library = new Library(module);
  progress('reading', 0, file.size);
  const text = await loadText(library, file, (done, of) => progress('reading', done, of));
  progress('judging', 0, 0);
  const is = form ?? formOf(file.name, library.bytes(text));
  const records = library.lend(roomFor(is, text.length));
  const answer = is === 'ascii' ? library.readAscii(text, records) : library.read(text, records);
  const told = { name: file.name, size: file.size, form: is };
  if (answer.number !== 0) {
    return { refused: { ...told, ...refusalOf(library, is, text, answer, records), others: isOther(is, library.bytes(text)) } };
  }
  // What is held is copied into an instance of its own, so that the text's memory can go.
  const { lineOfRow, lines } = rowLines(is, library.bytes(text), answer.rows);
  const bytes = library.bytes(partOf(records, 0, answer.rows * RECORD));
  const held = new HeldTrace(module, told, answer, bytes, lineOfRow, lines);
  held.look((done, of) => progress('looking', done, of));
  return { held, accepted: held.facts() };
}

// Enough bytes for the records of any text of this length.
function roomFor(form, length) {
  const least = form === 'ascii' ? LEAST_LINE : LEAST_ROW;
  return Math.min(MOST_ROWS, Math.floor(length / least)) * RECORD;
}

// Whether a refused text looks like one of the other form.
function isOther(form, text) {
  return formOf('', text) !== form;
}
