// The files that are made of an accepted one.

import { CHANNEL_AS_BUS, MOST_HEADER, MOST_LINE, MOST_ROW } from './limits.js';
import { carriedWords } from './carried.js';
import { Library, partOf } from './library.js';
import { refusalWords } from './refusal.js';
import { Pen } from './pen.js';
import { CSV_HEAD, MOST_CSV, putCsvRow } from './row.js';
import { counted, separated } from './digits.js';

// The rows of comma separated values that are put together at a time.
const PIECE = 5000;

// What: 'ascii', 'house' or 'csv'. A file, or why the library refused to make it.
export function makeFile(held, what, options, progress) {
  if (what === 'ascii') return makeAscii(held, options.channel);
  return what === 'house' ? makeHouse(held, options.version) : makeCsv(held, progress);
}

function makeAscii(held, channel) {
  const { library, records, out } = roomToMake(held, held.rows * MOST_LINE);
  const answer = library.export(held.start, channel ?? CHANNEL_AS_BUS, records, out);
  if (answer.number !== 0) return { refused: refusalWords(answer.number, answer.place), why: null };
  return { name: held.names.ascii, blob: blobOf(library, out, answer.bytes), said: `${counted(answer.lines, 'line', 'lines')}, ${separated(answer.leftOut)} left out` };
}

function makeHouse(held, version) {
  const { library, records, out } = roomToMake(held, MOST_HEADER + held.rows * MOST_ROW);
  const answer = library.write(version, held.start, held.first, records, out);
  if (answer.number !== 0) {
    const why = answer.number === 24 ? carriedWords(version, held.record(answer.place - 1)) : null;
    return { refused: refusalWords(answer.number, answer.place), why };
  }
  return { name: held.names.house[version], blob: blobOf(library, out, answer.bytes), said: counted(held.rows, 'row', 'rows') };
}

function makeCsv(held, progress) {
  const pieces = [`${CSV_HEAD}\n`];
  const pen = new Pen(PIECE * MOST_CSV);
  for (let index = 0; index < held.rows; index += 1) {
    const record = held.record(index);
    putCsvRow(pen, held.first + index, held.clock.bytes(record.offset), record);
    if ((index + 1) % PIECE === 0) {
      pieces.push(pen.take());
      progress(index + 1, held.rows);
    }
  }
  pieces.push(pen.take());
  return { name: held.names.csv, blob: new Blob(pieces, { type: 'text/csv' }), said: counted(held.rows, 'row', 'rows') };
}

// An instance of its own, whose memory goes with it.
function roomToMake(held, length) {
  const library = new Library(held.module);
  const records = library.lendBytes(held.library.bytes(held.records));
  return { library, records, out: library.lend(length) };
}

function blobOf(library, out, bytes) {
  return new Blob([library.bytes(partOf(out, 0, bytes))], { type: 'application/octet-stream' });
}
