// What is wrong with a line that is no row: which field it is, by the library; what may stand there, in words.

import { any_number, in_no_row, row_empty, row_empty_first, row_ended_early, row_no_number_left } from './words.js';
import { row_one_too_many, row_wrong_field, row_wrong_number } from './words.js';
import { MOST_ROWS, WRONG_FIELD } from './limits.js';
import { columnBehind, columnName, columnTaken, typeAmong } from './column.js';
import { inColumn } from './expected_row.js';
import { latin1, partsOf, placesOf } from './line.js';
import { quoted } from './quoted.js';

// The line is an area of the text, without its CR LF, and the text before it another.
export function explainRow(library, before, line, records) {
  const letters = latin1(library.bytes(line));
  const trace = library.read(before, records);
  // Where no row stands before, both are 0: any number will do.
  const number = trace.first + trace.rows;
  if (number > MOST_ROWS) {
    return { place: { start: 0, end: letters.length }, why: row_no_number_left(), expected: in_no_row() };
  }
  const { reason, field } = library.explain(line, trace.version, number);
  const row = { letters, fields: partsOf(letters), version: trace.version, number, field };
  return reason === WRONG_FIELD ? wrongField(row) : endedEarly(row);
}

function wrongField(row) {
  const { field } = row;
  const column = columnBehind(row.version, row.fields.slice(0, field - 1));
  const expected = expectedOf(row, column);
  const told = { field, column: columnName(column), bytes: quoted(row.fields[field - 1]), expected };
  const tell = { number: row_wrong_number, end: row_one_too_many }[column.is] ?? row_wrong_field;
  return { place: placesOf(row.letters)[field - 1], why: tell(told), expected };
}

function endedEarly(row) {
  const { fields, version } = row;
  const next = columnBehind(version, fields);
  const expected = expectedOf(row, next);
  const end = placesOf(row.letters).at(-1)?.end ?? 0;
  return { place: { start: end, end }, why: endedWords(row, columnName(next), expected), expected };
}

function endedWords({ fields, version, number, field }, next, expected) {
  if (fields.length > 0) {
    const column = columnName(columnTaken(columnBehind(version, fields.slice(0, -1))));
    return row_ended_early({ field, column, next });
  }
  return number === 0 ? row_empty_first({ any_number: any_number() }) : row_empty({ next, expected });
}

function expectedOf(row, column) {
  return inColumn(column, row.version, row.number, typeAmong(row.version, row.fields));
}
