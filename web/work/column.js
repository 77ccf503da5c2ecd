// The columns of a row.

import { column_bus, column_data, column_end, column_id, column_length, column_number, column_offset } from './words.js';
import { column_remote_or_data, column_remote_or_nothing, column_type, column_word } from './words.js';

// Those that every row of a version has.
const HEADS = {
  11: ['number', 'offset', 'type', 'id', 'length'],
  12: ['number', 'offset', 'bus', 'type', 'id', 'length'],
};

const COLUMN_WORDS = {
  number: column_number,
  offset: column_offset,
  bus: column_bus,
  type: column_type,
  id: column_id,
  length: column_length,
  data: column_data,
  word: column_word,
  end: column_end,
};

// What comes next behind these fields, with which some row of this version begins.
export function columnBehind(version, fields) {
  const head = HEADS[version];
  if (fields.length < head.length) return { is: head[fields.length] };
  const [kind, , length] = fields.slice(head.length - 3);
  const data = fields.slice(head.length);
  const of = Number(length[0]);
  const frame = kind === 'Rx' || kind === 'Tx';
  if (frame && data.length === 0) return { is: 'first', of };
  if (frame && data[0] === 'RTR') return { is: 'end' };
  if (data.length < of) return { is: 'data', byte: data.length + 1, of };
  return { is: kind === 'Warng' ? 'word' : 'end' };
}

// The column of a field that ended no row: RTR would have.
export function columnTaken(column) {
  return column.is === 'first' ? { is: 'data', byte: 1, of: column.of } : column;
}

export function columnName(column) {
  if (column.is !== 'first') return COLUMN_WORDS[column.is](column);
  return column.of === 0 ? column_remote_or_nothing() : column_remote_or_data(column);
}

// Which of the fields of a row is its type; empty where they end before.
export function typeAmong(version, fields) {
  return fields[HEADS[version].indexOf('type')] ?? '';
}
