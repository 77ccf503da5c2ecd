// What may stand in a column of a row, in words.

import { any_byte, any_number, error_counter, error_direction, error_position } from './words.js';
import { in_bus, in_data, in_end, in_id, in_id_of_error, in_id_of_warning, in_length, in_length_four } from './words.js';
import { in_number, in_number_any, in_offset_11, in_offset_12, in_remote_or_data, in_remote_or_nothing } from './words.js';
import { in_type, in_word } from './words.js';
import { columnName, columnTaken } from './column.js';

// The number is the one that the row must have, or 0 for any; the type is looked at in the columns behind it.
export function inColumn(column, version, number, kind) {
  switch (column.is) {
    case 'number':
      return number === 0 ? in_number_any({ any_number: any_number() }) : in_number({ number });
    case 'offset':
      return version === 11 ? in_offset_11() : in_offset_12();
    case 'bus':
      return in_bus();
    case 'type':
      return in_type();
    case 'id':
      return inId(kind);
    case 'length':
      return kind === 'Warng' || kind === 'Error' ? in_length_four() : in_length();
    case 'first':
      if (column.of === 0) return in_remote_or_nothing();
      return in_remote_or_data({ column: columnName(columnTaken(column)), byte: any_byte() });
    case 'data':
      return in_data({ column: columnName(column), byte: kind === 'Error' ? inErrorFrame(column.byte) : any_byte() });
    default:
      return column.is === 'word' ? in_word() : in_end();
  }
}

function inId(kind) {
  if (kind === 'Warng') return in_id_of_warning();
  return kind === 'Error' ? in_id_of_error() : in_id();
}

// What may stand in a data byte of an error frame, from 1.
function inErrorFrame(byte) {
  if (byte === 1) return error_direction();
  return byte === 2 ? error_position() : error_counter();
}
