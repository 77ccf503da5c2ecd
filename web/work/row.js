// One record as it is shown, and as a line of comma separated values, as owl shows it.

import { REMOTE_RECEIVED, REMOTE_SENT, WARNING } from './limits.js';
import { hexadecimal } from './digits.js';

// The kinds of a record, by their numbers.
export const KINDS = ['Rx', 'Tx', 'Rx RTR', 'Tx RTR', 'Warng', 'Error'];

export const CSV_HEAD = 'row,stamp,offset_us,bus,kind,extended,id,length,data,step_back';

// The ID as a trace spells it. A warning has none.
export function idOf(record) {
  if (record.kind === WARNING) return '';
  return hexadecimal(record.id, record.extended ? 8 : 4);
}

// The data bytes, two digits each. A remote frame has none, whatever its length.
export function dataOf(record) {
  const digits = hexadecimal(record.data[0], 8) + hexadecimal(record.data[1], 8);
  return isRemote(record) ? '' : digits.slice(0, 2 * record.length);
}

// The most bytes of a line of comma separated values.
export const MOST_CSV = 120;

// The stamp is given as its bytes.
export function putCsvRow(pen, number, stamp, record) {
  const { offset, bus, kind, extended, id, length, data, mark } = record;
  pen.letters(`${number},`);
  pen.copy(stamp);
  pen.letters(`,${offset},${bus === 0 ? '' : bus},${KINDS[kind]},${extended},`);
  if (kind !== WARNING) pen.hexadecimal(id, extended ? 8 : 4);
  pen.letters(`,${length},`);
  const shown = isRemote(record) ? 0 : length;
  for (let byte = 0; byte < shown; byte += 1) pen.hexadecimal(data[byte >> 2] >>> (24 - 8 * (byte & 3)), 2);
  pen.letters(`,${mark}\n`);
}

function isRemote({ kind }) {
  return kind === REMOTE_RECEIVED || kind === REMOTE_SENT;
}
