// The parts of a line of Telemotive ASCII.

import { any_byte, in_part_bar, in_part_channel, in_part_data, in_part_date, in_part_direction, in_part_extended } from './words.js';
import { in_part_id, in_part_id_extended, in_part_length, in_part_time, in_part_type } from './words.js';
import { part_bar, part_channel, part_data, part_date, part_direction, part_extended, part_id, part_length } from './words.js';
import { part_time, part_type } from './words.js';

const BEGIN = ['date', 'time', 'type', 'channel', 'bar'];
const PLAIN = [...BEGIN, 'direction', 'id', 'length'];
const EXTENDED = [...BEGIN, 'extended', 'direction', 'idExtended', 'length'];

// Of each part its name, what may stand there, and one that is good there.
const PARTS = {
  date: [part_date, in_part_date, '30.12.1899'],
  time: [part_time, in_part_time, '00:00:00.0000'],
  type: [part_type, in_part_type, 'CAN'],
  channel: [part_channel, in_part_channel, '#1'],
  bar: [part_bar, in_part_bar, '|'],
  extended: [part_extended, in_part_extended, 'EXTENDED'],
  direction: [part_direction, in_part_direction, 'Rx'],
  id: [part_id, in_part_id, '000'],
  idExtended: [part_id, in_part_id_extended, '00000000'],
  length: [part_length, in_part_length, '0'],
  data: [part_data, (part) => in_part_data({ part: part_data(part), byte: any_byte() }), '00'],
};

// What comes next behind these parts, with which some line begins; null behind the last.
export function asciiPartBehind(parts) {
  const head = parts[2] === 'CANExt' ? EXTENDED : PLAIN;
  if (parts.length < head.length) return { is: head[parts.length] };
  const length = parts[head.length - 1];
  const of = /^[0-8]$/.test(length) ? Number(length) : 0;
  const byte = parts.length - head.length + 1;
  return byte > of ? null : { is: 'data', byte, of };
}

export function asciiPartName(part) {
  return PARTS[part.is][0](part);
}

export function inAsciiPart(part) {
  return PARTS[part.is][1](part);
}

export function goodAsciiPart(part) {
  return PARTS[part.is][2];
}
