// Bytes of a line, each of them to be seen: printable ones as they are, all others by a name in a box.

import { hexadecimal } from './digits.js';
import { element } from './dom.js';

const NAMED = { 0: 'NUL', 9: 'TAB', 10: 'LF', 13: 'CR' };
const ENDS = { 'CR LF': [13, 10], LF: [10], CR: [13], '': [] };

export function nameOf(byte) {
  if (byte in NAMED) return NAMED[byte];
  if (byte < 32 || byte > 126) return `x${hexadecimal(byte, 2)}`;
  return null;
}

// The bytes of a line with those of its end behind them.
export function withEnd(bytes, end) {
  return [...bytes, ...(ENDS[end] || [])];
}

export function shownBytes(bytes) {
  const parts = [];
  let plain = '';
  for (const byte of bytes) {
    const name = nameOf(byte);
    if (name === null) plain += String.fromCharCode(byte);
    else {
      if (plain !== '') parts.push(plain);
      plain = '';
      parts.push(element('span', { class: 'byte', text: name }));
    }
  }
  if (plain !== '') parts.push(plain);
  return parts;
}
