// Numbers as they are shown.

import { counted, milliseconds, separated } from './digits.js';

const SECOND = 1000000;
const MINUTE = 60 * SECOND;
const HOUR = 60 * MINUTE;
const DAY = 24 * HOUR;

export function sizeInWords(bytes) {
  if (bytes < 10000) return counted(bytes, 'byte', 'bytes');
  if (bytes < 1000000) return `${(bytes / 1000).toFixed(1)} kB`;
  return `${(bytes / 1000000).toFixed(1)} MB`;
}

function inSeconds(microseconds) {
  return `${Math.floor(microseconds / SECOND)}.${String(microseconds % SECOND).padStart(6, '0')}`;
}

// A span of time, to the microsecond.
export function spanInWords(microseconds) {
  if (microseconds < SECOND) return `${milliseconds(microseconds)} ms`;
  const parts = [];
  if (microseconds >= DAY) parts.push(`${separated(Math.floor(microseconds / DAY))} d`);
  if (microseconds >= HOUR) parts.push(`${Math.floor((microseconds % DAY) / HOUR)} h`);
  if (microseconds >= MINUTE) parts.push(`${Math.floor((microseconds % HOUR) / MINUTE)} min`);
  parts.push(`${inSeconds(microseconds % MINUTE)} s`);
  return parts.join(' ');
}

export function percent(done, of) {
  if (of <= 0) return '';
  return `${Math.min(100, Math.floor((100 * done) / of))} %`;
}
