// What of a record a version can't carry.

import { carried_bus, carried_no_bus, carried_offset } from './words.js';
import { milliseconds } from './digits.js';
import { versionName } from './version.js';

export function carriedWords(number, { bus, offset }) {
  const version = versionName(number);
  if (number === 12) return carried_no_bus({ version });
  if (bus !== 0) return carried_bus({ version, bus });
  return carried_offset({ version, offset: milliseconds(offset) });
}
