// Bytes as they are shown in words.

import { hexadecimal } from './digits.js';

// The most bytes that are shown.
const QUOTED = 40;

// In quotes. What can't be seen or has a meaning there is shown as its number.
export function quoted(letters) {
  const shown = letters.slice(0, QUOTED).replace(/[^ !#-[\]-~]/g, (letter) => `\\x${hexadecimal(letter.charCodeAt(0), 2)}`);
  return `"${shown}"${letters.length > QUOTED ? '...' : ''}`;
}
