// What is wrong with a line of Telemotive ASCII that is refused. Which part it is, the library is asked.

import { ascii_before_start, ascii_blank, ascii_empty, ascii_ended_early, ascii_not_ended, ascii_one_too_many } from './words.js';
import { ascii_too_far, ascii_too_long, ascii_wrong_part, instead_of_before_start, instead_of_blank_before } from './words.js';
import { instead_of_blank_behind, instead_of_no_end, instead_of_too_far, instead_of_too_long } from './words.js';
import { MOST_OFFSET, RECORD } from './limits.js';
import { asciiPartBehind, asciiPartName, goodAsciiPart, inAsciiPart } from './ascii_part.js';
import { LINE_LIMIT, latin1, partsOf, placesOf } from './line.js';
import { quoted } from './quoted.js';

// The line is given without its end; that it has none is told before all else.
export function explainAscii(library, number, line, ended) {
  const end = line.length;
  if (number === 31 && !ended) return { place: { start: end, end }, why: ascii_not_ended(), expected: instead_of_no_end() };
  if (number === 31 && end > LINE_LIMIT) {
    const limit = { line_limit: LINE_LIMIT };
    return { place: { start: LINE_LIMIT, end }, why: ascii_too_long(limit), expected: instead_of_too_long(limit) };
  }
  const letters = latin1(line);
  if (number === 31) return noAsciiLine(library, letters);
  const place = { start: 0, end: placesOf(letters)[1].end };
  const limit = { most_offset: MOST_OFFSET };
  if (number === 32) return { place, why: ascii_before_start(), expected: instead_of_before_start() };
  return { place, why: ascii_too_far(limit), expected: instead_of_too_far(limit) };
}

function noAsciiLine(library, letters) {
  const parts = partsOf(letters);
  const wrong = parts.findIndex((_, at) => !beginsAsciiLine(library, parts.slice(0, at + 1)));
  if (wrong >= 0) return wrongPart(parts, wrong, placesOf(letters)[wrong]);
  const end = letters.length;
  const next = asciiPartBehind(parts);
  if (parts.length === 0) {
    const why = ascii_empty({ part: asciiPartName(next) });
    return { place: { start: 0, end: 0 }, why, expected: inAsciiPart(next) };
  }
  if (next) {
    const part = asciiPartName(asciiPartBehind(parts.slice(0, -1)));
    const why = ascii_ended_early({ number: parts.length, part, next: asciiPartName(next) });
    return { place: { start: end, end }, why, expected: inAsciiPart(next) };
  }
  const places = placesOf(letters);
  if (letters.startsWith(' ')) {
    return { place: { start: 0, end: places[0].start }, why: ascii_blank(), expected: instead_of_blank_before() };
  }
  return { place: { start: places.at(-1).end, end }, why: ascii_blank(), expected: instead_of_blank_behind() };
}

function wrongPart(parts, at, place) {
  const part = asciiPartBehind(parts.slice(0, at));
  const told = { number: at + 1, bytes: quoted(parts[at]) };
  if (!part) return { place, why: ascii_one_too_many(told), expected: instead_of_blank_behind() };
  return { place, why: ascii_wrong_part({ ...told, part: asciiPartName(part) }), expected: inAsciiPart(part) };
}

// Whether some line begins with these parts: the library takes them with good ones behind.
function beginsAsciiLine(library, parts) {
  const line = [...parts];
  for (let next = asciiPartBehind(line); next; next = asciiPartBehind(line)) line.push(goodAsciiPart(next));
  // Before LF alone a CR of the line would be part of its end.
  const text = library.lendLetters(`${line.join(' ')}\r\n`);
  return library.readAscii(text, library.lend(RECORD)).number === 0;
}
