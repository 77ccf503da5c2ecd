// The lines of a text, and what stands in a line between its blanks.

// The most bytes of a line before its end.
export const LINE_LIMIT = 250;

const LF = 10;
const CR = 13;

// Where a line of a text begins, counted from 1, or would begin behind the last one; null where the text has fewer.
export function lineBegin(text, line) {
  let begin = 0;
  for (let before = 1; before < line; before += 1) {
    if (begin >= text.length) return null;
    begin = lineEnd(text, begin);
  }
  return begin;
}

// Where the line that begins here ends, with its LF.
export function lineEnd(text, begin) {
  const end = text.indexOf(LF, begin);
  return end < 0 ? text.length : end + 1;
}

// How a line ends.
export function endOf(line) {
  if (line.at(-1) !== LF) return '';
  return line.at(-2) === CR ? 'CR LF' : 'LF';
}

// A line without its end.
export function withoutEnd(line) {
  return line.subarray(0, line.length - { '': 0, LF: 1, 'CR LF': 2 }[endOf(line)]);
}

// A line up to its first CR or LF.
export function beforeEnd(line) {
  const ends = [line.indexOf(CR), line.indexOf(LF)].filter((at) => at >= 0);
  return line.subarray(0, Math.min(line.length, ...ends));
}

// Bytes as letters, one each.
export function latin1(bytes) {
  return String.fromCharCode(...bytes);
}

// Where the parts of a line stand. They are what stands between its blanks.
export function placesOf(line) {
  return [...line.matchAll(/[^ ]+/g)].map((part) => ({ start: part.index, end: part.index + part[0].length }));
}

export function partsOf(line) {
  return line.match(/[^ ]+/g) ?? [];
}
