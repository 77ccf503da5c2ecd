// The lines around a refused one, as bytes that can be shown.

import { endOf, lineEnd, withoutEnd } from './line.js';

// How many lines before it and behind it.
const BESIDE = 3;
// The most bytes of a line, and of those the most before what is wrong.
const MOST_SHOWN = 260;
const MOST_BEFORE = 160;

// The line begins at this byte, and the place in it is what is wrong.
export function linesAround(text, line, begin, place) {
  const around = [shownLine(text, line, begin, place)];
  for (let back = 1, next = begin; back <= BESIDE && next > 0; back += 1) {
    next = next < 2 ? 0 : text.lastIndexOf(10, next - 2) + 1;
    around.unshift(shownLine(text, line - back, next, null));
  }
  for (let ahead = 1, next = lineEnd(text, begin); ahead <= BESIDE && next < text.length; ahead += 1) {
    around.push(shownLine(text, line + ahead, next, null));
    next = lineEnd(text, next);
  }
  return around;
}

function shownLine(text, line, begin, place) {
  const whole = text.subarray(begin, lineEnd(text, begin));
  const { length } = withoutEnd(whole);
  const before = place && place.start > MOST_BEFORE && length > MOST_SHOWN ? place.start - MOST_BEFORE : 0;
  const to = Math.min(length, before + MOST_SHOWN);
  const wrong = place && { start: Math.min(place.start, to) - before, end: Math.min(place.end, to) - before };
  return { line, bytes: whole.slice(before, to), before, behind: length - to, end: endOf(whole), wrong };
}
