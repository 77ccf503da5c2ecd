// The picture, counted again: each row is put into the last column that begins at its offset or before, with numbers of any size.

import { pictureOf } from './picture.js';
import { stripName, stripsIn } from './recount_facts.js';
import { below, oneOf } from './recount_trace.js';

const { deepStrictEqual: is } = require('node:assert');

// Where column c begins: from + floor(c * span / columns).
function edgesOf({ from, to, columns }) {
  const span = BigInt(to) - BigInt(from) + 1n;
  return Array.from({ length: columns }, (_, column) => BigInt(from) + (BigInt(column) * span) / BigInt(columns));
}

function randomWindow(random, rows) {
  const offsets = rows.map((row) => row.offset).sort((a, b) => a - b);
  const whole = { from: offsets[0], to: offsets.at(-1) };
  const from = oneOf(random, offsets);
  const to = from + below(random, 2 * (offsets.at(-1) - from + 1));
  return { ...oneOf(random, [whole, whole, { from, to }]), columns: oneOf(random, [1, 2, 50, 97, 600]) };
}

// Rows at the very edges of columns, where a number that is rounded would put them next door.
export function rowsAtEdges(random, rows) {
  const asked = { from: 0, to: 2 ** 48 - 1 - below(random, 1000), columns: oneOf(random, [97, 599, 1280]) };
  const begins = edgesOf(asked);
  const moved = rows.map((row) => {
    const begin = Number(oneOf(random, begins));
    return { ...row, offset: Math.min(asked.to, Math.max(0, begin - below(random, 2))) };
  });
  return { asked, moved };
}

function recounted(rows, asked) {
  const names = stripsIn(rows).map((strip) => strip.name);
  const begins = edgesOf(asked);
  const none = () => new Int32Array(asked.columns).fill(-1);
  const counts = new Uint32Array(asked.strips * asked.columns);
  const { strips, ...told } = asked;
  const picture = { ...told, begins: Float64Array.from(begins, Number), counts, first: none(), stepBack: none(), error: none() };
  for (const row of rows.filter(({ offset }) => offset >= asked.from && offset <= asked.to)) {
    const column = begins.findLastIndex((begin) => begin <= BigInt(row.offset));
    const strip = names.indexOf(stripName(row));
    if (strip < asked.strips) counts[strip * asked.columns + column] += 1;
    if (picture.first[column] < 0) picture.first[column] = row.index;
    if (row.stepBack && picture.stepBack[column] < 0) picture.stepBack[column] = row.index;
    if (row.kind === 'Error' && picture.error[column] < 0) picture.error[column] = row.index;
  }
  return picture;
}

export function recountPicture({ rows }, held, random) {
  if (rows.length === 0) return;
  const most = Math.min(256, stripsIn(rows).length);
  const asked = { ...randomWindow(random, rows), strips: below(random, most + 1) };
  is(pictureOf(held.seen, asked), recounted(rows, asked), JSON.stringify(asked));
}

// The same of rows that are put at edges, told to the picture without a trace.
export function recountEdges({ rows }, held, random) {
  const { asked, moved } = rowsAtEdges(random, rows);
  const seen = Object.assign(Object.create(held.seen), { offsets: Float64Array.from(moved, (row) => row.offset) });
  is(pictureOf(seen, { ...asked, strips: 1 }), recounted(moved, { ...asked, strips: 1 }), JSON.stringify(asked));
}
