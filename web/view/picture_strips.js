// The strips: for each ID, how many rows each column has, to its own most. A single row is well seen too.

import { cleared, colour } from './look.js';

const LEAST = 0.35;
const MANY = 96;

function mostIn(counts, from, columns) {
  let most = 0;
  for (let at = from; at < from + columns; at += 1) if (counts[at] > most) most = counts[at];
  return most;
}

// Columns begin and end at whole pixels of the device, so that there is no seam between two.
function drawStrip(pen, picture, strip, edges, height) {
  const { counts, columns } = picture;
  const from = strip * columns;
  const most = mostIn(counts, from, columns);
  const room = height - 4;
  const bottom = (strip + 1) * height - 1;
  for (let column = 0; column < columns; column += 1) {
    const count = counts[from + column];
    if (count === 0) continue;
    const high = room * (LEAST + ((1 - LEAST) * count) / most);
    pen.fillRect(edges[column], bottom - high, edges[column + 1] - edges[column], high);
  }
}

export function drawStrips(canvas, picture, strips, width, ratio) {
  const high = canvas.clientHeight;
  const height = high / strips;
  const { pen, ratio: fine } = cleared(canvas, width, high, strips > MANY ? 1 : ratio);
  pen.fillStyle = colour('--rule');
  for (let strip = 0; strip < strips; strip += 1) pen.fillRect(0, (strip + 1) * height - 1, width, 1);
  const edges = Array.from({ length: picture.columns + 1 }, (_, at) => Math.round((at * width * fine) / picture.columns) / fine);
  pen.fillStyle = colour('--strip-ink');
  for (let strip = 0; strip < strips; strip += 1) drawStrip(pen, picture, strip, edges, height);
}
