// How many rows of each strip fall into each column of a picture, and which row is the first there.

// The offsets from one to another, in so many columns; of the strips as many as are asked for, the most frequent first.
export function pictureOf(seen, { from, to, columns, strips }) {
  const picture = {
    from,
    to,
    columns,
    begins: beginsOf(from, to, columns),
    counts: new Uint32Array(strips * columns),
    first: new Int32Array(columns).fill(-1),
    stepBack: new Int32Array(columns).fill(-1),
    error: new Int32Array(columns).fill(-1),
  };
  seen.offsets.forEach((offset, index) => {
    if (offset < from || offset > to) return;
    const column = columnAt(picture, offset);
    const rank = seen.ranks[seen.strips[index]];
    if (rank < strips) picture.counts[rank * columns + column] += 1;
    keepFirst(picture.first, column, index);
    if (seen.marks[index]) keepFirst(picture.stepBack, column, index);
    if (seen.isError(index)) keepFirst(picture.error, column, index);
  });
  return picture;
}

// A column begins at its share of the span, cut to whole microseconds. The share of the longest spans, as one product, would be rounded.
function beginsOf(from, to, columns) {
  const span = to - from + 1;
  const each = Math.floor(span / columns);
  const rest = span % columns;
  return Float64Array.from({ length: columns }, (_, column) => from + column * each + Math.floor((column * rest) / columns));
}

// The last column that begins at this offset or before: nearly by its share, and then just so.
function columnAt({ from, to, columns, begins }, offset) {
  let column = Math.min(columns, Math.ceil(((offset - from + 1) * columns) / (to - from + 1))) - 1;
  while (column + 1 < columns && begins[column + 1] <= offset) column += 1;
  while (begins[column] > offset) column -= 1;
  return column;
}

function keepFirst(rows, column, index) {
  if (rows[column] < 0) rows[column] = index;
}
