// The next row that is looked for.

// The strips that have a name instead of an ID.
const NAMED = ['Warng', 'Error'];

// From a row on, forwards (1) or backwards (-1), the next one with this ID. Of an ID with less than four digits, or five to seven, only the number counts; with
// four it is a standard one, with eight an extended one.
export function findId(seen, text, from, step) {
  const wanted = text.trim();
  const named = NAMED.find((name) => name.toLowerCase() === wanted.toLowerCase());
  if (!named && !/^[0-9a-f]{1,8}$/i.test(wanted)) return { wrong: 'an ID is one to eight hexadecimal digits, such as 123 or 18AB0001' };
  const isWanted = named ? (name) => name === named : sameId(wanted);
  const strips = new Set(seen.names.flatMap((name, strip) => (isWanted(name) ? [strip] : [])));
  const rows = seen.strips.length;
  for (let index = from; index >= 0 && index < rows && strips.size > 0; index += step) {
    if (strips.has(seen.strips[index])) return { index };
  }
  return { index: -1 };
}

function sameId(wanted) {
  const exact = wanted.length === 4 || wanted.length === 8;
  const same = (name) => (exact ? name === wanted.toUpperCase() : parseInt(name, 16) === parseInt(wanted, 16));
  return (name) => !NAMED.includes(name) && same(name);
}

// The row on a line of the file, or the first one behind it.
export function findLine(lineOfRow, lines, line) {
  if (!Number.isInteger(line) || line < 1 || line > lines) return { wrong: `the file has lines 1 to ${lines}` };
  let low = 0;
  let high = lineOfRow.length;
  while (low < high) {
    const middle = (low + high) >> 1;
    if (lineOfRow[middle] < line) low = middle + 1;
    else high = middle;
  }
  return low < lineOfRow.length ? { index: low } : { wrong: 'no row stands on this line or behind it' };
}
