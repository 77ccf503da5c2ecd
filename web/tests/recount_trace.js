// Traces of which all is known beforehand, since they are made here, row by row; nothing of the page or the library is asked.

const RECOUNT_KINDS = ['Rx', 'Tx', 'Rx RTR', 'Tx RTR', 'Warng', 'Error'];
const NOON = Date.UTC(2000, 1, 29, 12);

// Numbers from 0 up to below 1, the same again for the same seed.
export function randomFrom(seed) {
  let state = seed;
  return () => {
    state = (state + 0x6d2b79f5) | 0;
    let mixed = Math.imul(state ^ (state >>> 15), 1 | state);
    mixed = (mixed + Math.imul(mixed ^ (mixed >>> 7), 61 | mixed)) ^ mixed;
    return ((mixed ^ (mixed >>> 14)) >>> 0) / 2 ** 32;
  };
}

export function below(random, limit) {
  return Math.floor(random() * limit);
}

export function oneOf(random, values) {
  return values[below(random, values.length)];
}

export function hexOf(number, digits) {
  return number.toString(16).toUpperCase().padStart(digits, '0');
}

// 29.02.2000, noon, and so many microseconds, cut to a tenth of a millisecond.
export function stampOf(offset) {
  const [, year, month, day, time] = /^(\d+)-(\d+)-(\d+)T([\d:.]+)Z$/.exec(new Date(NOON + Math.floor(offset / 1000)).toISOString());
  return `${day}.${month}.${year} ${time}${Math.floor((offset % 1000) / 100)}`;
}

function randomOffset(random, version, mode) {
  const most = { one: 1, few: 7, usual: 5000000, all: 2 ** 48 }[mode];
  const offset = mode === 'one' ? 1234500 : oneOf(random, [0, most - 1, below(random, most), below(random, most)]);
  return version === 11 ? offset - (offset % 100) : offset;
}

function randomId(random, ids) {
  const extended = random() < 0.4;
  const number = below(random, ids) * 7;
  return extended ? hexOf(number, 8) : hexOf(number % 2048, 4);
}

function randomRow(random, version, mode, ids) {
  const kind = RECOUNT_KINDS[oneOf(random, [0, 0, 0, 1, 1, 2, 3, 4, 5])];
  const special = kind === 'Warng' || kind === 'Error';
  const length = special ? 4 : below(random, 9);
  const bytes = Array.from({ length }, () => hexOf(below(random, 256), 2));
  if (kind === 'Error') bytes.splice(0, 2, '01', '1C');
  const id = { Warng: '', Error: oneOf(random, ['0001', '0008']) }[kind] ?? randomId(random, ids);
  const data = kind.endsWith('RTR') ? '' : bytes.join(' ');
  return { offset: randomOffset(random, version, mode), bus: version === 11 ? 0 : 1 + below(random, 16), kind, id, length, data };
}

function spelled(row, number, version) {
  const [type, remote] = row.kind.split(' ');
  const ms = `${Math.floor(row.offset / 1000)}.${String(row.offset % 1000).padStart(3, '0').slice(0, version === 11 ? 1 : 3)}`;
  const parts = [`${number})`, ms, version === 11 ? '' : row.bus, type, row.kind === 'Warng' ? 'FFFFFFFF' : row.id, row.length, remote ?? row.data];
  return parts.filter((part) => part !== '').join(' ');
}

// Its version, its lines without their ends, and its rows as the page is to tell them.
export function randomTrace(random, count, ids) {
  const version = oneOf(random, [11, 12]);
  const mode = oneOf(random, ['one', 'few', 'usual', 'usual', 'all']);
  const first = count === 0 ? 0 : 1 + below(random, 999999 - count);
  const lines = [`;$FILEVERSION=${version === 11 ? '1.1' : '1.2'}`, ';$STARTTIME=36585.5'];
  const rows = [];
  for (let index = 0; index < count; index += 1) {
    while (random() < 0.3) lines.push(oneOf(random, [';', '; 1) 0.0 Rx 0001 0', `;${'-'.repeat(below(random, 249))}`]));
    const row = randomRow(random, version, mode, ids);
    lines.push(spelled(row, first + index, version));
    const stepBack = index > 0 && row.offset < rows[index - 1].offset;
    rows.push({ index, number: first + index, line: lines.length, stamp: stampOf(row.offset), ...row, stepBack });
  }
  if (random() < 0.3) lines.push('; the end');
  return { version, first, lines, rows };
}

export function textOf(lines) {
  return Buffer.from(lines.map((line) => `${line}\r\n`).join(''), 'latin1');
}
