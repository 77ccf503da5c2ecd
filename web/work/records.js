// What the records of a file hold, each taken apart by the library once: offsets, strips, kinds, steps back.

import { ERROR_FRAME, RECORD, WARNING } from './limits.js';
import { partOf } from './library.js';
import { idOf, KINDS } from './row.js';

const PROGRESS_EVERY = 50000;
// The most strips that the page is told of.
const MOST_STRIPS = 256;

export function lookThrough(library, records, progress) {
  const rows = records.length / RECORD;
  const seen = new Seen(rows);
  for (let index = 0; index < rows; index += 1) {
    seen.add(index, library.unpack(partOf(records, index * RECORD, (index + 1) * RECORD)));
    if (index % PROGRESS_EVERY === 0) progress(index, rows);
  }
  return seen;
}

class Seen {
  constructor(rows) {
    this.offsets = new Float64Array(rows);
    this.kinds = new Uint8Array(rows);
    this.marks = new Uint8Array(rows);
    this.strips = new Uint32Array(rows);
    this.kindCounts = KINDS.map(() => 0);
    this.stepsBack = 0;
    this.busless = false;
    this.byKey = new Map();
    this.names = [];
    this.counts = [];
  }

  add(index, record) {
    this.offsets[index] = record.offset;
    this.kinds[index] = record.kind;
    this.marks[index] = record.mark;
    this.kindCounts[record.kind] += 1;
    this.stepsBack += record.mark;
    if (record.bus === 0) this.busless = true;
    const strip = this.stripOf(record);
    this.strips[index] = strip;
    this.counts[strip] += 1;
  }

  // Frames have the strip of their ID; warnings have one, and error frames have one.
  stripOf(record) {
    const key = record.kind >= WARNING ? -record.kind : record.id * 2 + record.extended;
    const known = this.byKey.get(key);
    if (known !== undefined) return known;
    const strip = this.names.length;
    this.byKey.set(key, strip);
    this.names.push(record.kind >= WARNING ? KINDS[record.kind] : idOf(record));
    this.counts.push(0);
    return strip;
  }

  // The most frequent strips first; those that are as frequent by their names. It is called once, behind the last record.
  rank() {
    const order = this.names.map((_, strip) => strip);
    order.sort((a, b) => this.counts[b] - this.counts[a] || (this.names[a] < this.names[b] ? -1 : 1));
    this.ranks = new Uint32Array(order.length);
    order.forEach((strip, rank) => (this.ranks[strip] = rank));
    return order.slice(0, MOST_STRIPS).map((strip) => ({ name: this.names[strip], count: this.counts[strip] }));
  }

  isError(index) {
    return this.kinds[index] === ERROR_FRAME;
  }

  // The rows with the smallest and the largest offset.
  ends() {
    let earliest = 0;
    let latest = 0;
    this.offsets.forEach((offset, index) => {
      if (offset < this.offsets[earliest]) earliest = index;
      if (offset > this.offsets[latest]) latest = index;
    });
    return { earliest: this.offsets[earliest], latest: this.offsets[latest] };
  }
}
