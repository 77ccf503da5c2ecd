// An accepted file: its records, and what the page asks about them.

import { RECORD } from './limits.js';
import { Library, partOf } from './library.js';
import { outputNames } from './outputs.js';
import { lookThrough } from './records.js';
import { KINDS, dataOf, idOf } from './row.js';
import { Clock } from './stamp.js';
import { versionName } from './version.js';

export class HeldTrace {
  constructor(module, told, answer, bytes, lineOfRow, lines) {
    Object.assign(this, { module, told, lineOfRow, lines });
    this.version = told.form === 'trace' ? answer.version : null;
    this.start = answer.start;
    this.rows = answer.rows;
    // Lines of ASCII have no numbers; rows written of them are numbered from 1.
    this.first = told.form === 'trace' ? answer.first : Math.min(1, answer.rows);
    this.names = outputNames(told);
    this.library = new Library(module);
    this.records = this.library.lendBytes(bytes);
    this.clock = new Clock(this.library, answer.start);
  }

  look(progress) {
    this.seen = lookThrough(this.library, this.records, progress);
    this.ids = this.seen.rank();
  }

  facts() {
    const { seen, rows, version } = this;
    const ends = rows === 0 ? null : seen.ends();
    const end = (offset) => ({ offset, stamp: this.clock.stamp(offset) });
    const back = seen.marks.indexOf(1);
    return {
      ...this.told,
      names: this.names,
      version,
      versionName: version && versionName(version),
      start: this.clock.stamp(0),
      rows,
      first: this.first,
      lines: this.lines,
      earliest: ends && end(ends.earliest),
      latest: ends && end(ends.latest),
      covered: ends ? ends.latest - ends.earliest : 0,
      firstStepBack: back < 0 ? null : { index: back, number: this.first + back, line: this.lineOfRow[back] },
      stepsBack: seen.stepsBack,
      kinds: KINDS.map((kind, at) => ({ kind, count: seen.kindCounts[at] })),
      ids: this.ids,
      idCount: seen.names.length,
      houseVersion: version ?? this.versionOfFirst(),
      busless: seen.busless,
    };
  }

  // The version that carries the first record; which it is where there is none, does not matter.
  versionOfFirst() {
    return this.rows > 0 && this.record(0).bus === 0 ? 11 : 12;
  }

  record(index) {
    return this.library.unpack(partOf(this.records, index * RECORD, (index + 1) * RECORD));
  }

  row(index) {
    const record = this.record(index);
    return {
      index,
      number: this.first + index,
      line: this.lineOfRow[index],
      stamp: this.clock.stamp(record.offset),
      offset: record.offset,
      bus: record.bus,
      kind: KINDS[record.kind],
      id: idOf(record),
      length: record.length,
      data: dataOf(record).replace(/..(?=.)/g, '$& '),
      stepBack: record.mark === 1,
    };
  }
}
