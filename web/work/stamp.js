// Date and time of an offset, as the library exports them with a data frame.

import { CHANNEL_AS_BUS, DATA_RECEIVED, MOST_LINE, RECORD } from './limits.js';
import { partOf } from './library.js';
import { latin1 } from './line.js';

// The bytes of a stamp at the beginning of an exported line.
const STAMP = 24;

export class Clock {
  constructor(library, start) {
    this.library = library;
    this.start = start;
    this.record = library.lend(RECORD);
    this.line = library.lend(MOST_LINE);
  }

  stamp(offset) {
    return latin1(this.bytes(offset));
  }

  // The stamp as it stands in the library's memory, until the next call.
  bytes(offset) {
    this.library.pack([offset, 0, DATA_RECEIVED, 0, 0, 0, 0, 0], this.record);
    this.library.export(this.start, CHANNEL_AS_BUS, this.record, this.line);
    return this.library.bytes(partOf(this.line, 0, STAMP));
  }
}
