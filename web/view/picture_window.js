// The time that the picture shows: offsets in microseconds, both ends inside.

const LEAST_SPAN = 500;

export class TimeWindow {
  constructor(earliest, latest) {
    this.earliest = earliest;
    this.latest = latest;
    this.whole();
  }

  whole() {
    this.from = this.earliest;
    this.to = this.latest;
  }

  isWhole() {
    return this.from === this.earliest && this.to === this.latest;
  }

  span() {
    return this.to - this.from + 1;
  }

  holds(offset) {
    return offset >= this.from && offset <= this.to;
  }

  middle() {
    return this.from + Math.floor((this.to - this.from) / 2);
  }

  // A span that begins there, moved and cut so that it lies within the trace.
  set(from, span) {
    const all = this.latest - this.earliest + 1;
    const most = Math.min(Math.max(Math.round(span), Math.min(LEAST_SPAN, all)), all);
    this.from = Math.min(Math.max(Math.round(from), this.earliest), this.latest - most + 1);
    this.to = this.from + most - 1;
  }

  // This offset comes to stand in the middle.
  zoom(factor, offset) {
    const span = Math.max(this.span() * factor, LEAST_SPAN);
    this.set(offset - span / 2, span);
  }

  pan(part) {
    this.set(this.from + part * this.span(), this.span());
  }

  centre(offset) {
    this.set(offset - this.span() / 2, this.span());
  }
}

// The column of a picture in which this offset lies: the last that begins there or before.
export function columnOf(picture, offset) {
  return Math.max(picture.begins.findLastIndex((begin) => begin <= offset), 0);
}

// The offset in the middle of a column.
export function offsetOf({ begins, to }, column) {
  const next = begins[column + 1] ?? to + 1;
  return Math.floor((begins[column] + next - 1) / 2);
}
