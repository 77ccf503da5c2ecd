// The time axis of any part of any trace, on any width: a label at least, each of them true and with room of its own.

import { ticksFor } from './picture_axis.js';

const { ok, strictEqual } = require('node:assert');

// What a letter of a label takes at least, in pixels.
const LETTER = 8.9;
const MICROSECONDS = { d: 86400000000n, h: 3600000000n, min: 60000000n, s: 1000000n, ms: 1000n };

// The offset that a label tells, in microseconds.
function offsetIn(label) {
  let offset = 0n;
  for (const [, whole, , part, unit] of label.matchAll(/([\d,]+)(\.(\d+))? (\w+)/g)) {
    const size = MICROSECONDS[unit];
    offset += BigInt(whole.replaceAll(',', '')) * size;
    if (part) offset += (BigInt(part) * size) / 10n ** BigInt(part.length);
  }
  return Number(offset);
}

export function tryAxis(random) {
  const span = Math.floor(2 ** (random() * 48));
  const from = Math.floor(random() * (2 ** 48 - span) * random() ** 8);
  const picture = { from, to: from + span - 1 };
  const width = 150 + Math.floor(random() * 1150);
  const ticks = ticksFor(picture, width);
  const where = `${JSON.stringify(picture)} on ${width}: ${JSON.stringify(ticks)}`;
  ok(ticks.some((tick) => tick.label !== ''), where);
  let free = 0;
  for (const { at, part, label } of ticks) {
    ok(at >= from && at <= picture.to, where);
    strictEqual(part, (at - from) / span, where);
    if (label === '') continue;
    ok(part * width >= free, where);
    free = part * width + label.length * LETTER;
    ok(free <= width, where);
    if (ticks.length > 1) strictEqual(offsetIn(label), at, where);
    else ok(offsetIn(label) <= at && offsetIn(label) > at - 1000000, where);
  }
}
