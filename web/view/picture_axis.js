// The time axis: as many ticks as their labels have room for.

import { element } from './dom.js';
import { separated } from './digits.js';

const UNITS = [
  { name: 'd', size: 86400000000 },
  { name: 'h', size: 3600000000 },
  { name: 'min', size: 60000000 },
  { name: 's', size: 1000000 },
  { name: 'ms', size: 1000 },
];
const ROOM = 9.5;
const GAP = 26;
const LEAST_APART = 40;

function stepsOfTicks() {
  const steps = [];
  for (let size = 1; size < 1000000; size *= 10) steps.push(size, 2 * size, 5 * size);
  const [day, hour, minute, second] = UNITS.map((unit) => unit.size);
  for (const size of [second, minute]) for (const times of [1, 2, 5, 10, 15, 30]) steps.push(times * size);
  for (const times of [1, 2, 3, 6, 12]) steps.push(times * hour);
  for (let times = 1; times < 10000; times *= 10) steps.push(times * day, 2 * times * day, 5 * times * day);
  return steps;
}

const STEPS = stepsOfTicks();

function decimals(step, unit) {
  let digits = 0;
  for (let rest = step; rest % unit !== 0 && digits < 6; rest *= 10) digits += 1;
  return digits;
}

function withPoint(offset, step, unit) {
  const [whole, part] = (offset / unit.size).toFixed(decimals(step, unit.size)).split('.');
  return `${separated(whole)}${part ? `.${part}` : ''} ${unit.name}`;
}

// From a second on in whole units, the smallest of them that the step has.
function inUnits(offset, step) {
  const parts = [];
  let rest = offset;
  for (const unit of UNITS.slice(0, 4)) {
    const count = Math.floor(rest / unit.size);
    rest -= count * unit.size;
    if (count > 0) parts.push(`${count} ${unit.name}`);
    if (step % unit.size === 0) break;
  }
  return parts.join(' ') || '0';
}

function tickLabel(offset, step) {
  if (step >= 1000000) return inUnits(offset, step);
  return withPoint(offset, step, UNITS[offset < 10000000 ? 4 : 3]);
}

// Where a tick stands, as a part of the width.
function tickAt({ from, to }, at, step) {
  return { at, part: (at - from) / (to - from + 1), label: tickLabel(at, step) };
}

function ticksBy(picture, step) {
  const ticks = [];
  for (let at = Math.ceil(picture.from / step) * step; at <= picture.to; at += step) ticks.push(tickAt(picture, at, step));
  return ticks;
}

// Whether the ticks of this step are so far apart that each has room for its label.
function haveRoom(picture, width, step) {
  const pixels = (width * step) / (picture.to - picture.from + 1);
  return pixels >= LEAST_APART && ticksBy(picture, step).every(({ label }) => pixels >= label.length * ROOM + GAP);
}

// Where no tick has room for its label: where the picture begins, cut to as many digits as there is room for.
function beginTick({ from }, width) {
  const labels = STEPS.map((step) => tickLabel(from - (from % step), step));
  return { at: from, part: 0, label: labels.find((label) => label.length * ROOM <= width) ?? '' };
}

// The last label is left out where it would run over the edge.
export function ticksFor(picture, width) {
  const step = STEPS.find((one) => haveRoom(picture, width, one));
  const ticks = step === undefined ? [] : ticksBy(picture, step);
  for (const tick of ticks) if (tick.part * width + tick.label.length * ROOM > width) tick.label = '';
  return ticks.some((tick) => tick.label !== '') ? ticks : [beginTick(picture, width)];
}

export function showAxis(place, picture, width) {
  const ticks = ticksFor(picture, width).map(({ part, label }) => {
    const tick = element('span', { class: 'tick', text: label });
    tick.style.left = `${100 * part}%`;
    return tick;
  });
  place.replaceChildren(...ticks);
}
