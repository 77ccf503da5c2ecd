// What the keyboard, the mouse and a finger do in the picture.

import { nearestColumn } from './cursor.js';
import { markNear } from './picture_marks.js';

const REACH = 4;

function deedOf(picture, key) {
  return {
    ArrowLeft: () => picture.step(-1),
    ArrowRight: () => picture.step(1),
    Home: () => picture.edge(0),
    End: () => picture.edge(picture.picture.columns - 1),
    PageUp: () => picture.pan(-0.5),
    PageDown: () => picture.pan(0.5),
    '+': () => picture.zoom(0.5),
    '=': () => picture.zoom(0.5),
    '-': () => picture.zoom(2),
    0: () => picture.whole(),
    m: () => picture.toMark(),
    Enter: () => picture.show(picture.cursor.index),
  }[key];
}

function onPlotKey(event, picture) {
  if (event.ctrlKey || event.altKey || event.metaKey) return;
  const deed = deedOf(picture, event.key);
  if (deed === undefined) return;
  event.preventDefault();
  deed();
}

function columnAt(event, picture) {
  const box = picture.parts.plot.getBoundingClientRect();
  const { columns } = picture.picture;
  const column = Math.floor(((event.clientX - box.left) * columns) / box.width);
  return Math.min(Math.max(column, 0), columns - 1);
}

function onPoint(event, picture) {
  const { first } = picture.picture;
  picture.cursor.toColumn(picture.picture, nearestColumn(first, columnAt(event, picture)));
}

// On a mark it is the marked row that is meant, and not the first of its column.
function onPlotClick(event, picture) {
  const box = picture.parts.marks.getBoundingClientRect();
  const column = columnAt(event, picture);
  const { stepBack, error } = picture.picture;
  let index = -1;
  if (event.clientY < box.top + box.height / 2) index = markNear(stepBack, column, REACH);
  else if (event.clientY < box.bottom) index = markNear(error, column, REACH);
  picture.show(index >= 0 ? index : picture.cursor.index);
}

export function listenToPlot(picture) {
  const on = (name, does) =>
    picture.parts.plot.addEventListener(name, (event) => {
      if (picture.picture === null) return;
      picture.parts.told.setAttribute('aria-live', 'polite');
      does(event, picture);
    });
  on('keydown', onPlotKey);
  on('pointermove', onPoint);
  on('pointerdown', onPoint);
  on('click', onPlotClick);
}
