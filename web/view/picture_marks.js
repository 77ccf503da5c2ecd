// The marks above the strips, a lane for each: steps back as triangles that point back, error frames as crosses.
// Every marked column has a line; the shapes stand where there is room for them.

import { cleared, colour } from './look.js';

const APART = 11;
const HALF = 5;

function triangle(pen, x, y) {
  pen.beginPath();
  pen.moveTo(x - HALF, y);
  pen.lineTo(x + HALF, y - HALF);
  pen.lineTo(x + HALF, y + HALF);
  pen.closePath();
  pen.fill();
}

function cross(pen, x, y) {
  pen.lineWidth = 2.5;
  pen.beginPath();
  pen.moveTo(x - HALF, y - HALF);
  pen.lineTo(x + HALF, y + HALF);
  pen.moveTo(x - HALF, y + HALF);
  pen.lineTo(x + HALF, y - HALF);
  pen.stroke();
}

function drawLane(pen, marks, shape, width, top, height) {
  const across = width / marks.length;
  let last = -APART;
  for (let column = 0; column < marks.length; column += 1) {
    if (marks[column] < 0) continue;
    const x = (column + 0.5) * across;
    pen.fillRect(x - 0.75, top + height - 5, 1.5, 5);
    if (x - last < APART) continue;
    shape(pen, Math.min(Math.max(x, HALF + 1), width - HALF - 1), top + height / 2 - 2);
    last = x;
  }
}

export function drawMarks(canvas, picture, width, ratio) {
  const height = canvas.clientHeight / 2;
  const { pen } = cleared(canvas, width, 2 * height, ratio);
  pen.fillStyle = pen.strokeStyle = colour('--back-ink');
  drawLane(pen, picture.stepBack, triangle, width, 0, height);
  pen.fillStyle = pen.strokeStyle = colour('--error-ink');
  drawLane(pen, picture.error, cross, width, height, height);
}

// The row that is marked at this column or close to it, in the lane that was pointed at; -1 if there is none.
export function markNear(marks, column, reach) {
  for (let away = 0; away <= reach; away += 1) {
    if (column - away >= 0 && marks[column - away] >= 0) return marks[column - away];
    if (column + away < marks.length && marks[column + away] >= 0) return marks[column + away];
  }
  return -1;
}

// The next marked column behind this one, from the first again behind the last.
export function nextMark(picture, column) {
  for (let away = 1; away <= picture.columns; away += 1) {
    const at = (column + away) % picture.columns;
    if (picture.stepBack[at] >= 0) return picture.stepBack[at];
    if (picture.error[at] >= 0) return picture.error[at];
  }
  return -1;
}
