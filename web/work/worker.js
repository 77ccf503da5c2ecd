// The worker's side of a file: it judges it, holds what was accepted, and answers the page.

import { findId, findLine } from './find.js';
import { judge } from './judge.js';
import { makeFile } from './make.js';
import { pictureOf } from './picture.js';
import { UnreadFile } from './text.js';
import { libraryBytes } from './library_bytes.js';

const module = new WebAssembly.Module(libraryBytes());
let held = null;

// What the page may ask of an accepted file.
const ANSWERS = {
  rows: ({ from, count }) => rowsFrom(from, count),
  picture: (asked) => pictureOf(held.seen, asked),
  findId: ({ text, from, step }) => findId(held.seen, text, from, step),
  findLine: ({ line }) => findLine(held.lineOfRow, held.lines, line),
  make: ({ what, options }, progress) => makeFile(held, what, options, progress),
};

self.onmessage = ({ data }) => (data.file ? open(data) : answer(data));

async function open({ file, form }) {
  try {
    const judged = await judge(module, file, form, (doing, done, of) => postMessage({ progress: { doing, done, of } }));
    held = judged.held ?? null;
    postMessage(judged.refused ? { refused: judged.refused } : { accepted: judged.accepted });
  } catch (error) {
    postMessage({ failed: failure(error) });
  }
}

function answer({ asked, call, given }) {
  try {
    postMessage({ asked, answer: ANSWERS[call](given, (done, of) => postMessage({ asked, done, of })) });
  } catch (error) {
    postMessage({ asked, failed: failure(error) });
  }
}

function rowsFrom(from, count) {
  const rows = [];
  for (let index = Math.max(0, from); index < Math.min(from + count, held.rows); index += 1) rows.push(held.row(index));
  return rows;
}

// Why something could not be done; it is no answer of the library.
function failure(error) {
  if (error instanceof UnreadFile) return 'the file could not be read to its end: it was removed or changed meanwhile, or can\'t be opened';
  if (error instanceof RangeError) return 'this browser has not enough memory for the file';
  return `${error.name}: ${error.message}`;
}
