// Prints what the page is told of each text of a file that bench's program `told` wrote, a line each, as that program prints what the Rust crate tells. Each file
// that would be made of an accepted text is read again, and is to give the same.

import { judge } from './judge.js';
import { libraryBytes } from './library_bytes.js';
import { makeFile } from './make.js';

const { readFileSync, writeFileSync } = require('node:fs');

const module_of_library = new WebAssembly.Module(libraryBytes());

async function tellAll(texts, lines) {
  const bytes = readFileSync(texts);
  const told = [];
  for (let at = 0; at < bytes.length; ) {
    const form = bytes[at] === 1 ? 'ascii' : 'trace';
    const end = at + 5 + bytes.readUInt32LE(at + 1);
    told.push(await tell(bytes.subarray(at + 5, end), form));
    at = end;
  }
  writeFileSync(lines, told.map((line) => `${line}\n`).join(''));
}

async function tell(text, form) {
  const { held, accepted, refused } = await judge(module_of_library, new File([text], 'text'), form, () => {});
  if (refused) return refusedLine(refused);
  await tellOfMade(held, form);
  const { start, rows, first } = held;
  if (form === 'ascii') return ['accepted', start, rows, accepted.stepsBack].join('\t');
  const back = accepted.firstStepBack ? accepted.firstStepBack.index + 1 : 0;
  return ['accepted', accepted.version, start, rows, first, back, accepted.stepsBack].join('\t');
}

function refusedLine({ number, place, words, remedy, why, expected, wrong }) {
  const told = ['refused', number, place, words, remedy ?? ''];
  if (wrong) told.push(why, expected, wrong.start, wrong.end);
  return told.join('\t');
}

// The house spelling is a trace with the same records.
async function tellOfMade(held, form) {
  const { houseVersion } = held.facts();
  const { blob, refused } = makeFile(held, 'house', { version: houseVersion }, () => {});
  if (refused) {
    if (form === 'trace') throw new Error(`what was read can't be written: ${refused}`);
    return;
  }
  const again = await judge(module_of_library, new File([blob], 'again.trc'), null, () => {});
  const same = (a, b) => a.length === b.length && a.every((byte, at) => byte === b[at]);
  const is = again.held && again.held.start === held.start && again.held.first === held.first;
  if (!is || !same(again.held.library.bytes(again.held.records), held.library.bytes(held.records))) throw new Error('what was written is read as another');
}

tellAll(...process.argv.slice(2));
