// Every answer is the library's own: where the library says something else, so does the page, whatever the text is. And half a file is no file.

import { judge } from './judge.js';
import { MOST_TEXT } from './limits.js';
import { UnreadFile } from './text.js';

const { deepStrictEqual: answersJust, rejects } = require('node:assert');

const RealInstance = WebAssembly.Instance;

// An instance whose reading functions refuse everything with this number at line 1.
function refusingWith(number) {
  return class {
    constructor(module) {
      const { exports } = new RealInstance(module);
      const refuse = (...given) => new BigUint64Array(exports.memory.buffer, given.at(-1), 2).set([BigInt(number), 1n]);
      this.exports = { ...exports, bo_read: refuse, bo_read_ascii: refuse };
    }
  };
}

export async function tryAnswers(module, good) {
  const long = new Uint8Array(MOST_TEXT + 1);
  try {
    for (const [number, form, text] of [[2, 'trace', good], [3, 'trace', long], [2, 'trace', ''], [31, 'ascii', good], [31, 'ascii', long], [31, 'ascii', '']]) {
      WebAssembly.Instance = refusingWith(number);
      const { refused } = await judge(module, new File([text], 'any'), form, () => {});
      answersJust([refused?.number, refused?.place], [number, 1]);
    }
  } finally {
    WebAssembly.Instance = RealInstance;
  }
}

// A file that has other bytes than it had when it was chosen.
function changed(size, ...pieces) {
  return { name: 'changed.trc', size, slice: () => new Blob(pieces) };
}

export async function tryUnread(module, good) {
  const judged = (file) => judge(module, file, null, () => {});
  answersJust((await judged(changed(good.length, good))).refused, undefined);
  await rejects(judged(changed(good.length + 1, good)), UnreadFile);
  await rejects(judged(changed(good.length - 1, good)), UnreadFile);
  await rejects(judged(changed(good.length)), UnreadFile);
  await rejects(judged({ ...changed(1), slice: () => ({ stream: () => new ReadableStream({ pull: () => Promise.reject(new Error('gone')) }) }) }), UnreadFile);
}
