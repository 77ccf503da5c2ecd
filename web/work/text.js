// A file's bytes, brought into the library's memory piece by piece.

import { MOST_TEXT } from './limits.js';

// Of a file above the library's limit one byte more than the limit is brought, so that the library refuses it as too long.
export async function loadText(library, file, progress) {
  const text = library.lend(Math.min(file.size, MOST_TEXT + 1));
  const reader = file.slice(0, text.length).stream().getReader();
  let done = 0;
  for (let piece = await next(reader); !piece.done; piece = await next(reader)) {
    if (done + piece.value.length > text.length) throw new UnreadFile();
    library.bytes(text).set(piece.value, done);
    done += piece.value.length;
    progress(done, text.length);
  }
  if (done !== text.length) throw new UnreadFile();
  return text;
}

// The file is not there any more, or has not the bytes that it had when it was chosen, or can't be read at all. Browsers tell these apart in ways of their own.
export class UnreadFile extends Error {}

async function next(reader) {
  try {
    return await reader.read();
  } catch {
    throw new UnreadFile();
  }
}
