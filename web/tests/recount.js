// Holds what the worker tells the page to a recount of traces that are made here: recount [COUNT [SEED]]

import { judge } from './judge.js';
import { libraryBytes } from './library_bytes.js';
import { tryAnswers, tryUnread } from './recount_answers.js';
import { recountFacts, recountFound, recountRows } from './recount_facts.js';
import { recountEdges, recountPicture } from './recount_picture.js';
import { goodText, recountRefusal, spoiled } from './recount_refusal.js';
import { below, randomFrom, randomTrace } from './recount_trace.js';

const recounted_module = new WebAssembly.Module(libraryBytes());

function judged(text) {
  return judge(recounted_module, new File([text], 'made.trc'), null, () => {});
}

async function recountOne(random, at) {
  const many = at % 50 === 49;
  const trace = randomTrace(random, many ? 700 : below(random, 40), many ? 5000 : 12);
  const { held, accepted } = await judged(goodText(trace));
  recountFacts(trace, accepted);
  recountRows(trace, held);
  recountFound(trace, held, random);
  recountPicture(trace, held, random);
  if (trace.rows.length === 0) return;
  recountEdges(trace, held, random);
  const wrong = spoiled(random, trace);
  recountRefusal(wrong, (await judged(wrong.text)).refused);
}

async function recountAll(count, seed) {
  const random = randomFrom(seed);
  const good = goodText(randomTrace(random, 3, 12));
  await tryAnswers(recounted_module, good);
  await tryUnread(recounted_module, good);
  for (let at = 0; at < count; at += 1) await recountOne(random, at);
  console.log(`${count} traces recounted`);
}

recountAll(Number(process.argv[2] ?? 400), Number(process.argv[3] ?? 26));
