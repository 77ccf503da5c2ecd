// A file that was chosen, and the worker that judges it and holds what was accepted.

import { workerSource } from './worker_source.js';

// It calls on.progress, and one of on.accepted, on.refused and on.failed, once.
export function openFile(file, form, on) {
  return new HeldFile(file, form, on);
}

class HeldFile {
  constructor(file, form, on) {
    this.on = on;
    this.waiting = new Map();
    this.next = 0;
    const address = URL.createObjectURL(new Blob([workerSource], { type: 'text/javascript' }));
    this.worker = new Worker(address);
    URL.revokeObjectURL(address);
    this.worker.onmessage = ({ data }) => this.take(data);
    this.worker.onerror = (event) => this.fail(event.message || 'the worker could not be started');
    this.worker.postMessage({ file, form });
  }

  // Ends the worker, with all that it holds.
  stop() {
    this.on = {};
    this.worker.terminate();
    this.waiting.clear();
  }

  rows(from, count) {
    return this.ask('rows', { from, count });
  }

  picture(asked) {
    return this.ask('picture', asked);
  }

  findId(text, from, step) {
    return this.ask('findId', { text, from, step });
  }

  findLine(line) {
    return this.ask('findLine', { line });
  }

  make(what, options, progress) {
    return this.ask('make', { what, options }, progress);
  }

  ask(call, given, progress) {
    const asked = (this.next += 1);
    return new Promise((answered, failed) => {
      this.waiting.set(asked, { answered, failed, progress });
      this.worker.postMessage({ asked, call, given });
    });
  }

  take(said) {
    if (said.asked !== undefined) this.takeAnswer(said);
    else if (said.progress) this.on.progress?.(said.progress);
    else if (said.accepted) this.on.accepted?.(said.accepted);
    else if (said.refused) this.on.refused?.(said.refused);
    else this.fail(said.failed);
  }

  takeAnswer({ asked, answer, failed, done, of }) {
    const waiting = this.waiting.get(asked);
    if (!waiting) return;
    if (done !== undefined) {
      waiting.progress?.(done, of);
      return;
    }
    this.waiting.delete(asked);
    if (failed === undefined) waiting.answered(answer);
    else waiting.failed(new Error(failed));
  }

  fail(words) {
    const { on } = this;
    for (const { failed } of this.waiting.values()) failed(new Error(words));
    this.stop();
    on.failed?.(words);
  }
}
