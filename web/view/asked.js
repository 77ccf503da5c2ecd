// What a body asks of its file. Once the body is gone nothing arrives any more; and what goes wrong behind the answers,
// such as no memory, is a failure of the file.

export class Asked {
  constructor(held, failed) {
    this.held = held;
    this.failed = failed;
    this.ended = false;
  }

  end() {
    this.ended = true;
  }

  guard(answer) {
    return new Promise((done) => {
      answer.then(
        (value) => this.ended || done(value),
        (error) => this.ended || this.failed(error.message || String(error)),
      );
    });
  }

  rows(from, count) {
    return this.guard(this.held.rows(from, count));
  }

  picture(what) {
    return this.guard(this.held.picture(what));
  }

  findId(text, from, step) {
    return this.guard(this.held.findId(text, from, step));
  }

  findLine(line) {
    return this.guard(this.held.findLine(line));
  }

  make(what, options, progress) {
    return this.guard(this.held.make(what, options, (done, of) => this.ended || progress(done, of)));
  }
}
