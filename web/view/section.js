// One file on the desk: its state, and what is shown of it. The body is there only while it is open.

import { openFile } from './file.js';
import { element, newName } from './dom.js';
import { SectionHead } from './section_head.js';
import { AcceptedBody } from './accepted.js';
import { RefusedBody } from './refusal.js';

export class FileSection {
  constructor(file, wanted, desk) {
    this.file = file;
    this.wanted = wanted;
    this.desk = desk;
    this.form = null;
    this.used = 0;
    this.held = null;
    this.body = null;
    this.head = new SectionHead(file, {
      open: () => this.toggle(),
      stop: () => this.stop(),
      again: () => this.again(this.form),
      close: () => this.close(),
    });
    this.place = element('div', { class: 'body', id: this.head.bodyName, hidden: true });
    this.element = element(
      'article',
      { class: 'file', id: newName('file'), tabindex: '-1', test: 'file', 'aria-labelledby': this.head.titleName },
      this.head.element,
      this.place,
    );
    this.element.dataset.name = file.name;
    this.become('waiting', '');
  }

  become(state, words) {
    this.state = state;
    this.words = words;
    this.element.dataset.state = state;
    this.head.show(state, words);
  }

  // For the overview.
  inWords() {
    return this.words === '' ? this.state : `${this.state}: ${this.words}`;
  }

  isOpen() {
    return this.body !== null;
  }

  isLookedAt() {
    return this.isOpen() || this.wanted;
  }

  isHeld() {
    return this.held !== null && this.state === 'accepted';
  }

  read() {
    this.become('reading', '');
    this.head.progress('waiting', 0, 0);
    this.held = openFile(this.file, this.form, {
      progress: ({ doing, done, of }) => this.head.progress(doing, done, of),
      accepted: (facts) => this.accepted(facts),
      refused: (refusal) => this.refused(refusal),
      failed: (words) => this.failed(words),
    });
  }

  accepted(facts) {
    this.facts = facts;
    this.become('accepted', '');
    this.desk.use(this);
    this.done();
  }

  refused(refusal) {
    this.refusal = refusal;
    this.end();
    this.become('refused', refusal.words);
    this.done();
  }

  failed(words) {
    this.end();
    this.shut();
    this.become('failed', words);
    this.done();
  }

  done() {
    if (this.wanted) this.open();
    this.wanted = false;
    this.desk.turn();
  }

  // Ends the worker, if there is one.
  end() {
    if (this.held !== null) this.held.stop();
    this.held = null;
  }

  stop() {
    this.end();
    this.wanted = false;
    this.become('stopped', '');
    this.desk.turn();
  }

  again(form) {
    this.end();
    this.shut();
    this.form = form;
    this.wanted = true;
    this.become('waiting', '');
    this.desk.turn();
  }

  letGo() {
    this.shut();
    this.end();
  }

  close() {
    this.shut();
    this.end();
    this.desk.close(this);
  }

  toggle() {
    if (this.isOpen()) this.shut();
    else this.open();
  }

  open() {
    if (this.isOpen()) return;
    if (this.state === 'refused') this.body = new RefusedBody(this.refusal, (form) => this.again(form));
    else if (this.isHeld()) this.body = new AcceptedBody(this.held, this.facts, (words) => this.failed(words));
    else if (this.state === 'accepted') this.again(this.form);
    if (this.body === null) return;
    this.place.append(this.body.element);
    this.place.hidden = false;
    this.head.opened(true);
    this.body.shown();
    if (this.isHeld()) this.desk.use(this);
  }

  shut() {
    if (!this.isOpen()) return;
    const focused = this.place.contains(document.activeElement);
    this.body.end();
    this.body = null;
    this.place.replaceChildren();
    this.place.hidden = true;
    this.head.opened(false);
    if (focused) this.head.focus();
  }

  // From the overview: opened, now or as soon as it is read, and the keyboard goes there.
  visit() {
    if (this.state === 'waiting' || this.state === 'reading') this.wanted = true;
    this.open();
    this.element.scrollIntoView();
    this.element.focus({ preventScroll: true });
  }
}
