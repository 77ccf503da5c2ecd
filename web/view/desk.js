// The files on the desk: who is read next, and whose worker is kept.

import { FileSection } from './section.js';
import { toLetGo } from './holding.js';

const AT_WORK = 2;

export class Desk {
  constructor(place, choose, changed) {
    this.place = place;
    this.choose = choose;
    this.changed = changed;
    this.sections = [];
    this.uses = 0;
  }

  add(files) {
    const others = this.sections.length > 0;
    for (const file of files) {
      const section = new FileSection(file, files.length === 1, this);
      this.sections.push(section);
      this.place.append(section.element);
    }
    if (others) this.sections[this.sections.length - files.length].element.scrollIntoView();
    this.turn();
  }

  // Something changed: whoever waits is read while there is room.
  turn() {
    let working = this.sections.filter((section) => section.state === 'reading').length;
    for (const section of this.waiting()) {
      if (working >= AT_WORK) break;
      section.read();
      working += 1;
    }
    this.changed(this.sections);
  }

  // In the order in which they came, but first those that somebody wants to see.
  waiting() {
    const all = this.sections.filter((section) => section.state === 'waiting');
    return [...all.filter((section) => section.wanted), ...all.filter((section) => !section.wanted)];
  }

  // This one came or was opened now; those that are looked at least give their memory back.
  use(section) {
    this.uses += 1;
    section.used = this.uses;
    for (const other of toLetGo(this.sections)) other.letGo();
  }

  close(section) {
    const at = this.sections.indexOf(section);
    this.sections.splice(at, 1);
    section.element.remove();
    const next = this.sections[Math.min(at, this.sections.length - 1)];
    if (next) next.element.focus();
    else this.choose.focus();
    this.turn();
  }
}
