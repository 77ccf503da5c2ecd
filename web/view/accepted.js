// What is shown of an accepted file.

import { element } from './dom.js';
import { Asked } from './asked.js';
import { factsOf, kindsOf } from './facts.js';
import { Downloads } from './downloads.js';
import { Picture } from './picture.js';
import { RowList } from './list.js';
import { Search } from './search.js';

export class AcceptedBody {
  constructor(held, facts, failed) {
    this.asked = new Asked(held, failed);
    this.list = null;
    this.picture = null;
    this.element = element(
      'div',
      { class: 'accepted' },
      factsOf(facts, (index) => this.wanted(index)),
      kindsOf(facts),
      new Downloads(this.asked, facts).element,
      ...(facts.rows > 0 ? this.rowsParts(facts) : []),
    );
  }

  rowsParts(facts) {
    this.list = new RowList(this.asked, facts, (row) => this.selected(row));
    this.picture = new Picture(this.asked, facts, (index) => this.wanted(index));
    const search = new Search(this.asked, facts, this.list);
    const head = element('h3', { text: 'Rows' });
    return [this.picture.element, element('section', { class: 'rows' }, head, search.element, this.list.element)];
  }

  shown() {
    if (this.picture) this.picture.shown();
    if (this.list) this.list.shown();
  }

  end() {
    this.asked.end();
    if (this.picture) this.picture.end();
    if (this.list) this.list.end();
  }

  // From the picture or the facts: this row is to be seen in the list.
  wanted(index) {
    this.list.select(index);
    this.list.visit();
  }

  // From the list: the picture's cursor goes there too.
  selected(row) {
    this.picture.stand(row, document.activeElement !== this.list.element);
  }
}
