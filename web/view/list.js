// The list of all rows. Only those that can be seen are there, and some above and below.

import { element } from './dom.js';
import { Scroll } from './scroll.js';
import { RowCache } from './row_cache.js';
import { headOfList, rowElement, fillRow, setWidths } from './row_cells.js';
import { listenToList } from './list_hands.js';

const VISIBLE = 18;
const AROUND = 8;
const ROW_EMS = 1.75;

export class RowList {
  constructor(held, facts, selected) {
    this.held = held;
    this.rows = facts.rows;
    this.onSelected = selected;
    this.index = -1;
    this.shownRows = new Map();
    this.cache = new RowCache(held, facts.rows, (from, to) => this.fill(from, to));
    this.inner = element('div', { class: 'list-inner', role: 'rowgroup' });
    this.element = element(
      'div',
      { class: 'list', role: 'grid', tabindex: '0', test: 'list', 'aria-label': 'All rows', 'aria-readonly': 'true' },
      element('div', { class: 'list-top', role: 'rowgroup' }, headOfList()),
      this.inner,
    );
    this.element.setAttribute('aria-rowcount', String(facts.rows + 1));
    setWidths(this.element, facts);
    this.element.addEventListener('scroll', () => this.scrolled());
    listenToList(this);
  }

  shown() {
    const size = parseFloat(getComputedStyle(document.documentElement).fontSize);
    this.rowHeight = Math.round(size * ROW_EMS);
    this.visible = Math.min(this.rows, VISIBLE);
    this.element.style.setProperty('--row', `${this.rowHeight}px`);
    this.element.style.setProperty('--visible', String(this.visible));
    this.watch = new ResizeObserver(() => this.resized());
    this.watch.observe(this.element);
    this.resized();
  }

  end() {
    this.watch.disconnect();
  }

  resized() {
    const view = Math.max(this.element.clientHeight - this.rowHeight, this.rowHeight);
    if (this.scroll && this.scroll.view === view) return;
    const top = this.scroll ? this.scroll.top : 0;
    this.scroll = new Scroll(this.rows * this.rowHeight, view);
    this.inner.style.height = `${this.scroll.inner}px`;
    this.go(top);
  }

  // How many whole rows can be seen.
  whole() {
    return Math.max(1, Math.floor(this.scroll.view / this.rowHeight));
  }

  go(top) {
    this.element.scrollTop = this.scroll.go(top);
    this.render();
  }

  scrolled() {
    const at = this.element.scrollTop;
    const belongs = this.scroll.moved(at);
    if (Math.abs(belongs - at) >= 1) this.element.scrollTop = belongs;
    this.render();
  }

  render() {
    const { top, view, offset } = this.scroll;
    const from = Math.max(0, Math.floor(top / this.rowHeight) - AROUND);
    const to = Math.min(this.rows, Math.ceil((top + view) / this.rowHeight) + AROUND);
    for (const [index, made] of this.shownRows) {
      if (index >= from && index < to && offset === this.offset) continue;
      made.remove();
      this.shownRows.delete(index);
    }
    this.offset = offset;
    const made = [];
    for (let index = from; index < to; index += 1) if (!this.shownRows.has(index)) made.push(this.rowAt(index));
    this.inner.append(...made);
    this.cache.want(from, to);
  }

  rowAt(index) {
    const made = rowElement(index);
    made.style.top = `${index * this.rowHeight - this.scroll.offset}px`;
    const row = this.cache.at(index);
    if (row !== null) fillRow(made, row);
    if (index === this.index) this.mark(made, true);
    this.shownRows.set(index, made);
    return made;
  }

  fill(from, to) {
    for (const [index, made] of this.shownRows) {
      if (index >= from && index < to && made.dataset.filled !== 'yes') fillRow(made, this.cache.at(index));
    }
  }

  mark(made, is) {
    made.setAttribute('aria-selected', String(is));
    if (is) this.element.setAttribute('aria-activedescendant', made.id);
  }

  // Selects a row and brings it into view.
  select(index) {
    const old = this.shownRows.get(this.index);
    if (old) this.mark(old, false);
    this.index = Math.min(Math.max(index, 0), this.rows - 1);
    this.reveal();
    const made = this.shownRows.get(this.index);
    if (made) this.mark(made, true);
    const wanted = this.index;
    this.held.rows(wanted, 1).then(([row]) => {
      if (wanted === this.index) this.onSelected(row);
    });
  }

  reveal() {
    const { top, view } = this.scroll;
    const at = this.index * this.rowHeight;
    const far = at < top - view || at > top + 2 * view;
    if (far) this.go(at - Math.floor(this.whole() / 2) * this.rowHeight);
    else if (at < top) this.go(at);
    else if (at + this.rowHeight > top + view) this.go(at + this.rowHeight - view);
  }

  visit() {
    this.element.scrollIntoView({ block: 'nearest' });
    this.element.focus({ preventScroll: true });
  }
}
