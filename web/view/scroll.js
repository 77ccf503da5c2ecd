// Where a list of any length is scrolled to. Browsers have a greatest height, which a million rows pass. So a long list
// has this height and is divided into pages, each shifted against the element by an amount of its own: a short way is
// moved exactly, and only a leap, such as one of the scroll bar, is scaled.

const MOST_HEIGHT = 6000000;
const PAGES = 100;

export class Scroll {
  constructor(height, view) {
    this.height = height;
    this.view = view;
    this.inner = Math.min(height, MOST_HEIGHT);
    this.page = this.inner / PAGES;
    const pages = Math.max(1, Math.floor(height / this.page));
    this.last = pages - 1;
    this.shift = pages > 1 ? (height - this.inner) / (pages - 1) : 0;
    this.offset = 0;
    this.top = 0;
  }

  // What the whole list is shifted by on this page.
  offsetOn(page) {
    return Math.round(Math.min(Math.max(page, 0), this.last) * this.shift);
  }

  // Goes to this place of the list, and gives the one of the element.
  go(top) {
    this.top = Math.min(Math.max(top, 0), Math.max(this.height - this.view, 0));
    this.offset = this.offsetOn(Math.floor(this.top / this.page));
    return this.top - this.offset;
  }

  // The element was scrolled to there; gives where it belongs, which is elsewhere when the page has changed.
  moved(at) {
    const way = at + this.offset - this.top;
    if (Math.abs(way) < this.view) return this.go(this.top + way);
    const part = this.inner > this.view ? at / (this.inner - this.view) : 0;
    const top = part * (this.height - this.view);
    this.offset = this.offsetOn(Math.floor(top / this.page));
    this.top = Math.min(Math.max(at + this.offset, 0), Math.max(this.height - this.view, 0));
    return this.top - this.offset;
  }
}
