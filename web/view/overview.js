// All files at a glance: a line that counts them, a link to each where there are several, and the title of the window.

import { element, setText } from './dom.js';
import { shownName } from './names.js';
import { counted } from './digits.js';

const TOLD_AFTER = 40;
const IN_WORDS = ['waiting', 'reading', 'accepted', 'refused', 'failed', 'stopped'];

export function countsInWords(states) {
  const parts = [];
  for (const state of IN_WORDS) {
    const count = states.filter((one) => one === state).length;
    if (count > 0) parts.push(states.length === 1 ? state : `${count} ${state}`);
  }
  return `${counted(states.length, 'file', 'files')}: ${parts.join(', ')}`;
}

// The window's title has what must be seen from another window: what is refused, and what is still at work.
export function titleOf(states) {
  if (states.length === 0) return 'Bushingowl';
  const of = (state) => states.filter((one) => one === state).length;
  const parts = [];
  const atWork = of('waiting') + of('reading');
  if (atWork > 0) parts.push(`${atWork} at work`);
  for (const state of ['refused', 'failed', 'stopped']) {
    if (of(state) > 0) parts.push(states.length === 1 ? state : `${of(state)} ${state}`);
  }
  if (parts.length === 0) parts.push(states.length === 1 ? 'accepted' : 'all accepted');
  return `${counted(states.length, 'file', 'files')}: ${parts.join(', ')} - Bushingowl`;
}

function isBad(state) {
  return state === 'refused' || state === 'failed';
}

export class Overview {
  constructor(places) {
    this.places = places;
    this.links = new Map();
    this.sections = [];
    this.made = 0;
    this.due = null;
  }

  // Called at every change, and hundreds may come at once: shown a moment later, together.
  tell(sections) {
    this.sections = [...sections];
    if (this.due === null) this.due = setTimeout(() => this.show(), TOLD_AFTER);
  }

  show() {
    this.due = null;
    const states = this.sections.map((section) => section.state);
    document.title = titleOf(states);
    setText(this.places.summary, states.length > 0 ? countsInWords(states) : '');
    this.places.nav.hidden = states.length < 2;
    for (const [section, link] of this.links) if (!this.sections.includes(section)) this.drop(section, link);
    for (const section of this.sections) this.showLink(section);
  }

  drop(section, link) {
    link.item.remove();
    this.links.delete(section);
  }

  showLink(section) {
    if (!this.links.has(section)) this.links.set(section, this.linkTo(section));
    const link = this.links.get(section);
    const moves = isBad(section.state) !== link.item.classList.contains('is-bad');
    link.item.className = `is-${section.state}${isBad(section.state) ? ' is-bad' : ''}`;
    if (moves) this.place(link.item, isBad(section.state));
    setText(link.state, section.inWords());
  }

  // What can't be used stands first, so that among hundreds it is seen; both kinds in the order in which they came.
  place(item, bad) {
    const { links } = this.places;
    const group = [...links.children].filter((one) => one !== item && one.classList.contains('is-bad') === bad);
    const behind = group.find((one) => Number(one.dataset.number) > Number(item.dataset.number));
    const focused = item.contains(document.activeElement) ? document.activeElement : null;
    links.insertBefore(item, behind || (bad ? links.querySelector('li:not(.is-bad)') : null));
    if (focused) focused.focus({ preventScroll: true });
  }

  linkTo(section) {
    const state = element('span', { class: 'state' });
    const anchor = element('a', { href: `#${section.element.id}`, text: shownName(section.file.name) });
    anchor.addEventListener('click', (event) => {
      event.preventDefault();
      section.visit();
    });
    const item = element('li', { test: 'link' }, anchor, ' ', state);
    this.made += 1;
    item.dataset.number = String(this.made);
    this.places.links.append(item);
    return { item, state };
  }
}
