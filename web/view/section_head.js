// What always stands there of a file: its name, size and state, how far it has come, and what can be done with it.

import { element, button, newName, setText } from './dom.js';
import { shownName } from './names.js';
import { sizeInWords, percent } from './numbers.js';

const DOING = { waiting: 'waiting', reading: 'reading', judging: 'judging', looking: 'looking at the rows' };

export class SectionHead {
  constructor(file, on) {
    this.titleName = newName('title');
    this.bodyName = newName('body');
    const name = shownName(file.name);
    this.opener = button(name, on.open, { class: 'opener', id: this.titleName, test: 'open' });
    this.opener.setAttribute('aria-controls', this.bodyName);
    this.state = element('strong', { class: 'state', test: 'state' });
    this.words = element('span', { class: 'short', test: 'short' });
    this.bar = element('progress', { 'aria-label': `how far ${name} is read` });
    this.far = element('span', { test: 'progress' });
    this.going = element('div', { class: 'going' }, this.bar, this.far);
    this.stop = button('Stop', on.stop, { test: 'stop' });
    this.again = button('Read again', on.again, { test: 'again' });
    this.close = button('Close', on.close, { test: 'close' });
    for (const one of [this.stop, this.again, this.close]) one.setAttribute('aria-describedby', this.titleName);
    const size = element('span', { class: 'size', text: sizeInWords(file.size), test: 'size' });
    this.element = element(
      'header',
      { class: 'file-head' },
      element('h2', {}, this.opener),
      element('p', { class: 'state-line' }, this.state, ' ', size, ' ', this.words),
      this.going,
      element('div', { class: 'actions' }, this.stop, this.again, this.close),
    );
    this.opened(false);
  }

  show(state, words) {
    const focused = document.activeElement;
    this.state.textContent = state;
    this.words.textContent = words;
    const atWork = state === 'reading' || state === 'waiting';
    this.going.hidden = state !== 'reading';
    this.stop.hidden = !atWork;
    this.again.hidden = state !== 'stopped' && state !== 'failed';
    this.opener.disabled = state !== 'accepted' && state !== 'refused';
    if (this.element.contains(focused) && (focused.hidden || focused.disabled)) this.focus();
  }

  progress(doing, done, of) {
    setText(this.far, `${DOING[doing]} ${percent(done, of)}`.trim());
    this.bar.max = Math.max(of, 1);
    this.bar.value = Math.min(done, of);
  }

  opened(is) {
    this.opener.setAttribute('aria-expanded', String(is));
    this.words.hidden = is;
  }

  // Where the keyboard stays when the button that was pressed goes away.
  focus() {
    const next = [this.opener, this.stop, this.again, this.close].find((one) => !one.hidden && !one.disabled);
    next.focus({ preventScroll: true });
  }
}
