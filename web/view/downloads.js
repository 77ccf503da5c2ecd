// The files that can be kept of an accepted one.

import { element, button, newName } from './dom.js';
import { shownName } from './names.js';
import { outputName, outputTitle } from './outputs.js';

const WHATS = ['ascii', 'house', 'csv'];
const REVOKED_AFTER = 60000;

function handOver({ name, blob }) {
  const url = URL.createObjectURL(blob);
  const anchor = element('a', { href: url, download: name, hidden: true });
  document.body.append(anchor);
  anchor.click();
  anchor.remove();
  setTimeout(() => URL.revokeObjectURL(url), REVOKED_AFTER);
}

function choice(label, values, chosen, test) {
  const name = newName('choice');
  const options = values.map(([value, text]) => element('option', { value, text, selected: value === chosen }));
  const select = element('select', { id: name, test }, ...options);
  return { select, element: element('p', { class: 'choice' }, element('label', { for: name, text: label }), select) };
}

export class Downloads {
  constructor(held, facts) {
    this.held = held;
    this.facts = facts;
    this.channel = this.channelChoice();
    this.version = choice(facts.form === 'ascii' ? 'Version of the trace' : 'Version of the house spelling', [[11, '1.1'], [12, '1.2']], facts.houseVersion, 'version');
    this.version.select.addEventListener('change', () => this.showNames());
    this.names = {};
    this.buttons = WHATS.map((what) => this.buttonFor(what));
    this.made = element('p', { class: 'made', role: 'status', test: 'made' });
    this.bar = element('progress', { hidden: true, 'aria-label': 'how far the file is made' });
    this.element = element(
      'section',
      { class: 'downloads' },
      element('h3', { text: 'Files to keep' }),
      element('div', { class: 'choices' }, facts.busless ? this.channel.element : null, this.version.element),
      element('div', { class: 'makes' }, ...this.buttons),
      this.bar,
      this.made,
    );
    this.showNames();
  }

  channelChoice() {
    const values = Array.from({ length: 17 }, (_, channel) => [channel, String(channel)]);
    return choice('Channel for rows without a bus', values, this.facts.form === 'ascii' ? 0 : 1, 'channel');
  }

  buttonFor(what) {
    this.names[what] = element('small');
    const one = button('', () => this.make(what), { test: `make-${what}` });
    one.append(element('span', { text: outputTitle(this.facts, what) }), ' ', this.names[what]);
    return one;
  }

  showNames() {
    const version = Number(this.version.select.value);
    for (const what of WHATS) this.names[what].textContent = shownName(outputName(this.facts, what, version));
  }

  options() {
    return { channel: Number(this.channel.select.value), version: Number(this.version.select.value) };
  }

  busy(is) {
    for (const one of this.buttons) one.setAttribute('aria-disabled', String(is));
    this.bar.hidden = !is;
    this.isBusy = is;
  }

  progress(done, of) {
    this.bar.max = Math.max(of, 1);
    this.bar.value = Math.min(done, of);
  }

  tell(words, refused) {
    this.made.textContent = words;
    this.made.classList.toggle('no', refused);
  }

  make(what) {
    if (this.isBusy) return;
    const title = outputTitle(this.facts, what);
    this.busy(true);
    this.progress(0, 0);
    this.tell(`making the ${title}`, false);
    this.held
      .make(what, this.options(), (done, of) => this.progress(done, of))
      .then((made) => this.finished(title, made));
  }

  finished(title, made) {
    this.busy(false);
    if (made.refused !== undefined) {
      const why = made.why === null ? '' : `: ${made.why}`;
      this.tell(`no ${title}: ${made.refused}${why}`, true);
      return;
    }
    handOver(made);
    this.tell(`${shownName(made.name)}: ${made.said}`, false);
  }
}
