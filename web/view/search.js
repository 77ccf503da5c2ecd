// Search by ID and by line. What was found is selected in the list.

import { element, button, newName } from './dom.js';

function field(label, parts) {
  const name = newName('field');
  const input = element('input', { id: name, type: 'text', autocomplete: 'off', spellcheck: 'false', ...parts });
  return { input, label: element('label', { for: name, text: label }) };
}

export class Search {
  constructor(held, facts, list) {
    this.held = held;
    this.facts = facts;
    this.list = list;
    this.id = field('ID', { test: 'find-id', size: '10' });
    this.line = field('Line', { test: 'find-line', size: '8', inputmode: 'numeric' });
    this.said = element('p', { class: 'find-said', 'aria-live': 'polite', test: 'find-said' });
    this.id.input.addEventListener('keydown', (event) => this.idKey(event));
    this.line.input.addEventListener('keydown', (event) => this.lineKey(event));
    this.element = element(
      'div',
      { class: 'search', role: 'search' },
      element('div', { class: 'find' }, this.id.label, this.id.input, ...this.idButtons()),
      element('div', { class: 'find' }, this.line.label, this.line.input, this.lineButton()),
      this.said,
    );
  }

  idButtons() {
    return [
      button('Next', () => this.find(1), { test: 'find-next' }),
      button('Previous', () => this.find(-1), { test: 'find-previous' }),
    ];
  }

  lineButton() {
    return button('Go', () => this.go(), { test: 'find-go' });
  }

  idKey(event) {
    if (event.key === 'Enter') this.find(event.shiftKey ? -1 : 1);
  }

  lineKey(event) {
    if (event.key === 'Enter') this.go();
  }

  tell(words) {
    this.said.textContent = words;
  }

  find(step) {
    const text = this.id.input.value.trim();
    const edge = step > 0 ? 0 : this.facts.rows - 1;
    const from = this.list.index < 0 ? edge : this.list.index + step;
    const inside = from >= 0 && from < this.facts.rows;
    this.held.findId(text, inside ? from : edge, step).then((found) => {
      if (found.wrong === undefined && found.index < 0 && inside && from !== edge) this.findAgain(text, edge, step);
      else this.found(found, text, inside ? '' : this.roundWords(step));
    });
  }

  // None from here on: from the other end again.
  findAgain(text, edge, step) {
    this.held.findId(text, edge, step).then((found) => this.found(found, text, this.roundWords(step)));
  }

  roundWords(step) {
    return step > 0 ? ', from the first again' : ', from the last again';
  }

  found(found, text, round) {
    if (found.wrong !== undefined) this.tell(found.wrong);
    else if (found.index < 0) this.tell(`no row has the ID ${text}`);
    else this.selectFound(found.index, (row) => `row ${row.number}, line ${row.line}${round}`);
  }

  selectFound(index, words) {
    this.list.select(index);
    this.held.rows(index, 1).then(([row]) => this.tell(words(row)));
  }

  go() {
    const text = this.line.input.value.trim();
    if (!/^[0-9]{1,15}$/.test(text) || Number(text) === 0) {
      this.tell('a line is a number from 1 on');
      return;
    }
    const line = Number(text);
    this.held.findLine(line).then((found) => {
      if (found.wrong !== undefined) this.tell(found.wrong);
      else if (found.index < 0) this.tell(`no row stands on line ${line} or behind it`);
      else this.selectFound(found.index, (row) => this.lineWords(row, line));
    });
  }

  lineWords(row, line) {
    if (row.line === line) return `line ${line} is row ${row.number}`;
    return `line ${line} is no row; the next one is row ${row.number} on line ${row.line}`;
  }
}
