// What is shown of a refused file. Nothing of it can be kept.

import { element, button, unseen } from './dom.js';
import { counted } from './digits.js';
import { shownBytes, withEnd } from './bytes.js';

// Where something is missing there is nothing to mark, and a caret stands in its place.
function markOf(bytes) {
  if (bytes.length === 0) {
    return [unseen(' [missing here: '), element('mark', { class: 'missing', text: '^', test: 'wrong' }), unseen('] ')];
  }
  const mark = element('mark', { class: 'wrong', test: 'wrong' }, ...shownBytes(bytes));
  return [unseen(' [wrong from here: '), mark, unseen(' to here] ')];
}

function notShown(count, where) {
  if (count === 0) return [];
  return [element('span', { class: 'more', text: `${counted(count, 'byte', 'bytes')} ${where}` })];
}

function codeOf({ bytes, before, behind, end, wrong }) {
  const all = withEnd(bytes, behind === 0 ? end : '');
  const parts = wrong === null
    ? shownBytes(all)
    : [
        ...shownBytes(all.slice(0, wrong.start)),
        ...markOf(all.slice(wrong.start, wrong.end)),
        ...shownBytes(all.slice(wrong.end)),
      ];
  const ends = behind === 0 ? [] : shownBytes(withEnd([], end));
  return element('code', {}, ...notShown(before, 'before'), ...parts, ...notShown(behind, 'behind'), ...ends);
}

function lineOf(one, place) {
  const refused = one.line === place;
  const head = element('th', { scope: 'row', text: String(one.line) }, refused ? unseen(' refused') : null);
  return element('tr', { class: refused ? 'refused-line' : null }, head, element('td', {}, codeOf(one)));
}

function aroundOf(refusal) {
  if (refusal.around.length === 0) return null;
  return element(
    'table',
    { class: 'around', test: 'around', 'aria-label': `Line ${refusal.place} and those around it` },
    element('tbody', {}, ...refusal.around.map((one) => lineOf(one, refusal.place))),
  );
}

function said(label, words, test) {
  if (words === null) return null;
  const text = element('span', { text: words, test });
  return element('p', { class: 'said' }, element('strong', { text: label }), ' ', text);
}

export class RefusedBody {
  constructor(refusal, readAs) {
    const other = refusal.form === 'ascii' ? 'trace' : 'ascii';
    const words = other === 'ascii' ? 'Read it as lines of ASCII' : 'Read it as a trace';
    this.element = element(
      'div',
      { class: 'refused' },
      element('p', { class: 'words', text: refusal.words, test: 'words' }),
      refusal.why === null ? null : element('p', { class: 'why', text: refusal.why, test: 'why' }),
      aroundOf(refusal),
      said('Expected:', refusal.expected, 'expected'),
      said('What to do:', refusal.remedy, 'remedy'),
      refusal.others ? button(words, () => readAs(other), { test: 'read-other' }) : null,
    );
  }

  shown() {}

  end() {}
}
