// The facts of an accepted file, and its rows counted by kind.

import { element, button } from './dom.js';
import { separated, counted } from './digits.js';
import { spanInWords } from './numbers.js';

function fact(name, value, test, ...behind) {
  const text = element('span', { text: value, test });
  return element('div', { class: 'fact' }, element('dt', { text: name }), element('dd', {}, text, ...behind));
}

function versionIn(facts) {
  return facts.form === 'ascii' ? 'Telemotive ASCII' : facts.versionName;
}

function numbersIn(facts) {
  if (facts.rows === 0 || facts.first === 0) return [];
  const last = facts.first + facts.rows - 1;
  return [element('small', { text: `numbers ${facts.first} to ${last}` })];
}

function stepBackIn(facts, show) {
  const step = facts.firstStepBack;
  if (step === null) return fact('First step back', 'none', 'fact-first-step-back');
  const behind = [button('Show', () => show(step.index), { class: 'small', 'aria-label': 'Show the first step back' })];
  const more = `${counted(facts.stepsBack, 'step', 'steps')} back in all`;
  behind.push(element('small', { text: more, test: 'fact-steps-back' }));
  return fact('First step back', `row ${step.number}, line ${step.line}`, 'fact-first-step-back', ...behind);
}

function coveredIn(facts) {
  if (facts.earliest === null) return fact('Time covered', 'none', 'fact-covered');
  const stamps = `${facts.earliest.stamp} to ${facts.latest.stamp}`;
  return fact('Time covered', spanInWords(facts.covered), 'fact-covered', element('small', { text: stamps }));
}

// Warnings and error frames have strips of their own, which are no IDs.
function idsIn(facts) {
  const others = facts.kinds.filter(({ kind, count }) => (kind === 'Warng' || kind === 'Error') && count > 0);
  return facts.idCount - others.length;
}

export function factsOf(facts, show) {
  const lines = element('small', { text: counted(facts.lines, 'line', 'lines') });
  return element(
    'dl',
    { class: 'facts' },
    fact(facts.form === 'ascii' ? 'Form' : 'Version', versionIn(facts), 'fact-version', lines),
    fact('Start', facts.start, 'fact-start'),
    fact('Rows', separated(facts.rows), 'fact-rows', ...numbersIn(facts)),
    coveredIn(facts),
    stepBackIn(facts, show),
    fact('IDs', separated(idsIn(facts)), 'fact-ids'),
  );
}

export function kindsOf(facts) {
  const heads = facts.kinds.map(({ kind }) => element('th', { scope: 'col', text: kind }));
  const counts = facts.kinds.map(({ kind, count }) =>
    element('td', { text: separated(count), test: `kind-${kind.replace(' ', '-')}` }),
  );
  return element(
    'table',
    { class: 'kinds' },
    element('caption', { text: 'Rows by kind' }),
    element('thead', {}, element('tr', {}, ...heads)),
    element('tbody', {}, element('tr', {}, ...counts)),
  );
}
