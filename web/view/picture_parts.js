// What the picture is made of: its buttons, the names at the left, the plot, and the lines below.

import { element, button, newName } from './dom.js';
import { separated, counted } from './digits.js';

export const FIRST_STRIPS = 24;

const HELP =
  'Move the cursor with the mouse, a finger, or the keys left, right, Home and End. Enter or click shows the row in the ' +
  'list. The keys + and - zoom, 0 goes back to the whole, Page up and Page down move the part that is shown, m goes to ' +
  'the next mark. The height of a strip is how many rows there are, measured by the most that this strip has.';

function controls(on, shows) {
  return element(
    'div',
    { class: 'controls' },
    button('Zoom in', () => on.zoom(0.5), { test: 'zoom-in' }),
    button('Zoom out', () => on.zoom(2), { test: 'zoom-out' }),
    button('Whole', () => on.whole(), { test: 'zoom-whole' }),
    button('Earlier', () => on.pan(-0.5)),
    button('Later', () => on.pan(0.5)),
    button('Next mark', () => on.mark(), { test: 'next-mark' }),
    shows,
  );
}

function plotOf(facts, parts, help) {
  return element(
    'div',
    {
      class: 'plot',
      tabindex: '0',
      role: 'slider',
      'aria-label': 'Cursor in the picture',
      'aria-describedby': help,
      'aria-valuemin': '0',
      'aria-valuemax': String(facts.rows - 1),
      'aria-valuenow': '0',
      test: 'plot',
    },
    parts.marks,
    parts.axis,
    parts.strips,
    parts.cursor,
  );
}

function laneName(shape, name, count) {
  const text = element('span', { class: 'id', text: `${shape} ${name}` });
  return element('li', { class: 'lane' }, text, element('span', { class: 'count', text: separated(count) }));
}

function errorsIn(facts) {
  return facts.kinds.find(({ kind }) => kind === 'Error').count;
}

export function pictureParts(facts, on) {
  const help = newName('help');
  const parts = {
    on,
    marks: element('canvas', { class: 'marks', 'aria-hidden': 'true' }),
    axis: element('div', { class: 'axis', 'aria-hidden': 'true' }),
    strips: element('canvas', { class: 'strips', 'aria-hidden': 'true' }),
    cursor: element('div', { class: 'cursor', hidden: true }),
    names: element('ol', { class: 'names', 'aria-label': 'IDs, the most frequent first, with their rows' }),
    lanes: element('ul', { class: 'lanes', 'aria-label': 'Marks' }),
    told: element('p', { class: 'told', 'aria-live': 'polite', test: 'cursor' }),
    shows: element('span', { class: 'shows', test: 'shows' }),
    more: element('p', { class: 'more-strips' }),
  };
  parts.lanes.append(laneName('◀', 'step back', facts.stepsBack), laneName('✕', 'error', errorsIn(facts)));
  parts.plot = plotOf(facts, parts, help);
  const left = element('div', { class: 'left' }, parts.lanes, element('p', { class: 'since', text: 'since the start' }), parts.names);
  parts.element = element(
    'section',
    { class: 'picture', test: 'picture' },
    element('h3', { text: 'Picture' }),
    controls(on, parts.shows),
    element('div', { class: 'frame' }, left, parts.plot),
    parts.told,
    parts.more,
    element('p', { class: 'help', id: help, text: HELP }),
  );
  return parts;
}

function nameOfStrip({ name, count }) {
  const id = element('span', { class: 'id', text: name });
  return element('li', {}, id, ' ', element('span', { class: 'count', text: separated(count) }));
}

function moreButtons(facts, strips, more) {
  const left = facts.ids.length - strips;
  const next = Math.min(left, FIRST_STRIPS);
  const buttons = [];
  if (left > 0) buttons.push(button(`${next} more`, () => more(strips + next), { test: 'more-strips' }));
  if (left > next) buttons.push(button('All', () => more(facts.ids.length), { test: 'all-strips' }));
  if (strips > FIRST_STRIPS) buttons.push(button('Fewer', () => more(FIRST_STRIPS), { test: 'fewer-strips' }));
  return buttons;
}

export function showNames(parts, facts, strips) {
  const focused = parts.more.contains(document.activeElement);
  parts.names.replaceChildren(...facts.ids.slice(0, strips).map(nameOfStrip));
  parts.element.style.setProperty('--strips', String(strips));
  const said = `${separated(strips)} of ${counted(facts.idCount, 'strip', 'strips')}, the most frequent first`;
  const buttons = moreButtons(facts, strips, parts.on.more);
  parts.more.replaceChildren(element('span', { text: said }), ...buttons);
  if (focused && buttons.length > 0) buttons[0].focus({ preventScroll: true });
}
