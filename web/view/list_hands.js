// What the keyboard, the wheel and the mouse do in the list: always by whole rows, however long it is.

import { onCopy } from './copy.js';

function onKey(event, list) {
  if (event.ctrlKey || event.altKey || event.metaKey) return;
  const none = list.index < 0;
  const here = none ? Math.ceil(list.scroll.top / list.rowHeight) : list.index;
  const to = {
    ArrowDown: none ? here : here + 1,
    ArrowUp: here - 1,
    PageDown: here + list.whole(),
    PageUp: here - list.whole(),
    Home: 0,
    End: list.rows - 1,
  }[event.key];
  if (to === undefined) return;
  event.preventDefault();
  list.select(to);
}

// At the ends of the list it is the page that is scrolled. What is left of a row is kept for the next turn.
function onWheel(event, list, left) {
  if (event.ctrlKey || event.deltaY === 0 || Math.abs(event.deltaX) > Math.abs(event.deltaY)) return left;
  const { top, height, view } = list.scroll;
  if (event.deltaY < 0 ? top <= 0 : top >= height - view) return 0;
  event.preventDefault();
  const unit = [1, list.rowHeight, view][event.deltaMode];
  const turned = left + (event.deltaY * unit) / list.rowHeight;
  const rows = Math.trunc(turned);
  if (rows !== 0) list.go((Math.round(top / list.rowHeight) + rows) * list.rowHeight);
  return turned - rows;
}

// A click that marks text selects no row.
function onRowClick(event, list) {
  const made = event.target.closest('.row');
  if (made === null || !getSelection().isCollapsed) return;
  list.select(Number(made.dataset.index));
}

export function listenToList(list) {
  const place = list.element;
  let left = 0;
  place.addEventListener('keydown', (event) => onKey(event, list));
  place.addEventListener('click', (event) => onRowClick(event, list));
  place.addEventListener('copy', (event) => onCopy(event, place, list.shownRows.get(list.index)));
  const wheel = (event) => {
    left = onWheel(event, list, left);
  };
  place.addEventListener('wheel', wheel, { passive: false });
}
