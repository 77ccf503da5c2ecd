// A long list, moved as hands and scroll bars move it: every row can be reached, and short ways are moved exactly.

import { Scroll } from './scroll.js';

const { equal: isSame, ok: isSo } = require('node:assert');

export function tryScroll(random) {
  const rowHeight = 20 + Math.floor(random() * 30);
  const height = rowHeight * (1 + Math.floor(random() ** 3 * 999999));
  const view = rowHeight * (1 + Math.floor(random() * 40));
  const scroll = new Scroll(height, view);
  const most = Math.max(0, scroll.inner - view);
  const last = Math.max(0, height - view);
  const inside = (at) => isSo(at >= 0 && at <= most + 0.5, `${at} of ${most}, ${JSON.stringify(scroll)}`);
  // To any place, and to both ends.
  for (const top of [random() * last, 0, last, random() * last].map(Math.floor)) {
    inside(scroll.go(top));
    isSame(scroll.top, top);
    moveShort(scroll, random, inside, last, most);
  }
  // The scroll bar pulled to its ends.
  scroll.go(Math.floor(last / 2));
  inside(scroll.moved(most));
  isSame(scroll.top, last);
  inside(scroll.moved(0));
  isSame(scroll.top, 0);
}

// A little up or down from where the element stands now.
function moveShort(scroll, random, inside, last, most) {
  for (let turn = 0; turn < 20; turn += 1) {
    const before = scroll.top;
    const at = before - scroll.offset;
    const way = Math.round((random() - 0.5) * 1.9 * Math.min(scroll.view - 1, 400));
    const moved = Math.min(Math.max(at + way, 0), most);
    inside(scroll.moved(moved));
    isSo(Math.abs(scroll.top - Math.min(Math.max(before + (moved - at), 0), last)) < 1, JSON.stringify([scroll, before, at, way]));
  }
}
