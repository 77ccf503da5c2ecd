// Rows that are copied come with a tab between two cells. Without marked text it is the selected row; a part of one row
// is copied as it is.

import { rowText } from './row_cells.js';

function markedRows(list, selection) {
  return [...list.querySelectorAll('.row')]
    .filter((made) => selection.containsNode(made, true))
    .sort((one, other) => Number(one.dataset.index) - Number(other.dataset.index));
}

export function onCopy(event, list, selected) {
  const selection = getSelection();
  const rows = selection.isCollapsed ? [selected].filter(Boolean) : markedRows(list, selection);
  if (rows.length === 0 || (!selection.isCollapsed && rows.length === 1)) return;
  event.clipboardData.setData('text/plain', rows.map(rowText).join('\r\n'));
  event.preventDefault();
}
