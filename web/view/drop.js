// How files come: chosen, or dropped anywhere on the page.

import { shownName } from './names.js';

function foldersOf(items) {
  const folders = [];
  for (const item of items) {
    const entry = item.kind === 'file' && item.webkitGetAsEntry ? item.webkitGetAsEntry() : null;
    if (entry && entry.isDirectory) folders.push(entry.name);
  }
  return folders;
}

function folderWords(folders) {
  if (folders.length === 0) return '';
  const names = folders.map(shownName).join(', ');
  return folders.length === 1
    ? `${names} is a folder and no file. Drop the files that are in it.`
    : `${names} are folders and no files. Drop the files that are in them.`;
}

// A folder is among the dropped files too, once, by its name.
function withoutFolders(files, folders) {
  const left = [...folders];
  return files.filter((file) => {
    const at = left.indexOf(file.name);
    if (at >= 0) left.splice(at, 1);
    return at < 0;
  });
}

function onDrop(event, taken, notice) {
  event.preventDefault();
  document.documentElement.classList.remove('dropping');
  const folders = foldersOf(event.dataTransfer.items);
  const files = withoutFolders([...event.dataTransfer.files], folders);
  notice.textContent = folderWords(folders) || (files.length === 0 ? 'What was dropped is no file.' : '');
  if (files.length > 0) taken(files);
}

function onChoose(choose, taken, notice) {
  const files = [...choose.files];
  choose.value = '';
  notice.textContent = '';
  if (files.length > 0) taken(files);
}

export function takeFiles(choose, notice, taken) {
  const root = document.documentElement;
  choose.addEventListener('change', () => onChoose(choose, taken, notice));
  window.addEventListener('dragover', (event) => {
    event.preventDefault();
    root.classList.add('dropping');
  });
  window.addEventListener('dragleave', (event) => {
    if (event.relatedTarget === null) root.classList.remove('dropping');
  });
  window.addEventListener('drop', (event) => onDrop(event, taken, notice));
}
