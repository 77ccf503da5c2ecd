// The page begins: files come, stand on the desk, and are told of in the overview.

import { takeFiles } from './drop.js';
import { watchLook } from './look.js';
import { Overview } from './overview.js';
import { Desk } from './desk.js';

function start() {
  const overview = new Overview({
    nav: document.getElementById('overview'),
    links: document.getElementById('links'),
    summary: document.getElementById('summary'),
  });
  const choose = document.getElementById('choose');
  const desk = new Desk(document.getElementById('files'), choose, (sections) => overview.tell(sections));
  takeFiles(choose, document.getElementById('notice'), (files) => desk.add(files));
  watchLook();
  document.documentElement.dataset.ready = 'yes';
}

start();
