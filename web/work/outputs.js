// What the files that can be made of an accepted one are called: as owl calls them, where owl makes them.

import { versionName } from './version.js';

export function outputNames({ name, form }) {
  if (form === 'ascii') {
    const stem = without(name, ['.asc', '.txt']);
    return { ascii: `${stem}-house.asc`, house: { 11: `${stem}.trc`, 12: `${stem}.trc` }, csv: `${stem}.csv` };
  }
  const stem = without(name, ['.trc']);
  const house = (version) => `${stem}-${versionName(version)}.trc`;
  return { ascii: `${stem}.asc`, house: { 11: house(11), 12: house(12) }, csv: `${stem}.csv` };
}

// A name without the first of these ends that it has, in any letter case.
function without(name, ends) {
  const end = ends.find((one) => name.toLowerCase().endsWith(one));
  return name.slice(0, name.length - (end?.length ?? 0));
}
