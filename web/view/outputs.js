// The files that can be kept of an accepted one.

export function outputName(facts, what, version) {
  return what === 'house' ? facts.names.house[version] : facts.names[what];
}

export function outputTitle(facts, what) {
  if (what === 'csv') return 'CSV';
  if (what === 'ascii') return 'ASCII export';
  return facts.form === 'ascii' ? 'Trace' : 'House spelling';
}
