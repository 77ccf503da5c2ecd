// The versions of a trace.

const VERSIONS = { 11: '1.1', 12: '1.2' };

// As a trace spells it.
export function versionName(version) {
  return VERSIONS[version];
}
