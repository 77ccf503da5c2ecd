// An accepted file is held by a worker of its own, with all of its rows. Hundreds of them would take all memory, so only
// some are held: first those that are looked at, then those that came last. Another is read again when it is opened.

const MOST_FILES = 6;
const MOST_BYTES = 300000000;

export function toLetGo(sections) {
  const held = sections.filter((section) => section.isHeld());
  held.sort((one, other) => other.isLookedAt() - one.isLookedAt() || other.used - one.used);
  let bytes = 0;
  return held.filter((section, before) => {
    bytes += section.file.size;
    return before > 0 && (before >= MOST_FILES || bytes > MOST_BYTES);
  });
}
