// Numbers as they are shown, by the page and by the worker.

// With its thousands separated.
export function separated(number) {
  return String(number).replace(/\B(?=(\d{3})+$)/g, ',');
}

export function counted(number, one, more) {
  return `${separated(number)} ${number === 1 ? one : more}`;
}

// Milliseconds with three digits behind the point, as a trace of version 1.2 spells an offset.
export function milliseconds(microseconds) {
  return `${Math.floor(microseconds / 1000)}.${String(microseconds % 1000).padStart(3, '0')}`;
}

export function hexadecimal(number, digits) {
  return number.toString(16).toUpperCase().padStart(digits, '0');
}
