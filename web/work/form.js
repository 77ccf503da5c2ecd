// Whether a file is a trace or lines of Telemotive ASCII.

// By the end of its name; where that does not say it, by the first byte: a line of ASCII begins with the date, and a trace with a semicolon.
export function formOf(name, text) {
  if (/\.trc$/i.test(name)) return 'trace';
  if (/\.asc$/i.test(name)) return 'ascii';
  return /^[0-9]/.test(String.fromCharCode(text[0] ?? 0)) ? 'ascii' : 'trace';
}
