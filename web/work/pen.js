// Letters put one behind the other, without a string for each.

const DIGITS = '0123456789ABCDEF';

export class Pen {
  constructor(room) {
    this.bytes = new Uint8Array(room);
    this.at = 0;
  }

  letters(text) {
    for (let at = 0; at < text.length; at += 1) this.bytes[this.at + at] = text.charCodeAt(at);
    this.at += text.length;
  }

  copy(bytes) {
    this.bytes.set(bytes, this.at);
    this.at += bytes.length;
  }

  // The last so many hexadecimal digits of a number below 2 to the 32.
  hexadecimal(number, digits) {
    for (let digit = digits - 1; digit >= 0; digit -= 1) {
      this.bytes[this.at] = DIGITS.charCodeAt((number >>> (4 * digit)) & 15);
      this.at += 1;
    }
  }

  // What was written, which is then forgotten.
  take() {
    const written = this.bytes.slice(0, this.at);
    this.at = 0;
    return written;
  }
}
