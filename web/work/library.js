// The library's functions, called in an instance of its WebAssembly, with the numbers of include/bushingowl.h as answers.
//
// An instance is an arena: bytes are lent to the library as areas of its memory, which grows with them, and all go with the instance.

const PAGE = 65536;
const MOST_NUMBERS = 10;
const FIELDS = 8;

export class Library {
  constructor(module) {
    this.calls = new WebAssembly.Instance(module).exports;
    this.next = this.calls.__heap_base.value;
    this.nothing = { address: this.next, length: 0 };
    this.answer = this.lend(MOST_NUMBERS * 8);
    this.fields = this.lend(FIELDS * 8);
  }

  // An area of so many bytes. It throws where the browser has no room for it.
  lend(length) {
    const address = Math.ceil(this.next / 8) * 8;
    this.next = address + length;
    const missing = this.next - this.calls.memory.buffer.byteLength;
    if (missing > 0) this.calls.memory.grow(Math.ceil(missing / PAGE));
    return { address, length };
  }

  // An area that holds these bytes.
  lendBytes(bytes) {
    const area = this.lend(bytes.length);
    this.bytes(area).set(bytes);
    return area;
  }

  // An area that holds these letters, a byte each.
  lendLetters(letters) {
    return this.lendBytes(Uint8Array.from(letters, (letter) => letter.charCodeAt(0)));
  }

  // The bytes of an area, until the next one is lent.
  bytes(area) {
    return new Uint8Array(this.calls.memory.buffer, area.address, area.length);
  }

  read(text, records) {
    this.calls.bo_read(...over(text), ...over(records), this.answer.address);
    const [number, place, version, start, rows, firstStepBack, first] = this.numbers(7);
    return { number, place, version, start, rows, firstStepBack, first };
  }

  write(version, start, first, records, out) {
    this.calls.bo_write(version, BigInt(start), BigInt(first), ...over(records), ...over(out), this.answer.address);
    const [number, place, bytes] = this.numbers(3);
    return { number, place, bytes };
  }

  export(start, channel, records, out) {
    this.calls.bo_export(BigInt(start), BigInt(channel), ...over(records), ...over(out), this.answer.address);
    const [number, place, bytes, lines, leftOut] = this.numbers(5);
    return { number, place, bytes, lines, leftOut };
  }

  readAscii(text, records) {
    this.calls.bo_read_ascii(...over(text), ...over(records), this.answer.address);
    const [number, place, start, rows] = this.numbers(4);
    return { number, place, start, rows };
  }

  // The eight data bytes are two numbers of four, the first byte the most significant.
  unpack(record) {
    this.calls.bo_unpack(...over(record), this.answer.address);
    const [number, place, offset, bus, kind, extended, id, length, , mark] = this.numbers(10);
    const data = [this.words[17], this.words[16]];
    return { number, place, offset, bus, kind, extended, id, length, data, mark };
  }

  // The fields are offset, bus, kind, extended, ID, length, data, mark.
  pack(fields, out) {
    const words = new Uint32Array(this.calls.memory.buffer, this.fields.address, 2 * FIELDS);
    fields.forEach((field, at) => words.set([field % 2 ** 32, Math.floor(field / 2 ** 32)], 2 * at));
    this.calls.bo_pack(this.fields.address, ...over(out), this.answer.address);
    const [number, place] = this.numbers(2);
    return { number, place };
  }

  explain(line, version, expected) {
    this.calls.bo_explain(...over(line), version, BigInt(expected), this.answer.address);
    const [number, place, reason, field] = this.numbers(4);
    return { number, place, reason, field };
  }

  // The first numbers of the answer. All but data bytes are below 2 to the 53, so that a plain number has them as they are.
  numbers(count) {
    if (this.words?.buffer !== this.calls.memory.buffer) {
      this.words = new Uint32Array(this.calls.memory.buffer, this.answer.address, 2 * MOST_NUMBERS);
    }
    const numbers = [];
    for (let at = 0; at < count; at += 1) numbers.push(this.words[2 * at] + this.words[2 * at + 1] * 2 ** 32);
    return numbers;
  }
}

// The bytes of an area from one on and before another.
export function partOf(area, from, to) {
  return { address: area.address + from, length: to - from };
}

function over(area) {
  return [area.address, BigInt(area.length)];
}
