// Calls of the library as WebAssembly, for the program at the other ends of the pipes: node serve.mjs LIBRARY.wasm
//
// A call comes as a frame of bytes, which is put into the library's memory as it is; and all behind its first ten numbers goes back as the call left it.
// A frame begins with eleven numbers of 64 bits, the lowest byte first: the function, by its place below; three that it is given; the bytes of the frame;
// where in the frame the answer stands; where the input begins that is lent, and its length; where the output begins that is lent, and its length; and one
// that becomes the nanoseconds that the call took.
import { readFileSync, readSync, writeSync } from 'node:fs';

const HEAD = 11 * 8;
const KEPT = 10 * 8;
const PAGE = 65536;

const library = new WebAssembly.Instance(new WebAssembly.Module(readFileSync(process.argv[2]))).exports;
const base = library.__heap_base.value;
let frame, numbers;

const FUNCTIONS = [
    () => library.bo_read(...input(), ...output(), answer()),
    () => library.bo_write(Number(given(0)), given(1), given(2), ...input(), ...output(), answer()),
    () => library.bo_export(given(0), given(1), ...input(), ...output(), answer()),
    () => library.bo_read_ascii(...input(), ...output(), answer()),
    () => library.bo_unpack(...input(), answer()),
    () => library.bo_pack(input()[0], ...output(), answer()),
    () => library.bo_explain(...input(), Number(given(0)), given(1), answer()),
];

const number = (place) => numbers.getBigUint64(8 * place, true);
const pointer = (place) => base + Number(number(place));
const given = (place) => number(1 + place);
const answer = () => pointer(5);
const input = () => [pointer(6), number(7)];
const output = () => [pointer(8), number(9)];

// Makes room for a frame of so many bytes.
function hold(length) {
    const missing = base + length - library.memory.buffer.byteLength;
    if (missing > 0) library.memory.grow(Math.ceil(missing / PAGE));
    frame = new Uint8Array(library.memory.buffer, base);
    numbers = new DataView(library.memory.buffer, base);
}

// Receives a frame, and gives its length; 0 where no more come.
function receive() {
    let length = HEAD;
    for (let got = 0; got < length;) {
        const more = readSync(0, frame, got, frame.length - got, null);
        if (more === 0) return 0;
        got += more;
        if (got >= HEAD) length = Number(number(4));
        if (length > frame.length) hold(length);
    }
    return length;
}

function send(length) {
    for (let at = KEPT; at < length;) at += writeSync(1, frame, at, length - at);
}

hold(PAGE);
for (let length = receive(); length > 0; length = receive()) {
    const call = FUNCTIONS[Number(number(0))];
    const begin = process.hrtime.bigint();
    call();
    numbers.setBigUint64(KEPT, process.hrtime.bigint() - begin, true);
    send(length);
}
