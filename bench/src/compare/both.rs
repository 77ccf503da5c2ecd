//! One call of the library and of the expert on equal buffers; all that they leave behind is compared.

use super::{shown, Difference};
use crate::expert;
use crate::inputs::random::Random;
use crate::inputs::records::Marked;
use crate::library::{bytes_of, Area, Call, Library};
use bushingowl::RECORD;
use std::hint::black_box;
use std::ops::Range;

/// The bytes on both sides of every buffer that no call may change.
const GUARD: usize = 64;

/// Rows of a trace and lines of ASCII, either as others may be continued by them.
const BEYOND: [&[u8]; 2] = [
    b"\r\n1) 0.0 Rx 0123 0\r\n 0A 0A\r\n",
    b"\r\n13.10.2173 00:00:00.0000 CAN #1 | Rx 123 0\n 0A 0A\r\n",
];

/// The buffers, kept from call to call.
pub struct Both {
    called: Library,
    random: Random,
    source: Vec<u8>,
    source_before: Vec<u8>,
    library: Vec<u8>,
    expert: Vec<u8>,
    before: Vec<u8>,
}

impl Both {
    pub fn new(seed: u64, called: Library) -> Self {
        Both {
            called,
            random: Random::new(seed),
            source: Vec::new(),
            source_before: Vec::new(),
            library: Vec::new(),
            expert: Vec::new(),
            before: Vec::new(),
        }
    }

    /// The first bytes of the output of the call before.
    pub fn output(&self, len: usize) -> &[u8] {
        &self.library[GUARD..GUARD + len]
    }

    pub fn read(&mut self, text: &[u8], room: usize) -> Result<[u64; 7], Difference> {
        let written = |answer: &[u64; 7]| 20 * answer[4] as usize;
        self.run(Call::Read, text, room, expert::read, written)
            .map_err(|what| Difference {
                what: format!("reading into {room} bytes: {what}"),
                input: shown(text),
            })
    }

    pub fn write(
        &mut self,
        version: u32,
        start: u64,
        first: u64,
        records: &[u8],
        room: usize,
    ) -> Result<[u64; 3], Difference> {
        let call = Call::Write {
            version,
            start,
            first,
        };
        self.run(
            call,
            records,
            room,
            |records, out| expert::write(version, start, first, records, out),
            |answer| answer[2] as usize,
        )
        .map_err(|what| Difference {
            what: format!(
                "writing version {version}, start {start}, first {first} into {room} bytes: {what}"
            ),
            input: shown(records),
        })
    }

    pub fn export(
        &mut self,
        start: u64,
        channel: u64,
        records: &[u8],
        room: usize,
    ) -> Result<[u64; 5], Difference> {
        self.run(
            Call::Export { start, channel },
            records,
            room,
            |records, out| expert::export(start, channel, records, out),
            |answer| answer[2] as usize,
        )
        .map_err(|what| Difference {
            what: format!("exporting start {start}, channel {channel} into {room} bytes: {what}"),
            input: shown(records),
        })
    }

    pub fn unpack(&mut self, record: &[u8]) -> Result<[u64; 10], Difference> {
        let expert = |record: &[u8], _: &mut [u8]| expert::unpack(record);
        self.run(Call::Unpack, record, 0, expert, |_| 0)
            .map_err(|what| Difference {
                what: format!("unpacking: {what}"),
                input: shown(record),
            })
    }

    pub fn pack(&mut self, fields: &Marked, room: usize) -> Result<[u64; 2], Difference> {
        let expert = |_: &[u8], out: &mut [u8]| expert::pack(fields, out);
        self.run(Call::Pack, &bytes_of(fields), room, expert, |_| 20)
            .map_err(|what| Difference {
                what: format!("packing into {room} bytes: {what}"),
                input: format!("{fields:?}"),
            })
    }

    pub fn explain(
        &mut self,
        line: &[u8],
        version: u32,
        number: u64,
    ) -> Result<[u64; 4], Difference> {
        let expert = |line: &[u8], _: &mut [u8]| expert::explain(line, version, number);
        self.run(Call::Explain { version, number }, line, 0, expert, |_| 0)
            .map_err(|what| Difference {
                what: format!("explaining version {version}, number {number}: {what}"),
                input: shown(line),
            })
    }

    pub fn read_ascii(&mut self, text: &[u8], room: usize) -> Result<[u64; 4], Difference> {
        let written = |answer: &[u64; 4]| RECORD * answer[3] as usize;
        self.run(Call::ReadAscii, text, room, expert::read_ascii, written)
            .map_err(|what| Difference {
                what: format!("reading ASCII into {room} bytes: {what}"),
                input: shown(text),
            })
    }

    /// Both calls. `written` gives the bytes that an accepted call has written, by its answer.
    fn run<const N: usize>(
        &mut self,
        call: Call,
        input: &[u8],
        room: usize,
        expert: impl Fn(&[u8], &mut [u8]) -> [u64; N],
        written: impl Fn(&[u64; N]) -> usize,
    ) -> Result<[u64; N], String> {
        self.prepare(input, room);
        let (source, out) = (GUARD..GUARD + input.len(), GUARD..GUARD + room);
        let lent = |bytes, lent: &Range<usize>| Area {
            bytes,
            lent: lent.clone(),
        };
        let (answer, _) = self.called.call(
            call,
            lent(&mut self.source, &source),
            lent(&mut self.library, &out),
            self.random.number(),
        )?;
        if *black_box(&mut self.source) != self.source_before {
            return Err("the library changed its input".to_string());
        }
        let expected = expert(&self.source[source], &mut self.expert[out.clone()]);
        if answer != expected {
            return Err(format!("library {answer:?}, expert {expected:?}"));
        }
        let written = match answer[0] {
            0 => written(&answer),
            _ => 0,
        };
        self.judge(out, written).map(|()| answer)
    }

    /// Fresh buffers: the input between guards, and two equal outputs full of noise.
    fn prepare(&mut self, input: &[u8], room: usize) {
        let random = &mut self.random;
        self.source.clear();
        noise(random, &mut self.source, GUARD);
        self.source.extend(input);
        if random.once_in(2) {
            // What a reader that goes on past the end would like to find there.
            self.source.extend(random.pick(&[b"\n", b"0", b" ", b"\r"]));
            self.source.extend(random.pick(&BEYOND));
        }
        noise(random, &mut self.source, GUARD);
        self.source_before.clone_from(&self.source);
        self.before.clear();
        noise(random, &mut self.before, room + 2 * GUARD);
        self.library.clone_from(&self.before);
        self.expert.clone_from(&self.before);
    }

    /// The outputs must be equal, and unchanged but for what was written.
    fn judge(&self, out: Range<usize>, written: usize) -> Result<(), String> {
        if written > out.len() {
            return Err(format!("{written} bytes written into {}", out.len()));
        }
        let end = out.start + written;
        if self.library[..out.start] != self.before[..out.start] {
            return Err("the library changed bytes before the output".to_string());
        }
        if self.library[end..] != self.before[end..] {
            return Err("the library changed bytes past those written".to_string());
        }
        if self.expert[..out.start] != self.before[..out.start] {
            return Err("the expert changed bytes before the output".to_string());
        }
        if self.expert[end..] != self.before[end..] {
            return Err("the expert changed bytes past those written".to_string());
        }
        let (library, expert) = (&self.library[out.clone()], &self.expert[out]);
        match library.iter().zip(expert).position(|(a, b)| a != b) {
            None => Ok(()),
            Some(at) => Err(format!(
                "byte {at} of the output: library {}, expert {}",
                shown(&library[at..written]),
                shown(&expert[at..written])
            )),
        }
    }
}

fn noise(random: &mut Random, bytes: &mut Vec<u8>, len: usize) {
    let end = bytes.len() + len;
    while bytes.len() < end {
        bytes.extend(random.number().to_ne_bytes());
    }
    bytes.truncate(end);
}
