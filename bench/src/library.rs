//! The library as it is called here: the one that is linked, or one as WebAssembly in a process of its own.

use crate::boundary;
use crate::served::Served;
use bushingowl::numbers;
use std::hint::black_box;
use std::ops::Range;
use std::time::{Duration, Instant};

pub enum Library {
    Linked,
    Served(Served),
}

/// The answer of a call and how long it took, or what went wrong.
pub type Answered<const N: usize> = Result<([u64; N], Duration), String>;

pub const CHANGED_AROUND: &str = "the library changed numbers around its answer";

/// A call, but for its input and its output.
#[derive(Clone, Copy)]
pub enum Call {
    Read,
    Write {
        version: u32,
        start: u64,
        first: u64,
    },
    Export {
        start: u64,
        channel: u64,
    },
    ReadAscii,
    Unpack,
    /// Its input is the bytes of the fields.
    Pack,
    Explain {
        version: u32,
        number: u64,
    },
}

/// Bytes of which some are lent to a call, and the others may not be changed by it.
pub struct Area<'a> {
    pub bytes: &'a mut [u8],
    pub lent: Range<usize>,
}

impl<'a> Area<'a> {
    /// All of the bytes are lent.
    pub fn of(bytes: &'a mut [u8]) -> Self {
        let lent = 0..bytes.len();
        Area { bytes, lent }
    }
}

impl Library {
    /// What the first words of a command name: `--wasm SERVE LIBRARY`, which are taken off; or without them what is linked.
    pub fn named(words: &mut Vec<String>) -> Result<Library, String> {
        match words.as_slice() {
            [option, serve, library, ..] if option == "--wasm" => {
                let library = Library::wasm(serve, library)?;
                words.drain(..3);
                Ok(library)
            }
            _ => Ok(Library::Linked),
        }
    }

    /// A library as WebAssembly, in a process that has called nothing yet.
    pub fn wasm(serve: &str, library: &str) -> Result<Library, String> {
        Served::start(serve, library).map(Library::Served)
    }

    /// Does a call. The numbers of the answer, and those around it, are `before` first.
    pub fn call<const N: usize>(
        &mut self,
        call: Call,
        input: Area,
        out: Area,
        before: u64,
    ) -> Answered<N> {
        match self {
            Library::Linked => {
                let (input, out) = (&mut input.bytes[input.lent], &mut out.bytes[out.lent]);
                let (mut answer, begin) = ([before; N], Instant::now());
                let unchanged = linked(call, input, out, before, &mut answer);
                let took = begin.elapsed();
                unchanged.ok_or(CHANGED_AROUND)?;
                Ok((answer, took))
            }
            Library::Served(served) => served.call(call, input, out, before),
        }
    }
}

/// Nothing if numbers around the answer were changed.
fn linked(
    call: Call,
    input: &mut [u8],
    out: &mut [u8],
    before: u64,
    answer: &mut [u64],
) -> Option<()> {
    match call {
        Call::Read => answer.copy_from_slice(&numbers::read(input, out)),
        Call::Write {
            version,
            start,
            first,
        } => answer.copy_from_slice(&numbers::write(version, start, first, input, out)),
        Call::Export { start, channel } => {
            answer.copy_from_slice(&numbers::export(start, channel, input, out));
        }
        Call::ReadAscii => answer.copy_from_slice(&boundary::read_ascii(input, out, before)?),
        Call::Unpack => answer.copy_from_slice(&numbers::unpack(input)),
        Call::Pack => answer.copy_from_slice(&pack(input, out)),
        Call::Explain { version, number } => {
            answer.copy_from_slice(&boundary::explain(input, version, number, before)?);
        }
    }
    Some(())
}

fn pack(bytes: &mut [u8], out: &mut [u8]) -> [u64; 2] {
    let mut fields = [0; 8];
    for (field, bytes) in fields.iter_mut().zip(bytes.chunks(8)) {
        *field = u64::from_le_bytes(bytes.try_into().expect("eight bytes a field"));
    }
    let answer = numbers::pack(black_box(&fields), out);
    let after = black_box(&mut fields);
    bytes.copy_from_slice(&bytes_of(after));
    answer
}

/// Numbers as the input of a call.
pub fn bytes_of(numbers: &[u64]) -> Vec<u8> {
    numbers.iter().flat_map(|n| n.to_le_bytes()).collect()
}
