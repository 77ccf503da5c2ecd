//! The library as WebAssembly, called by `wasm/serve.mjs`, which node runs. That file says what goes over the pipes.

use crate::boundary::AROUND;
use crate::library::{bytes_of, Answered, Area, Call, CHANGED_AROUND};
use std::io::{self, Read, Write};
use std::process::{Child, Command, Stdio};
use std::time::Duration;

/// The bytes of the numbers that a frame begins with, and of those among them that do not come back.
const HEAD: usize = 11 * 8;
const KEPT: usize = 10 * 8;

pub struct Served {
    child: Child,
    frame: Vec<u8>,
}

impl Served {
    /// Starts node with that file and a library as WebAssembly.
    pub fn start(serve: &str, library: &str) -> Result<Served, String> {
        let mut command = Command::new("node");
        command.args([serve, library]);
        command.stdin(Stdio::piped()).stdout(Stdio::piped());
        let child = command
            .spawn()
            .map_err(|error| format!("node can't be started: {error}"))?;
        let frame = Vec::new();
        Ok(Served { child, frame })
    }

    pub fn call<const N: usize>(
        &mut self,
        call: Call,
        input: Area,
        out: Area,
        before: u64,
    ) -> Answered<N> {
        self.lay_out(call, &input, &out, N, before);
        self.exchange()
            .map_err(|error| format!("the process that calls the library has failed: {error}"))?;
        let (numbers, areas) = self.frame[HEAD..].split_at(8 * (AROUND + N + AROUND));
        let (input_after, out_after) = areas.split_at(input.bytes.len());
        input.bytes.copy_from_slice(input_after);
        out.bytes.copy_from_slice(out_after);
        let numbers: Vec<u64> = numbers_of(numbers).collect();
        let (left, rest) = numbers.split_at(AROUND);
        let (answer, right) = rest.split_at(N);
        if left.iter().chain(right).any(|&number| number != before) {
            return Err(CHANGED_AROUND.to_string());
        }
        let took = numbers_of(&self.frame[KEPT..HEAD]).sum();
        let answer = answer.try_into().expect("as many numbers");
        Ok((answer, Duration::from_nanos(took)))
    }

    /// Makes the frame of a call that answers with so many numbers.
    fn lay_out(&mut self, call: Call, input: &Area, out: &Area, answer: usize, before: u64) {
        let answer_at = HEAD + 8 * AROUND;
        let input_at = answer_at + 8 * (answer + AROUND);
        let out_at = input_at + input.bytes.len();
        let places = [
            out_at + out.bytes.len(),
            answer_at,
            input_at + input.lent.start,
            input.lent.len(),
            out_at + out.lent.start,
            out.lent.len(),
        ];
        self.frame.clear();
        self.add(&given(call));
        self.add(&places.map(|place| place as u64));
        self.add(&[0]);
        self.add(&vec![before; AROUND + answer + AROUND]);
        self.frame.extend_from_slice(input.bytes);
        self.frame.extend_from_slice(out.bytes);
    }

    fn add(&mut self, numbers: &[u64]) {
        self.frame.extend(bytes_of(numbers));
    }

    /// Sends the frame, and receives what comes back of it.
    fn exchange(&mut self) -> io::Result<()> {
        let (to, from) = (self.child.stdin.as_mut(), self.child.stdout.as_mut());
        to.expect("it is kept").write_all(&self.frame)?;
        from.expect("it is kept")
            .read_exact(&mut self.frame[KEPT..])
    }
}

impl Drop for Served {
    /// It ends where nothing more comes. A failure was told by the call that met it.
    fn drop(&mut self) {
        let _ = self.child.wait();
    }
}

/// The function of a call, and the three numbers that it is given.
fn given(call: Call) -> [u64; 4] {
    match call {
        Call::Read => [0, 0, 0, 0],
        Call::Write {
            version,
            start,
            first,
        } => [1, u64::from(version), start, first],
        Call::Export { start, channel } => [2, start, channel, 0],
        Call::ReadAscii => [3, 0, 0, 0],
        Call::Unpack => [4, 0, 0, 0],
        Call::Pack => [5, 0, 0, 0],
        Call::Explain { version, number } => [6, u64::from(version), number, 0],
    }
}

fn numbers_of(bytes: &[u8]) -> impl Iterator<Item = u64> + '_ {
    bytes
        .chunks(8)
        .map(|bytes| u64::from_le_bytes(bytes.try_into().expect("eight bytes a number")))
}
