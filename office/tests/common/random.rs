//! Random traces, most of them good, the same ones in every run.

pub struct Random(pub u64);

impl Random {
    /// Marsaglia's xorshift, with the constants of his paper.
    fn next(&mut self) -> u64 {
        self.0 ^= self.0 << 13;
        self.0 ^= self.0 >> 7;
        self.0 ^= self.0 << 17;
        self.0
    }

    pub fn below(&mut self, end: u64) -> u64 {
        self.next() % end
    }

    pub fn one_of<'a, T: ?Sized>(&mut self, these: &[&'a T]) -> &'a T {
        these[self.below(these.len() as u64) as usize]
    }

    fn once_in(&mut self, times: u64) -> bool {
        self.below(times) == 0
    }

    fn blanks(&mut self, least: u64) -> String {
        let more = self.below(3) * self.below(2);
        " ".repeat((least + more) as usize)
    }

    fn hex(&mut self, digits: usize, end: u64) -> String {
        let number = self.below(end);
        match self.once_in(2) {
            true => format!("{number:0digits$X}"),
            false => format!("{number:0digits$x}"),
        }
    }

    fn bytes(&mut self, count: u64) -> Vec<String> {
        (0..count).map(|_| self.hex(2, 0x100)).collect()
    }

    fn frame(&mut self) -> Vec<String> {
        let id = match self.once_in(2) {
            true => self.hex(4, 0x800),
            false => self.hex(8, 0x2000_0000),
        };
        let length = self.below(9);
        let data = match self.once_in(6) {
            true => vec!["RTR".to_string()],
            false => self.bytes(length),
        };
        let kind = self.one_of(&["Rx", "Tx"]).to_string();
        [vec![kind, id, length.to_string()], data].concat()
    }

    fn warning(&mut self) -> Vec<String> {
        let id = self.one_of(&["FFFFFFFF", "ffFFffff"]);
        let mut fields: Vec<String> = ["Warng", id, "4"].map(String::from).to_vec();
        fields.extend(self.bytes(4));
        fields.extend((0..self.below(3)).map(|_| "BUSLIGHT".to_string()));
        fields
    }

    fn error_frame(&mut self) -> Vec<String> {
        let id = self.one_of(&["0001", "0002", "0004", "0008"]);
        let position = self.one_of(&["02", "0f", "11", "12", "13", "17", "1C"]);
        let mut fields: Vec<String> = ["Error", id, "4", "01", position]
            .map(String::from)
            .to_vec();
        fields.extend(self.bytes(2));
        fields
    }

    fn row(&mut self, version: u64, number: u64, offset: u64) -> String {
        let mut fields = vec![format!("{number})")];
        if version == 11 {
            fields.push(format!("{}.{}", offset / 10, offset % 10));
        } else {
            fields.push(format!("{}.{:03}", offset / 1000, offset % 1000));
            fields.push((1 + self.below(16)).to_string());
        }
        fields.extend(match self.below(8) {
            0 => self.warning(),
            1 => self.error_frame(),
            _ => self.frame(),
        });
        let mut row = self.blanks(0);
        for field in fields {
            row += &field;
            row += &self.blanks(1);
        }
        row + "\r\n"
    }

    /// A good trace.
    pub fn trace(&mut self) -> Vec<u8> {
        let version = 11 + self.below(2);
        let (days, fraction) = (self.below(99_999), self.below(100_000));
        let mut text = format!(";{}$FILEVERSION=1.{}\r\n", self.blanks(0), version - 10);
        text += &format!(";{}$STARTTIME={days}.{fraction}\r\n", self.blanks(0));
        let rows = self.below(40);
        let first = match self.once_in(4) {
            true => 1 + self.below(999_960),
            false => 1,
        };
        let mut offset = 0;
        for number in first..first + rows {
            if self.once_in(8) {
                text += ";  a comment\r\n";
            }
            offset = match self.once_in(10) {
                true => offset / 2,
                false => offset + self.below(1_000_000_000),
            };
            text += &self.row(version, number, offset);
        }
        text.into_bytes()
    }

    /// Good bytes with something wrong, though by chance they may still be good.
    pub fn damage(&mut self, mut bytes: Vec<u8>) -> Vec<u8> {
        let at = self.below(bytes.len().max(1) as u64) as usize;
        let other = *self.one_of(&[
            b" ", b"\n", b"\r", b"0", b"9", b";", b"$", b"x", b"\xFF", b")",
        ]);
        match self.below(6) {
            0 => bytes.insert(at, other[0]),
            1 => bytes.truncate(at),
            _ if bytes.is_empty() => {}
            2 => drop(bytes.remove(at)),
            3 => bytes[at] = other[0],
            4 => bytes[at] ^= 1 << self.below(8),
            _ => {
                let begin = bytes[..at].iter().rposition(|byte| *byte == b'\n');
                let line = bytes[begin.map_or(0, |end| end + 1)..].to_vec();
                let end = line.iter().position(|byte| *byte == b'\n');
                let line = line[..end.map_or(line.len(), |end| end + 1)].to_vec();
                bytes.splice(at..at, line);
            }
        }
        bytes
    }
}
