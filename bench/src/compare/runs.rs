//! One input, with all that follows from it: other room for the output, and the way there and back.

use super::both::Both;
use super::tally::Tally;
use super::{shown, Difference};
use crate::inputs::ascii::LEAST;
use crate::inputs::channels::{any_channel, exported, good_channel, refused, Exported};
use crate::inputs::marks::{first_mark, marks_are_true, turned};
use crate::inputs::numbers::good_first;
use crate::inputs::random::Random;
use crate::inputs::records::{packed, Marked};
use crate::inputs::{LAST_CHANNEL, LAST_NUMBER};
use crate::library::Library;
use bushingowl::{explain_refusal, Reason, Refused, RowFault};
use bushingowl::{CHANNEL_AS_BUS, LEAST_ROW, MOST_HEADER, MOST_LINE, MOST_ROW, RECORD};

pub struct Runs {
    pub random: Random,
    pub tally: Tally,
    both: Both,
}

impl Runs {
    pub fn new(seed: u64, library: Library) -> Self {
        Runs {
            random: Random::new(seed),
            tally: Tally::default(),
            both: Both::new(!seed, library),
        }
    }

    /// Reads a text. What must come of it may be known: the answer and the records.
    pub fn read(
        &mut self,
        kind: &'static str,
        text: &[u8],
        known: Option<([u64; 7], &[u8])>,
    ) -> Result<[u64; 7], Difference> {
        let most = (text.len() / LEAST_ROW + 1) * RECORD;
        let answer = self.both.read(text, most)?;
        self.tally.count(kind, answer[0]);
        let [number, place, _, start, rows, step_back, _] = answer;
        let exact = rows as usize * RECORD;
        let records = self.both.output(exact).to_vec();
        if known.is_some_and(|(known, bytes)| known != answer || bytes != records) {
            return Err(self.wrong("not what the text spells", text));
        }
        if number == 7 {
            self.explain_refused(text, place)?;
        }
        let room = self.other_room(exact);
        let again = self.both.read(text, room)?;
        self.tally.count("read into other room", again[0]);
        if number == 0 {
            if step_back != first_mark(&records) {
                return Err(self.wrong("the first step back is not the first mark", text));
            }
            self.judge_marks(text, start, &records)?;
            self.there_and_back(&records, answer)?;
        }
        Ok(answer)
    }

    /// What was read has true marks. With one of them turned it is neither written nor exported: 23 names its record.
    fn judge_marks(&mut self, text: &[u8], start: u64, records: &[u8]) -> Result<(), Difference> {
        if !marks_are_true(records) {
            return Err(self.wrong("a mark is false", text));
        }
        let rows = records.len() / RECORD;
        if rows == 0 {
            return Ok(());
        }
        let random = &mut self.random;
        let (version, first, at) = (
            random.pick(&[11, 12]),
            good_first(random, rows),
            random.below(rows),
        );
        let (list, place, channel) = (turned(records, at), at as u64 + 1, good_channel(random));
        let written = self.both.write(version, start, first, &list, MOST_HEADER)?;
        self.tally.count("written with a mark turned", written[0]);
        if written != [23, place, 0] {
            let what = format!("{written:?} with the mark of record {place} turned");
            return Err(self.wrong(&what, &list));
        }
        let (kind, known) = ("exported with a mark turned", [23, place, 0, 0, 0]);
        self.export_into(kind, start, channel, &list, MOST_LINE, &(known, Vec::new()))
    }

    /// What was read must be written with its first number, and then read as the same. It can be exported, too, with any channel.
    fn there_and_back(&mut self, records: &[u8], answer: [u64; 7]) -> Result<(), Difference> {
        let [_, _, version, start, _, _, first] = answer;
        let most = MOST_HEADER + records.len() / RECORD * MOST_ROW;
        let version = version as u32;
        let written = self.both.write(version, start, first, records, most)?;
        self.tally.count("written after reading", written[0]);
        let text = self.both.output(written[2] as usize).to_vec();
        let again = self.both.read(&text, records.len())?;
        self.tally.count("read after writing", again[0]);
        if again != answer || self.both.output(records.len()) != records {
            return Err(self.wrong("what was written is not read as the same", &text));
        }
        let (kind, channel) = ("exported after reading", any_channel(&mut self.random));
        let most = records.len() / RECORD * MOST_LINE;
        let known = exported(start, channel, records);
        self.export_into(kind, start, channel, records, most, &known)
    }

    pub fn write(
        &mut self,
        kind: &'static str,
        version: u32,
        start: u64,
        first: u64,
        records: &[u8],
    ) -> Result<[u64; 3], Difference> {
        let most = MOST_HEADER + (records.len() / RECORD + 1) * MOST_ROW;
        let answer = self.both.write(version, start, first, records, most)?;
        self.tally.count(kind, answer[0]);
        let exact = answer[2] as usize;
        let text = self.both.output(exact).to_vec();
        let room = self.other_room(exact);
        let again = self.both.write(version, start, first, records, room)?;
        self.tally.count("written into other room", again[0]);
        let expected = if room < exact { [25, 0, 0] } else { answer };
        if again != expected {
            return Err(self.wrong(&format!("{again:?} with a room of {room}"), records));
        }
        if answer[0] == 0 {
            let read = self.both.read(&text, records.len())?;
            self.tally.count("read after writing", read[0]);
            let (version, rows) = (u64::from(version), (records.len() / RECORD) as u64);
            let known = [0, 0, version, start, rows, first_mark(records), first];
            if read != known || self.both.output(records.len()) != records {
                return Err(self.wrong("what was written is not read as the same", &text));
            }
        }
        Ok(answer)
    }

    /// Exports records, and gives the answer and the lines. Of good records it is known that all are well formed.
    pub fn export(
        &mut self,
        kind: &'static str,
        start: u64,
        channel: u64,
        records: &[u8],
        good: bool,
    ) -> Result<Exported, Difference> {
        let most = (records.len() / RECORD + 1) * MOST_LINE;
        let answer = self.both.export(start, channel, records, most)?;
        let known = match answer[0] {
            23 if !good && refused(start, channel, records.len()).is_none() => (answer, Vec::new()),
            _ => exported(start, channel, records),
        };
        self.judge_export(kind, channel, records, answer, &known)?;
        let room = self.other_room(known.1.len());
        let kind = "exported into other room";
        self.export_into(kind, start, channel, records, room, &known)?;
        Ok(known)
    }

    /// Exports records into some room. What must come of it is known: the answer and the lines, if there is room for them.
    pub fn export_into(
        &mut self,
        kind: &'static str,
        start: u64,
        channel: u64,
        records: &[u8],
        room: usize,
        known: &Exported,
    ) -> Result<(), Difference> {
        let answer = self.both.export(start, channel, records, room)?;
        match room < known.1.len() {
            true => {
                let short = ([25, 0, 0, 0, 0], Vec::new());
                self.judge_export(kind, channel, records, answer, &short)
            }
            false => self.judge_export(kind, channel, records, answer, known),
        }
    }

    /// The export just made must have given what is known.
    fn judge_export(
        &mut self,
        kind: &'static str,
        channel: u64,
        records: &[u8],
        answer: [u64; 5],
        known: &Exported,
    ) -> Result<(), Difference> {
        self.tally.count_export(kind, answer[0]);
        if answer == known.0 && self.both.output(known.1.len()) == known.1 {
            return Ok(());
        }
        let what = format!("with channel {channel} {answer:?}, or other lines");
        Err(self.wrong(&format!("{what}; {:?} is known", known.0), records))
    }

    /// Reads Telemotive ASCII. What must come of it may be known: the answer and the records.
    pub fn read_ascii(
        &mut self,
        kind: &'static str,
        text: &[u8],
        known: Option<&([u64; 4], Vec<u8>)>,
    ) -> Result<[u64; 4], Difference> {
        let most = (text.len() / LEAST + 1) * RECORD;
        let answer = self.both.read_ascii(text, most)?;
        self.tally.count_ascii(kind, answer[0]);
        let exact = answer[3] as usize * RECORD;
        let records = self.both.output(exact).to_vec();
        if known.is_some_and(|(known, bytes)| *known != answer || *bytes != records) {
            return Err(self.wrong(&format!("{answer:?} is not what the lines say"), text));
        }
        let room = self.other_room(exact);
        let again = self.both.read_ascii(text, room)?;
        self.tally
            .count_ascii("ascii: read into other room", again[0]);
        let expected = if room < exact { [8, 0, 0, 0] } else { answer };
        if again != expected || !records.starts_with(self.both.output(again[3] as usize * RECORD)) {
            return Err(self.wrong(&format!("{again:?} with a room of {room}"), text));
        }
        if answer[0] == 0 {
            self.judge_marks(text, answer[2], &records)?;
            self.exported_and_back(text, &records, answer)?;
        }
        Ok(answer)
    }

    /// What was read must be exported as the same lines in house spelling, and those must be read as the same. With another channel than 0 for
    /// bus 0 they have that one in place of 0, and so has what is read.
    fn exported_and_back(
        &mut self,
        text: &[u8],
        records: &[u8],
        answer: [u64; 4],
    ) -> Result<(), Difference> {
        let [_, _, start, lines] = answer;
        let other = self.random.between(1, LAST_CHANNEL as usize) as u64;
        for channel in [CHANNEL_AS_BUS, other] {
            let kind = "exported after reading ASCII";
            let house = house_spelling(text, channel);
            let room = house.len();
            let known = ([0, 0, room as u64, lines, 0], house);
            self.export_into(kind, start, channel, records, room, &known)?;
            let again = self.both.read_ascii(&known.1, records.len())?;
            self.tally
                .count_ascii("ascii: read after exporting", again[0]);
            if again != answer || self.both.output(records.len()) != on_bus(records, channel) {
                return Err(self.wrong("what was exported is not read as the same", &known.1));
            }
        }
        Ok(())
    }

    pub fn unpack(&mut self, kind: &'static str, record: &[u8]) -> Result<[u64; 10], Difference> {
        let answer = self.both.unpack(record)?;
        self.tally.count(kind, answer[0]);
        if let [0, 0, fields @ ..] = answer {
            let again = self.both.pack(&fields, RECORD)?;
            self.tally.count("packed after unpacking", again[0]);
            if again != [0, 0] || self.both.output(RECORD) != record {
                return Err(self.wrong("what was unpacked is not packed as the same", record));
            }
        }
        Ok(answer)
    }

    pub fn pack(&mut self, kind: &'static str, fields: &Marked) -> Result<[u64; 2], Difference> {
        let room = self.random.pick(&[RECORD, RECORD, RECORD, 0, 19, 21, 100]);
        let answer = self.both.pack(fields, room)?;
        self.tally.count(kind, answer[0]);
        if answer[0] == 25 && room >= RECORD {
            return Err(self.wrong(&format!("{fields:?} has room"), &[]));
        }
        if answer[0] == 0 {
            let record = self.both.output(RECORD).to_vec();
            if record != packed(fields) {
                return Err(self.wrong(&format!("{fields:?} is packed as other bits"), &record));
            }
            let again = self.both.unpack(&record)?;
            self.tally.count("unpacked after packing", again[0]);
            if again[2..] != *fields {
                return Err(self.wrong("what was packed is not unpacked as the same", &record));
            }
        }
        Ok(answer)
    }

    /// Explains a line as the row with a number. What must come of it may be known.
    pub fn explain(
        &mut self,
        kind: &'static str,
        line: &[u8],
        version: u32,
        number: u64,
        known: Option<[u64; 4]>,
    ) -> Result<[u64; 4], Difference> {
        let answer = self.both.explain(line, version, number)?;
        self.tally.count(kind, answer[0]);
        if known.is_some_and(|known| known != answer) {
            return Err(self.wrong(&format!("{answer:?} is not what is wrong"), line));
        }
        if let [0, 0, reason, field] = answer {
            self.tally.explained(reason, field);
            self.beginnings(line, version, number, reason, field)?;
        }
        Ok(answer)
    }

    /// The fields before the wrong one must be a row or have ended early, and with it they must be wrong there. All fields of a line
    /// that ended early are good, and so are all but the last.
    fn beginnings(
        &mut self,
        line: &[u8],
        version: u32,
        number: u64,
        reason: u64,
        field: u64,
    ) -> Result<(), Difference> {
        let fields: Vec<&[u8]> = line
            .split(|&b| b == b' ')
            .filter(|f| !f.is_empty())
            .collect();
        // With a blank first, none of these is a comment.
        let first = |count: u64| [b" ", &*fields[..count as usize].join(&b' ')].concat();
        match reason {
            1 if (1..=fields.len() as u64).contains(&field) => {
                let again = self.both.explain(&first(field), version, number)?;
                self.tally.count("explain: up to the wrong field", again[0]);
                if again != [0, 0, 1, field] {
                    return Err(self.wrong("other fields behind it change the answer", line));
                }
            }
            2 if field == fields.len() as u64 => {}
            _ => return Err(self.wrong("the line has no such field", line)),
        }
        if field > 0 {
            let before = self.both.explain(&first(field - 1), version, number)?;
            self.tally
                .count("explain: up to the field before", before[0]);
            if before != [0, 0, 2, field - 1] && before != [30, 0, 0, 0] {
                return Err(self.wrong("the fields before are not good", line));
            }
        }
        Ok(())
    }

    /// Explains the line at which a text was refused with 7: as the row that follows the last one before it, or as a first row. It can't be
    /// refused, unless it follows the last row that there may be. The crate, which finds line, version and number itself, must say the same.
    fn explain_refused(&mut self, text: &[u8], place: u64) -> Result<(), Difference> {
        let mut lines = text.split(|&b| b == b'\n');
        let first = lines.next().unwrap_or_default().trim_ascii_end();
        let version = if first.ends_with(b"1.1") { 11 } else { 12 };
        let before = lines.by_ref().take(place as usize - 2).skip(1);
        let mut rows = before.filter(|line| line[0] != b';');
        let number = match rows.next() {
            None => 0,
            Some(row) => number_of(row) + 1 + rows.count() as u64,
        };
        let line = lines.next().and_then(|line| line.strip_suffix(b"\r"));
        let line = line.unwrap_or_default();
        let kind = "explain: line refused with 7";
        let answer = self.explain(kind, line, version, number, None)?;
        if (answer[0] == 0) != (number <= LAST_NUMBER) {
            return Err(self.wrong("a line that was refused with 7 is not explained", text));
        }
        let reason = Reason::NoRow;
        let said = explain_refusal(text, Refused { reason, place });
        let said = said.map(|said| (said.line, said.version, said.number, numbers(&said.fault)));
        match said == Some((place, version, number, answer)) {
            true => Ok(()),
            false => Err(self.wrong(&format!("{answer:?} is not what the crate says"), text)),
        }
    }

    /// Room for an output of known length: just enough, one short, none, or more.
    fn other_room(&mut self, exact: usize) -> usize {
        let more = exact + self.random.between(1, 100);
        self.random
            .pick(&[exact, exact, exact.saturating_sub(1), 0, more])
    }

    fn wrong(&self, what: &str, input: &[u8]) -> Difference {
        Difference {
            what: format!("library and expert agree, but: {what}"),
            input: shown(input),
        }
    }
}

/// Lines with one blank between two parts, small hexadecimal letters, which stand behind the direction only, CR LF, and another channel for 0.
fn house_spelling(text: &[u8], channel: u64) -> Vec<u8> {
    let channel = format!("#{channel}");
    let mut house = Vec::with_capacity(text.len());
    for line in text.split_inclusive(|&byte| byte == b'\n') {
        let mut small = false;
        let parts = line.split(|byte| b" \r\n".contains(byte));
        for part in parts.filter(|part| !part.is_empty()) {
            match part {
                b"#0" => house.extend(channel.as_bytes()),
                _ if small => house.extend(part.to_ascii_lowercase()),
                _ => house.extend(part),
            }
            house.push(b' ');
            small |= matches!(part, b"Rx" | b"Tx");
        }
        house.pop();
        house.extend(b"\r\n");
    }
    house
}

/// Records with another bus for 0. The bus is the first five bits behind the offset.
fn on_bus(records: &[u8], bus: u64) -> Vec<u8> {
    let mut records = records.to_vec();
    for record in records.chunks_mut(RECORD) {
        if record[6] >> 3 == 0 {
            record[6] |= (bus as u8) << 3;
        }
    }
    records
}

/// The number of a row.
fn number_of(row: &[u8]) -> u64 {
    let digits = row.trim_ascii_start().iter();
    let digits = digits.take_while(|byte| byte.is_ascii_digit());
    digits.fold(0, |number, digit| number * 10 + u64::from(digit - b'0'))
}

/// The numbers of what the crate says of a line.
fn numbers(fault: &RowFault) -> [u64; 4] {
    match *fault {
        RowFault::WrongField { field, .. } => [0, 0, 1, field],
        RowFault::EndedEarly { field, .. } => [0, 0, 2, field],
        RowFault::NoNumberLeft => [30, 0, 0, 0],
    }
}
