//! One input at random, of any kind.

use super::ascii::one_text;
use super::marks::one_of_marks;
use super::runs::Runs;
use super::Checked;
use crate::inputs::channels::any_channel;
use crate::inputs::damage::{damage, damage_records};
use crate::inputs::numbers::any_first;
use crate::inputs::random::Random;
use crate::inputs::records::{changed, marked, packed, packed_all, record, Fields};
use crate::inputs::spelling::Spelled;
use crate::inputs::{noise, LAST_START};

/// Of a hundred inputs, those that are texts of Telemotive ASCII, and those that are about marks.
const ASCII: usize = 35;
const MARKS: usize = 22;
/// Single records come so many at a time.
pub const RECORDS: usize = 8;
/// Each list of records is exported so many times, with any channel.
const CHANNELS: usize = 3;

/// The versions of records that are exported together: all on bus 0, none on it, and any.
pub const VERSIONS: [&[u64]; 3] = [&[11], &[12], &[11, 12]];

pub fn one_input(runs: &mut Runs) -> Checked {
    let of_hundred = runs.random.below(100);
    if of_hundred < ASCII {
        return one_text(runs);
    }
    if of_hundred < ASCII + MARKS {
        return one_of_marks(runs);
    }
    match runs.random.below(20) {
        0..=5 => spelled(runs),
        6..=11 => damaged(runs),
        12 => read(runs, "read: noise", noise::bytes),
        13 => read(runs, "read: noise of a trace's bytes", noise::letters),
        14 => read(runs, "read: noise of a row's words", noise::words),
        15 => write(runs),
        16 => export(runs),
        17 => (0..RECORDS).try_for_each(|_| unpack(runs)),
        _ => (0..RECORDS).try_for_each(|_| pack(runs)),
    }
}

fn spelled(runs: &mut Runs) -> Checked {
    let spelled = trace(&mut runs.random);
    let kind = match spelled.wrong {
        None => "read: good trace",
        Some(_) => "read: trace with a wrong row",
    };
    let known = (spelled.answer(), &*spelled.records());
    runs.read(kind, &spelled.text, Some(known))?;
    Ok(())
}

fn damaged(runs: &mut Runs) -> Checked {
    let mut text = trace(&mut runs.random).text;
    damage(&mut runs.random, &mut text);
    runs.read("read: damaged trace", &text, None)?;
    Ok(())
}

fn trace(random: &mut Random) -> Spelled {
    let most_rows = match random.below(1000) {
        0 => 3000,
        1..=50 => 100,
        _ => 9,
    };
    Spelled::new(random, most_rows)
}

fn read(runs: &mut Runs, kind: &'static str, make: fn(&mut Random) -> Vec<u8>) -> Checked {
    let text = make(&mut runs.random);
    runs.read(kind, &text, None)?;
    Ok(())
}

fn write(runs: &mut Runs) -> Checked {
    let random = &mut runs.random;
    let version = random.pick(&[11, 12]);
    let (good, records) = list(random, &[u64::from(version)]);
    let kind = if good {
        "write: good records"
    } else {
        "write: other records"
    };
    let version = match random.below(10) {
        0 => random.pick(&[0, 1, 2, 10, 13, 20, 21, 256 + 11, u32::MAX, 23 - version]),
        _ => version,
    };
    let start = start(random);
    let first = any_first(random, records.len() / 20);
    runs.write(kind, version, start, first, &records)?;
    Ok(())
}

fn export(runs: &mut Runs) -> Checked {
    let random = &mut runs.random;
    let versions = random.pick(&VERSIONS);
    let (good, records) = list(random, versions);
    let kind = if good {
        "export: good records"
    } else {
        "export: other records"
    };
    let start = start(random);
    for _ in 0..CHANNELS {
        let channel = any_channel(&mut runs.random);
        runs.export(kind, start, channel, &records, good)?;
    }
    Ok(())
}

/// Packed records, and whether each is good for one of the versions.
fn list(random: &mut Random, versions: &[u64]) -> (bool, Vec<u8>) {
    let most = random.pick(&[3, 3, 10, 10, 50]);
    let count = random.below(most);
    let mut rows: Vec<_> = (0..count).map(|_| of_version(random, versions)).collect();
    let mut records = packed_all(&rows);
    match random.below(6) {
        0..=2 => return (true, records),
        3 => damage_records(random, &mut records),
        4 => {
            let version = random.pick(versions);
            rows.extend([23 - version, version].map(|version| record(random, version)));
            records = packed_all(&rows);
            if random.once_in(2) {
                damage_records(random, &mut records);
            }
        }
        _ => records = (0..20 * count).map(|_| random.byte()).collect(),
    }
    (false, records)
}

/// A record that one of the versions can carry.
pub fn of_version(random: &mut Random, versions: &[u64]) -> Fields {
    let version = random.pick(versions);
    record(random, version)
}

/// Any start, at times one past the last.
fn start(random: &mut Random) -> u64 {
    let any = random.number() % (LAST_START + 1);
    let past = random.pick(&[LAST_START + 1, u64::MAX, 1 << 63, 1 << 43]);
    random.pick(&[any, any, any, any, any, any, 0, LAST_START, past])
}

fn unpack(runs: &mut Runs) -> Checked {
    let random = &mut runs.random;
    let version = random.pick(&[11, 12]);
    let fields = marked(&record(random, version), random.pick(&[0, 1]));
    let mut record = packed(&fields).to_vec();
    let mut kind = "unpack: other record";
    match random.below(5) {
        0 => kind = "unpack: good record",
        1 | 2 => {
            let bit = random.below(160);
            record[bit / 8] ^= 1 << (bit % 8);
        }
        3 => record.fill_with(|| random.byte()),
        _ => record.resize(random.pick(&[0, 1, 19, 20, 21, 40]), 0),
    }
    runs.unpack(kind, &record)?;
    Ok(())
}

fn pack(runs: &mut Runs) -> Checked {
    let random = &mut runs.random;
    let version = random.pick(&[11, 12]);
    let mut fields = marked(&record(random, version), random.pick(&[0, 1]));
    let mut kind = "pack: good fields";
    if !random.once_in(3) {
        kind = "pack: other fields";
        for _ in 0..random.pick(&[1, 1, 1, 2, 7]) {
            fields = changed(random, fields);
        }
    }
    runs.pack(kind, &fields)?;
    Ok(())
}
