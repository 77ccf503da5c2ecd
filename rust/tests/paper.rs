//! The small trace, there and back.

use bushingowl::{
    export, export_to_vec, pack, read, read_to_vec, unpack, write, write_to_vec, Exported, Kind,
    Read, Record, CHANNEL_AS_BENCH,
};

const TEXT: &[u8] = b";$FILEVERSION=1.2\r\n\
    ;$STARTTIME=36585.5\r\n\
    1) 0.000 1 Rx 0123 2 0A FF\r\n\
    2) 1500.250 2 Tx 18AB0001 0\r\n\
    3) 1500.249 1 Rx 0124 3 RTR\r\n";
const WRITTEN: &[u8] = b";$FILEVERSION=1.2\r\n\
    ;$STARTTIME=36585.5000000000\r\n\
    1) 0.000 1 Rx 0123 2 0A FF\r\n\
    2) 1500.250 2 Tx 18AB0001 0\r\n\
    3) 1500.249 1 Rx 0124 3 RTR\r\n";
const LINES: &[u8] = b"29.02.2000 12:00:00.0000 CAN #1 | Rx 123 2 0a ff\r\n\
    29.02.2000 12:00:01.5002 CANExt #2 | EXTENDED Tx 18ab0001 0\r\n";
const START: u64 = 3_160_987_200_000;
const FIRST: [u8; 20] = [
    0, 0, 0, 0, 0, 0, 8, 0, 0, 4, 0x8C, 0x82, 0xBF, 0xC0, 0, 0, 0, 0, 0, 0,
];

const HELD: Read = Read {
    version: 12,
    start: START,
    rows: 3,
    step_back: Some(3),
    first: 1,
};
const GIVEN: Exported = Exported {
    bytes: LINES.len(),
    lines: 2,
    left_out: 1,
};

fn records() -> [u8; 60] {
    let mut records = [0; 60];
    read(TEXT, &mut records).unwrap();
    records
}

/// The output begins with these bytes, and behind them is what it was filled with.
fn assert_begins(out: &[u8], bytes: &[u8]) {
    let (begin, rest) = out.split_at(bytes.len());
    assert_eq!(begin, bytes);
    assert_eq!(rest, vec![0xEE; rest.len()]);
}

#[test]
fn it_is_read() {
    let mut out = [0xEE; 70];
    assert_eq!(read(TEXT, &mut out), Ok(HELD));
    assert_eq!(out[..20], FIRST);
    assert_begins(&out, &records());
    assert_eq!(read_to_vec(TEXT), Ok((HELD, records().to_vec())));
}

#[test]
fn it_is_written() {
    let mut out = [0xEE; 200];
    let bytes = write(12, START, 1, &records(), &mut out);
    assert_eq!(bytes, Ok(WRITTEN.len()));
    assert_begins(&out, WRITTEN);
    let text = write_to_vec(12, START, 1, &records());
    assert_eq!(text, Ok(WRITTEN.to_vec()));
}

#[test]
fn it_is_written_as_it_was_read() {
    let mut out = [0xEE; 200];
    let bytes = HELD.write(&records(), &mut out);
    assert_eq!(bytes, Ok(WRITTEN.len()));
    assert_begins(&out, WRITTEN);
    assert_eq!(HELD.write_to_vec(&records()), Ok(WRITTEN.to_vec()));
}

#[test]
fn it_is_exported() {
    let mut out = [0xEE; 200];
    assert_eq!(
        export(START, CHANNEL_AS_BENCH, &records(), &mut out),
        Ok(GIVEN)
    );
    assert_begins(&out, LINES);
    let lines = LINES.to_vec();
    assert_eq!(
        export_to_vec(START, CHANNEL_AS_BENCH, &records()),
        Ok((GIVEN, lines))
    );
}

#[test]
fn a_record_is_unpacked_and_packed() {
    let record = Record {
        offset: 0,
        bus: 1,
        kind: Kind::DataReceived,
        extended: false,
        id: 0x123,
        length: 2,
        data: [0x0A, 0xFF, 0, 0, 0, 0, 0, 0],
        mark: false,
    };
    assert_eq!(unpack(&FIRST), Ok(record));
    let mut packed = [0xEE; 24];
    assert_eq!(pack(&record, &mut packed), Ok(()));
    assert_begins(&packed, &FIRST);
}

#[test]
fn the_other_rows_keep_their_fields() {
    let records = records();
    let second = Record {
        offset: 1_500_250,
        bus: 2,
        kind: Kind::DataSent,
        extended: true,
        id: 0x18AB_0001,
        length: 0,
        data: [0; 8],
        mark: false,
    };
    assert_eq!(unpack(&records[20..40]), Ok(second));
    let third = Record {
        offset: 1_500_249,
        bus: 1,
        kind: Kind::RemoteReceived,
        extended: false,
        id: 0x124,
        length: 3,
        data: [0; 8],
        // Its offset is a microsecond below that of the second row.
        mark: true,
    };
    assert_eq!(unpack(&records[40..]), Ok(third));
}

#[test]
fn nothing_is_fine() {
    let text = &TEXT[..40];
    let held = Read {
        version: 12,
        start: START,
        rows: 0,
        step_back: None,
        first: 0,
    };
    assert_eq!(read(text, &mut []), Ok(held));
    assert_eq!(read_to_vec(text).map(|(_, records)| records), Ok(vec![]));
    let none = Exported {
        bytes: 0,
        lines: 0,
        left_out: 0,
    };
    assert_eq!(export(START, CHANNEL_AS_BENCH, &[], &mut []), Ok(none));
    assert_eq!(
        export_to_vec(START, CHANNEL_AS_BENCH, &[]),
        Ok((none, vec![]))
    );
    let head = WRITTEN[..49].to_vec();
    assert_eq!(write_to_vec(12, START, 0, &[]), Ok(head.clone()));
    assert_eq!(held.write_to_vec(&[]), Ok(head));
}
