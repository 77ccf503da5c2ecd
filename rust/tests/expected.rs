//! What was expected in a wrong field, in words. That they are true is tried: each spelling that they name is taken in
//! that place, and those just beyond are not.

mod words;

use bushingowl::{explain_refusal, read, RowExplanation, RowFault, RowReason};
use words::bytes;

/// Lines 1 and 2 of a text, and row 1, behind which row 2 is expected.
fn before(version: u32, number: u64) -> String {
    let digit = version % 10;
    let row = match (version, number) {
        (_, 0) => "",
        (11, _) => "1) 0.0 Rx 0123 0\r\n",
        _ => "1) 0.000 1 Rx 0123 0\r\n",
    };
    format!(";$FILEVERSION=1.{digit}\r\n;$STARTTIME=36585.5\r\n{row}")
}

/// What is said of a text, if it is refused.
fn explained(text: &[u8]) -> Option<RowExplanation<'_>> {
    let refused = read(text, &mut [0; 100]).err()?;
    assert_eq!(refused.number(), 7);
    Some(explain_refusal(text, refused).unwrap())
}

/// The reason and the field of what is said.
fn reason(said: &RowExplanation) -> (RowReason, u64) {
    match said.fault {
        RowFault::WrongField { field, .. } => (RowReason::WrongField, field),
        RowFault::EndedEarly { field, .. } => (RowReason::EndedEarly, field),
        RowFault::NoNumberLeft => panic!("no row before it has the last number"),
    }
}

/// A place in a row: the fields before it, and what is said to be expected there.
struct Place {
    version: u32,
    /// The number that the row must have, or 0 for any.
    number: u64,
    fields: &'static str,
    words: &'static str,
}

/// A place in row 2.
fn place(version: u32, fields: &'static str, words: &'static str) -> Place {
    let number = 2;
    Place {
        version,
        number,
        fields,
        words,
    }
}

impl Place {
    #[track_caller]
    fn hold(&self, taken: &str, refused: &str) {
        words::hold(self.words, taken, refused, |field| self.takes(field));
        self.ends_early();
    }

    fn text(&self, field: &str) -> String {
        let (before, fields) = (before(self.version, self.number), self.fields);
        format!("{before}{fields} {field}\r\n")
    }

    fn fields_before(&self) -> u64 {
        self.fields.split_whitespace().count() as u64
    }

    /// Whether a field is taken behind the others. If not, it is what is said to be wrong, with the words.
    fn takes(&self, field: &str) -> bool {
        let text = self.text(field);
        let Some(said) = explained(text.as_bytes()) else {
            return true;
        };
        let number = self.fields_before() + 1;
        if reason(&said) != (RowReason::WrongField, number) {
            assert_eq!(reason(&said), (RowReason::EndedEarly, number), "{text}");
            return true;
        }
        assert_eq!(said.expected(), self.words, "{text}");
        assert_eq!(said.bytes[said.place()], *field.as_bytes());
        false
    }

    /// Where the row ends before the place, the same is expected, unless it may end there.
    fn ends_early(&self) {
        let text = self.text("");
        let said = explained(text.as_bytes());
        let may_end = self.words.ends_with("the end of the row");
        assert_eq!(said.is_none(), may_end, "{text}");
        if let Some(said) = said {
            let early = (RowReason::EndedEarly, self.fields_before());
            assert_eq!(reason(&said), early, "{text}");
            assert_eq!(said.expected(), self.words, "{text}");
        }
    }
}

#[test]
fn a_number() {
    for version in [11, 12] {
        let any = Place {
            number: 0,
            ..place(version, "", "a number from 1 to 999999 and \")\"")
        };
        let refused = "0) 01) 1 ) 1)) 1000000) 1000001) x";
        any.hold("1) 2) 4117) 999999)", refused);
        let refused = "1) 3) 02) 2 2)) 0) 999999) x";
        place(version, "", "\"2)\"").hold("2)", refused);
    }
}

#[test]
fn an_offset() {
    let words =
        "milliseconds without leading zeros, with one digit behind the point, up to 281474976710.6";
    place(11, "2)", words).hold(
        "0.0 0.1 12.5 281474976709.9 281474976710.6",
        "281474976710.7 281474976711.0 999999999999.9 1000000000000.0 0 0. .0 0.00 0.000 00.0 0,0",
    );
    let words = "milliseconds without leading zeros, with three digits behind the point, up to 281474976710.655";
    place(12, "2)", words).hold(
        "0.000 0.001 12.500 281474976709.999 281474976710.655",
        "281474976710.656 281474976711.000 999999999999.999 1000000000000.000 0 0. .000 0.0 0.00 \
         0.0000 00.000 0,000",
    );
}

#[test]
fn a_bus() {
    let taken = "1 2 3 4 5 6 7 8 9 10 11 12 13 14 15 16";
    let bus = place(12, "2) 0.000", "a bus from 1 to 16, without leading zeros");
    bus.hold(taken, "0 17 01 016 100 -1 #1 A Rx");
}

#[test]
fn a_type() {
    let words = "Rx, Tx, Warng or Error";
    let refused = "rx RX tx TX Rxx R WARNG Warning Warnng ERROR error Err 1";
    for (version, fields) in [(11, "2) 0.0"), (12, "2) 0.000 1")] {
        place(version, fields, words).hold("Rx Tx Warng Error", refused);
    }
}

#[test]
fn an_id() {
    let words = "an ID of four hexadecimal digits up to 07FF, or of eight up to 1FFFFFFF";
    let taken = "0000 0123 07FF 07ff 00000000 000007FF 00000800 1FFFFFFF 1fffFFFF";
    let refused = "0800 FFFF 20000000 FFFFFFFF 7FF 007FF 0 000 1FFFFFF 01FFFFFFF 07FG 0x7FF";
    for (version, fields) in [
        (11, "2) 0.0 Rx"),
        (11, "2) 0.0 Tx"),
        (12, "2) 0.000 1 Rx"),
        (12, "2) 0.000 16 Tx"),
    ] {
        place(version, fields, words).hold(taken, refused);
    }
}

#[test]
fn an_id_of_a_warning() {
    let refused = "FFFFFFF FFFFFFFFF FFFFFFFE 0FFFFFFF 1FFFFFFF 00000000 07FF 0001 FFFF";
    for (version, fields) in [(11, "2) 0.0 Warng"), (12, "2) 0.000 1 Warng")] {
        place(version, fields, "FFFFFFFF").hold("FFFFFFFF ffffffff FfFfFfFf", refused);
    }
}

#[test]
fn an_id_of_an_error_frame() {
    let words = "0001, 0002, 0004 or 0008";
    let refused = "0000 0003 0005 0006 0007 0009 000A 0010 0011 1 001 00001 00000001 07FF FFFFFFFF";
    for (version, fields) in [(11, "2) 0.0 Error"), (12, "2) 0.000 1 Error")] {
        place(version, fields, words).hold("0001 0002 0004 0008", refused);
    }
}

#[test]
fn a_length() {
    for (version, fields) in [
        (11, "2) 0.0 Rx 0123"),
        (12, "2) 0.000 1 Rx 07FF"),
        (12, "2) 0.000 1 Tx 1FFFFFFF"),
    ] {
        let length = place(version, fields, "a length from 0 to 8");
        length.hold("0 1 2 3 4 5 6 7 8", "9 00 08 10 -1 A / :");
    }
    for (version, fields) in [
        (11, "2) 0.0 Warng FFFFFFFF"),
        (11, "2) 0.0 Error 0001"),
        (12, "2) 0.000 1 Warng FFFFFFFF"),
        (12, "2) 0.000 1 Error 0008"),
    ] {
        place(version, fields, "the length 4").hold("4", "0 1 2 3 5 6 7 8 9 04 44");
    }
}

#[test]
fn rtr_or_a_data_byte() {
    let (taken, refused) = bytes(|_| true);
    let (taken, refused) = (format!("RTR {taken}"), format!("rtr RT {refused}"));
    #[rustfmt::skip]
    let places = [
        place(11, "2) 0.0 Rx 0123 1", "RTR, or data byte 1 of 1: two hexadecimal digits"),
        place(12, "2) 0.000 1 Rx 0123 2", "RTR, or data byte 1 of 2: two hexadecimal digits"),
        place(12, "2) 0.000 1 Tx 00000123 8", "RTR, or data byte 1 of 8: two hexadecimal digits"),
    ];
    for place in places {
        place.hold(&taken, &refused);
    }
    let words = "RTR, or the end of the row";
    for (version, fields) in [(11, "2) 0.0 Rx 0123 0"), (12, "2) 0.000 1 Tx 0123 0")] {
        place(version, fields, words).hold("RTR", "00 rtr RT RTRR 0 ;");
    }
}

#[test]
fn a_data_byte() {
    let (taken, refused) = bytes(|_| true);
    let refused = format!("RTR {refused}");
    #[rustfmt::skip]
    let places = [
        place(11, "2) 0.0 Tx 0123 2 00", "data byte 2 of 2: two hexadecimal digits"),
        place(12, "2) 0.000 1 Rx 0123 4 0A FF", "data byte 3 of 4: two hexadecimal digits"),
        place(12, "2) 0.000 1 Rx 0123 8 00 11 22 33 44 55 66", "data byte 8 of 8: two hexadecimal digits"),
        place(12, "2) 0.000 1 Warng FFFFFFFF 4", "data byte 1 of 4: two hexadecimal digits"),
        place(11, "2) 0.0 Warng FFFFFFFF 4 00 00 00", "data byte 4 of 4: two hexadecimal digits"),
    ];
    for place in places {
        place.hold(&taken, &refused);
    }
}

#[test]
fn a_data_byte_of_an_error_frame() {
    let first = "data byte 1 of 4: 00 (sending) or 01 (receiving)";
    let second = "data byte 2 of 4: a bit stream position, 02 to 0F, 11, 12, 13 or 17 to 1C";
    let third = "data byte 3 of 4: an error counter of two hexadecimal digits";
    let fourth = "data byte 4 of 4: an error counter of two hexadecimal digits";
    // In decimal, as the paper has them.
    let position = |byte| matches!(byte, 2..=15 | 17 | 18 | 19 | 23..=28);
    #[rustfmt::skip]
    let places = [
        (place(11, "2) 0.0 Error 0001 4", first), bytes(|byte| byte < 2)),
        (place(12, "2) 0.000 1 Error 0002 4", first), bytes(|byte| byte < 2)),
        (place(11, "2) 0.0 Error 0001 4 00", second), bytes(position)),
        (place(12, "2) 0.000 1 Error 0008 4 01", second), bytes(position)),
        (place(11, "2) 0.0 Error 0001 4 00 02", third), bytes(|_| true)),
        (place(12, "2) 0.000 1 Error 0004 4 01 1C", third), bytes(|_| true)),
        (place(11, "2) 0.0 Error 0001 4 00 02 FF", fourth), bytes(|_| true)),
        (place(12, "2) 0.000 1 Error 0004 4 01 13 00", fourth), bytes(|_| true)),
    ];
    for (place, (taken, refused)) in places {
        place.hold(&taken, &format!("RTR {refused}"));
    }
}

#[test]
fn a_word_or_the_end() {
    let words = "a word of capital letters, or the end of the row";
    for (version, fields) in [
        (11, "2) 0.0 Warng FFFFFFFF 4 00 00 00 08"),
        (12, "2) 0.000 1 Warng FFFFFFFF 4 00 00 00 08 BUSHEAVY"),
    ] {
        let word = place(version, fields, words);
        word.hold("A Z AZ BUSHEAVY RTR AB", "a z Az aZ A1 0 00 @ [ A- ; A.");
    }
}

#[test]
fn the_end() {
    for (version, fields) in [
        (11, "2) 0.0 Rx 0123 1 00"),
        (12, "2) 0.000 1 Tx 0123 8 RTR"),
        (12, "2) 0.000 1 Tx 0123 0 RTR"),
        (12, "2) 0.000 1 Error 0001 4 00 02 00 00"),
    ] {
        // Nothing is taken but nothing.
        place(version, fields, "the end of the row").hold("", "00 RTR WORD ; x");
    }
}
