//! What was expected in a line of Telemotive ASCII, in words. That they are true is tried: each spelling that they name is
//! taken in that place, and those just beyond are not.

mod words;

use bushingowl::{explain_ascii_refusal, read_ascii, AsciiExplanation, AsciiFault};
use words::bytes;

/// What is said of a text, if it is refused.
fn explained(text: &[u8]) -> Option<AsciiExplanation<'_>> {
    let refused = read_ascii(text, &mut [0; 100]).err()?;
    Some(explain_ascii_refusal(text, refused).unwrap())
}

/// A place in a line: the parts before it, and what is said to be expected there.
struct Place {
    parts: &'static str,
    words: &'static str,
}

fn place(parts: &'static str, words: &'static str) -> Place {
    Place { parts, words }
}

impl Place {
    #[track_caller]
    fn hold(&self, taken: &str, refused: &str) {
        words::hold(self.words, taken, refused, |part| self.takes(part));
        self.ends_early();
    }

    fn parts_before(&self) -> u64 {
        self.parts.split_whitespace().count() as u64
    }

    /// Whether a part is taken behind the others. If not, it is what is said to be wrong, with the words.
    fn takes(&self, part: &str) -> bool {
        let text = [self.parts, part].join(" ");
        let text = format!("{}\n", text.trim());
        let Some(said) = explained(text.as_bytes()) else {
            return true;
        };
        let here = self.parts_before() + 1;
        match said.fault {
            AsciiFault::WrongPart { number, .. } | AsciiFault::OneTooMany { number, .. } => {
                assert_eq!(number, here, "{text}");
                assert_eq!(said.expected(), self.words, "{text}");
                assert_eq!(said.bytes[said.place()], *part.as_bytes());
                false
            }
            AsciiFault::EndedEarly { number, .. } => {
                assert_eq!(number, here, "{text}");
                true
            }
            fault => panic!("{fault:?}: {text}"),
        }
    }

    /// Where the line ends before the place, the same is expected, unless it may end there.
    fn ends_early(&self) {
        let text = format!("{}\n", self.parts);
        let said = explained(text.as_bytes());
        let may_end = self.words == "the end of the line";
        assert_eq!(said.is_none(), may_end, "{text}");
        let Some(said) = said else { return };
        match said.fault {
            AsciiFault::Empty => assert_eq!(self.parts, ""),
            AsciiFault::EndedEarly { number, .. } => assert_eq!(number, self.parts_before()),
            fault => panic!("{fault:?}: {text}"),
        }
        assert_eq!(said.expected(), self.words, "{text}");
    }
}

#[test]
fn a_date() {
    let words = "a date that exists, from 30.12.1899 to 13.10.2173";
    place("", words).hold(
        "30.12.1899 31.12.1899 01.01.1900 29.02.2000 31.10.2023 12.10.2173 13.10.2173",
        "29.12.1899 14.10.2173 01.01.2174 01.01.1899 29.02.1900 29.02.2023 30.02.2000 31.11.2023 \
         00.01.2000 01.00.2000 01.13.2000 32.01.2000 1.1.2000 01.01.00 2000-01-01 01/01/2000 CAN",
    );
}

#[test]
fn a_time() {
    place("29.02.2000", "a time from 00:00:00.0000 to 23:59:59.9999").hold(
        "00:00:00.0000 00:00:00.0001 12:34:56.7890 23:59:59.9999",
        "24:00:00.0000 23:60:00.0000 23:59:60.0000 00:00:00.00000 00:00:00.000 00:00:00 0:00:00.0000 \
         00:00:00,0000 00.00.00.0000 CAN",
    );
}

#[test]
fn a_type() {
    let refused = "can Can CANEXT CANext CANExtended CAN1 LIN #1 EXTENDED";
    place("29.02.2000 12:00:00.0000", "CAN or CANExt").hold("CAN CANExt", refused);
}

#[test]
fn a_channel() {
    let taken = "#0 #1 #2 #3 #4 #5 #6 #7 #8 #9 #10 #11 #12 #13 #14 #15 #16";
    let refused = "#17 #18 #20 #100 #256 # #00 #01 #016 #-1 #A 0 1 |";
    for parts in [
        "29.02.2000 12:00:00.0000 CAN",
        "29.02.2000 12:00:00.0000 CANExt",
    ] {
        place(parts, "a channel from #0 to #16").hold(taken, refused);
    }
}

#[test]
fn a_bar() {
    for parts in [
        "29.02.2000 12:00:00.0000 CAN #1",
        "29.02.2000 12:00:00.0000 CANExt #16",
    ] {
        place(parts, "|").hold("|", "|| ! I l / Rx EXTENDED 0");
    }
}

#[test]
fn the_word_extended() {
    let refused = "extended Extended EXTENDE EXTENDEDD EXT Rx Tx 00000123";
    place("29.02.2000 12:00:00.0000 CANExt #1 |", "EXTENDED").hold("EXTENDED", refused);
}

#[test]
fn a_direction() {
    for parts in [
        "29.02.2000 12:00:00.0000 CAN #1 |",
        "29.02.2000 12:00:00.0000 CANExt #1 | EXTENDED",
    ] {
        place(parts, "Rx or Tx").hold("Rx Tx", "rx RX tx TX R Rxx Error Warng EXTENDED 123");
    }
}

#[test]
fn an_id() {
    let words = "an ID of three hexadecimal digits up to 7ff";
    place("29.02.2000 12:00:00.0000 CAN #1 | Rx", words).hold(
        "000 123 7ff 7FF 7Ff",
        "800 fff 1000 07ff 0123 00 7f 7fg 0x1 00000123 000007ff 1fffffff",
    );
    let words = "an ID of eight hexadecimal digits up to 1fffffff";
    place("29.02.2000 12:00:00.0000 CANExt #1 | EXTENDED Tx", words).hold(
        "00000000 00000123 000007ff 1fffffff 1FFFFFFF 1fFfFfFf",
        "20000000 ffffffff 1ffffff 01fffffff 1ffffffg 123 7ff 0123",
    );
}

#[test]
fn a_length() {
    for parts in [
        "29.02.2000 12:00:00.0000 CAN #1 | Rx 123",
        "29.02.2000 12:00:00.0000 CANExt #1 | EXTENDED Rx 00000123",
    ] {
        let length = place(parts, "a length from 0 to 8");
        length.hold("0 1 2 3 4 5 6 7 8", "9 00 08 10 -1 A / : RTR");
    }
}

#[test]
fn a_data_byte() {
    let (taken, refused) = bytes(|_| true);
    let refused = format!("RTR {refused}");
    #[rustfmt::skip]
    let places = [
        place("29.02.2000 12:00:00.0000 CAN #1 | Rx 123 1", "data byte 1 of 1: two hexadecimal digits"),
        place("29.02.2000 12:00:00.0000 CAN #1 | Rx 123 4 0a ff", "data byte 3 of 4: two hexadecimal digits"),
        place(
            "29.02.2000 12:00:00.0000 CANExt #1 | EXTENDED Tx 00000123 8 00 11 22 33 44 55 66",
            "data byte 8 of 8: two hexadecimal digits",
        ),
    ];
    for place in places {
        place.hold(&taken, &refused);
    }
}

#[test]
fn the_end() {
    for parts in [
        "29.02.2000 12:00:00.0000 CAN #1 | Rx 123 0",
        "29.02.2000 12:00:00.0000 CAN #1 | Rx 123 2 0a ff",
        "29.02.2000 12:00:00.0000 CANExt #1 | EXTENDED Rx 00000123 1 00",
    ] {
        // Nothing is taken but nothing.
        place(parts, "the end of the line").hold("", "00 RTR WORD ; x");
        let text = format!("{parts} \n");
        let said = explained(text.as_bytes()).unwrap();
        assert_eq!(said.expected(), "the end of the line");
        let text = format!(" {parts}\n");
        let said = explained(text.as_bytes()).unwrap();
        assert_eq!(said.expected(), "the date, with no blank before it");
    }
}

#[test]
fn the_end_of_a_line() {
    let line = "29.02.2000 12:00:00.0000 CAN #1 | Rx 123 0";
    for end in ["\r\n", "\n"] {
        assert_eq!(explained(format!("{line}{end}").as_bytes()), None);
    }
    for end in ["", "\r"] {
        let text = format!("{line}{end}");
        let said = explained(text.as_bytes()).unwrap();
        assert_eq!(said.expected(), "CR LF or LF");
    }
    let with_blanks = |bytes: usize| {
        let blanks = " ".repeat(bytes - line.len());
        line.replace(" CAN", &format!("{blanks} CAN"))
    };
    for end in ["\r\n", "\n"] {
        let text = with_blanks(250) + end;
        assert_eq!(explained(text.as_bytes()), None);
        let text = with_blanks(251) + end;
        let said = explained(text.as_bytes()).unwrap();
        assert_eq!(said.expected(), "at most 250 bytes");
    }
}

#[test]
fn a_stamp() {
    let lines = |stamps: [&str; 2]| {
        stamps
            .map(|stamp| format!("{stamp} CAN #1 | Rx 123 0\n"))
            .concat()
    };
    // Line 1, the last that may stand in line 2, the first that may not, and the words.
    let cases = [
        (
            "29.02.2000 12:00:00.0019",
            "29.02.2000 12:00:00.0010",
            "29.02.2000 12:00:00.0009",
            "a stamp not before that of line 1, cut to the millisecond",
        ),
        (
            "30.12.1899 00:00:00.0009",
            "30.11.1908 19:29:36.7106",
            "30.11.1908 19:29:36.7107",
            "a stamp at most 281474976710655 microseconds behind that of line 1, cut to the millisecond",
        ),
    ];
    for (first, good, wrong, words) in cases {
        assert_eq!(explained(lines([first, good]).as_bytes()), None);
        let text = lines([first, wrong]);
        let said = explained(text.as_bytes()).unwrap();
        assert_eq!(said.expected(), words);
        assert_eq!(said.bytes[said.place()], *wrong.as_bytes());
    }
}
