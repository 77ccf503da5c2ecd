//! Lines that are no lines of Telemotive ASCII, and are known to be none.

use super::ascii::{widened, AsciiStyle, Line, LONGEST};
use super::random::Random;

/// Parts that no line has in their places.
const DATES: &str = "29.02.1900|29.02.1999|29.02.2001|29.02.2100|30.02.2000|31.02.2004|31.04.2000|31.06.1999|31.09.2010|\
    31.11.2020|00.01.2000|32.01.2000|32.12.1999|01.00.2000|01.13.2000|10.20.2000|29.12.1899|31.12.1898|01.01.1899|30.11.1899|\
    14.10.2173|15.10.2173|01.11.2173|01.01.2174|01.01.0000|01.01.9999|1.01.2000|01.1.2000|01.01.00|001.01.2000|01.001.2000|\
    01.01.02000|01.01.200|01/01/2000|01-01-2000|01:01:2000|01.01,2000|2000.01.01|01.01.2000.|.01.01.2000|0a.01.2000|01.0a.2000|\
    01.01.200a|+1.01.2000|-1.01.2000|01012000|99.99.9999|\t1.01.2000|01.01.\x00000|/1.01.2000|:1.01.2000|01.01.20:0";
const TIMES: &str = "24:00:00.0000|25:00:00.0000|99:00:00.0000|12:60:00.0000|12:99:00.0000|12:00:60.0000|12:00:99.9999|\
    12:00:00.000|12:00:00.00000|12:00:00|12:00:00.|12:00.0000|1:00:00.0000|012:00:00.0000|12:0:00.0000|12:00:0.0000|12.00.00.0000|\
    12:00:00,0000|12:00:00:0000|12-00-00.0000|12:00:00.000a|a2:00:00.0000|12:0a:00.0000|12:00:0a.0000|-1:00:00.0000|120000.0000|\
    12:00:00.0000.|:12:00:00.0000|12:00:00.00 00|1/:00:00.0000|12:00:00.000:|12:00:00.000/";
const TYPES: &str =
    "can|Can|CAN.|CA|CANN|CANE|CANEx|CANext|CANEXT|CANExtt|canExt|CANFD|LIN|Ext|CAN#1|XCAN|CANEXt";
const CHANNELS: &str = "#17|#18|#19|#20|#99|#01|#00|#000|#09|#016|#017|#010|#100|#160|#161|#|0|1|16|##1|##0|#1#|#0#|#1.|#0.|#-1|#-0|#+1|\
    #+0|#a|#A|#f|#o|#O|#256|#257|# 1|# 0|1#|0#|$1|$0|#1,|#0,|#1a|#0a|#:|#/|#1:|#1/|#0:|#0/|#\x001|#\x00|#0\x00";
const BARS: &str = "||¦|I|l|!|1|:|/|-|\\|.|#";
const EXTENDED: &str =
    "extended|Extended|EXTENDE|EXTENDEDD|EXT|EXTENDEd|XEXTENDED|EXTENDED.|eXTENDED|EXTENDED|";
const DIRECTIONS: &str =
    "rx|RX|rX|tx|TX|tX|R|T|x|Rxx|Txx|Rx.|xR|xT|RxTx|Warng|Error|RTR|Sx|Qx|Ux|Ry|Tw";
const STANDARD_IDS: &str = "800|801|fff|FFF|900|f00|0123|07ff|07FF|12|1|7f|1234|00000123|12g|12G|g12|1g2|0x1|12.|-12|+12|1:3|1/3|\
    @12|1`2|12@|\x001\x00|12h|7ff0";
const EXTENDED_IDS: &str = "20000000|20000001|3fffffff|ffffffff|FFFFFFFF|80000000|40000000|123|7ff|0123|0000123|000000123|1ffffff|\
    1fffffff0|01fffffff|0000012g|g0000123|0x000123|0000_123|1ffff.ff|+0000123|0000@123|0000:123|0000/123|0000`123";
const LENGTHS: &str = "9|a|A|f|02|00|08|10|16|-1|+1|2.|x|:|/|RTR|#";
const BYTES: &str = "0|f|000|0ab|g0|0g|G0|0G|0x|0.|-1|+1|@0|0@|0`|`0|:0|0:|/0|0/|RTR|Rx|\x000|0\t";
/// What may stand for a blank, and is none.
const GAPS: &str = "|\t|\0|_|\u{b}|\u{c}|\u{a0}| \t|\t | \0 |.|,|;";
/// Whole lines.
const LINES: &str = "| |;|; a comment|;$FILEVERSION=1.2|1) 0.000 1 Rx 0123 0|SYSTEM MSG|x|\0|\t";
/// What may stand where a line should end: nothing that ends it without it.
const ENDS: &str = "\r\r\n|\r \n| \r\n| \n|\0\n|\t\r\n|\0\r\n|\rx\n|\r\r\r\n|.\n|\u{b}\n";

/// What comes of a line if one thing about it is wrong, with its end. The last one of a text may have none.
pub fn spoiled(random: &mut Random, style: &AsciiStyle, line: &Line, last: bool) -> Vec<u8> {
    let end = style.end(random);
    let good = style.line(random, line);
    let text = match random.below(26) {
        0..=14 => {
            let mut parts = line.parts(random, &style.style);
            spoil_part(random, line.fields[3] == 1, &mut parts);
            style.joined(random, &parts)
        }
        15 | 16 => with_other_gap(random, &good),
        17 => random.pick(&[" ", "  ", "\t", "\0"]).to_string() + &good,
        18 => good + random.pick(&[" ", "  ", "\t", "\0"]),
        19 | 20 => {
            let aim = LONGEST + random.pick(&[1, 1, 1, 2, 3, 50, 1000]);
            widened(random, &good, aim)
        }
        21 => random.word(LINES).to_string(),
        22 => return [&good, random.word(ENDS)].concat().into_bytes(),
        23 | 24 => {
            let (before, after) = good.split_at(random.below(good.len()));
            [before, random.pick(&["\r", "\n", "\r\n"]), after].concat()
        }
        _ if last => {
            let cut = random.between(1, good.len());
            let text = random.pick(&[&good, &*good, &good[..cut]]);
            return [text, random.pick(&["", "", "\r", " "])]
                .concat()
                .into_bytes();
        }
        _ => good[..random.below(good.len())].to_string(),
    };
    [&text, end].concat().into_bytes()
}

/// Makes one part wrong, or too many or too few.
fn spoil_part(random: &mut Random, extended: bool, parts: &mut Vec<String>) {
    let direction = if extended { 6 } else { 5 };
    let [id, length, data] = [1, 2, 3].map(|behind| direction + behind);
    let place = random.below(parts.len());
    match random.below(16) {
        0 | 1 => parts[0] = random.word(DATES).to_string(),
        2 | 3 => parts[1] = random.word(TIMES).to_string(),
        4 => parts[2] = random.word(TYPES).to_string(),
        5 => parts[2] = if extended { "CAN" } else { "CANExt" }.to_string(),
        6 => parts[3] = random.word(CHANNELS).to_string(),
        7 => parts[4] = random.word(BARS).to_string(),
        8 if extended => {
            parts[5] = random.word(EXTENDED).to_string();
            if parts[5] == "EXTENDED" {
                parts.remove(5);
            }
        }
        8 => parts.insert(5, "EXTENDED".to_string()),
        9 => parts[direction] = random.word(DIRECTIONS).to_string(),
        10 => {
            let ids = if extended { EXTENDED_IDS } else { STANDARD_IDS };
            parts[id] = random.word(ids).to_string();
        }
        11 => {
            let bytes = parts.len() - data;
            let near = [bytes + 1, bytes.wrapping_sub(1)].map(|n| n.to_string());
            let near = near.map(|n| if n.len() > 1 { "9".to_string() } else { n });
            let other = random.word(LENGTHS);
            parts[length] = random.pick(&[&near[0], &near[1], other]).to_string();
        }
        12 if data < parts.len() => {
            let at = random.between(data, parts.len() - 1);
            parts[at] = random.word(BYTES).to_string();
        }
        12 => parts.push("00".to_string()),
        13 => drop(parts.remove(place)),
        14 => parts.insert(place, parts[place].clone()),
        _ => parts.swap(place.min(id), place.min(id) + 1),
    }
}

/// One of the gaps is none.
fn with_other_gap(random: &mut Random, line: &str) -> String {
    let begins: Vec<usize> = (1..line.len())
        .filter(|&at| line[at..].starts_with(' ') && !line[..at].ends_with(' '))
        .collect();
    let (before, after) = line.split_at(random.pick(&begins));
    [before, random.word(GAPS), after.trim_start_matches(' ')].concat()
}
