//! One record as a line: in plain words, as comma separated values, as JSON.

use crate::json::Object;
use bushingowl::{export, milliseconds, pack, Kind, Record, CHANNEL_AS_BUS, MOST_LINE, RECORD};

/// The bytes of a stamp at the beginning of an exported line.
const STAMP: usize = 24;

/// Date and time of an offset, as the library exports them with a data frame.
pub fn stamp(start: u64, offset: u64) -> String {
    let frame = Record {
        offset,
        bus: 0,
        kind: Kind::DataReceived,
        extended: false,
        id: 0,
        length: 0,
        data: [0; 8],
        mark: false,
    };
    let (mut packed, mut line) = ([0; RECORD], [0; MOST_LINE]);
    let exported =
        pack(&frame, &mut packed).and_then(|()| export(start, CHANNEL_AS_BUS, &packed, &mut line));
    match exported {
        Ok(_) => String::from_utf8_lossy(&line[..STAMP]).into_owned(),
        Err(refused) => refused.to_string(),
    }
}

/// A row that is shown.
pub struct Row {
    pub number: u64,
    pub stamp: String,
    pub record: Record,
}

impl Row {
    fn kind(&self) -> &'static str {
        match self.record.kind {
            Kind::DataReceived => "Rx",
            Kind::DataSent => "Tx",
            Kind::RemoteReceived => "Rx RTR",
            Kind::RemoteSent => "Tx RTR",
            Kind::Warning => "Warng",
            Kind::ErrorFrame => "Error",
        }
    }

    /// A warning has none.
    fn has_id(&self) -> bool {
        self.record.kind != Kind::Warning
    }

    /// The ID as a trace spells it.
    fn id(&self) -> String {
        match self.record.extended {
            _ if !self.has_id() => String::new(),
            true => format!("{:08X}", self.record.id),
            false => format!("{:04X}", self.record.id),
        }
    }

    /// The data bytes with something between them. A remote frame has none, whatever its length.
    fn data(&self, between: &str) -> String {
        let length = match self.record.kind {
            Kind::RemoteReceived | Kind::RemoteSent => 0,
            _ => usize::from(self.record.length).min(8),
        };
        let bytes: Vec<String> = self.record.data[..length]
            .iter()
            .map(|byte| format!("{byte:02X}"))
            .collect();
        bytes.join(between)
    }

    fn bus(&self) -> Option<u8> {
        (self.record.bus != 0).then_some(self.record.bus)
    }

    pub fn plain(&self) -> String {
        let bus = self.bus().map_or("-".to_string(), |bus| bus.to_string());
        let mut line = format!(
            "{:>6}  {} {:>16} {bus:>2}  {:<6}  {:<8}  {}  {}",
            self.number,
            self.stamp,
            milliseconds(self.record.offset),
            self.kind(),
            self.id(),
            self.record.length,
            self.data(" "),
        );
        if self.record.mark {
            line += "  (step back)";
        }
        line.trim_end().to_string()
    }

    pub fn csv(&self) -> String {
        let bus = self.bus().map(|bus| bus.to_string()).unwrap_or_default();
        let Record {
            offset,
            extended,
            length,
            mark,
            ..
        } = self.record;
        format!(
            "{},{},{offset},{bus},{},{},{},{length},{},{}",
            self.number,
            self.stamp,
            self.kind(),
            u8::from(extended),
            self.id(),
            self.data(""),
            u8::from(mark),
        )
    }

    pub fn json(&self) -> String {
        Object::new()
            .plain("row", self.number)
            .text("stamp", &self.stamp)
            .plain("offset_us", self.record.offset)
            .maybe("bus", self.bus())
            .text("kind", self.kind())
            .plain("extended", self.record.extended)
            .maybe("id", self.has_id().then_some(self.record.id))
            .plain("length", self.record.length)
            .text("data", &self.data(""))
            .plain("step_back", self.record.mark)
            .end()
    }
}
