//! One record, taken apart.

/// What kind of row a record stands for.
///
/// ```
/// use bushingowl::Kind;
/// assert_eq!(Kind::RemoteSent.number(), 3);
/// assert_eq!(Kind::of(3), Some(Kind::RemoteSent));
/// assert_eq!(Kind::of(6), None);
/// ```
#[derive(Clone, Copy, Debug, PartialEq, Eq, Hash)]
pub enum Kind {
    DataReceived = 0,
    DataSent = 1,
    RemoteReceived = 2,
    RemoteSent = 3,
    Warning = 4,
    ErrorFrame = 5,
}

impl Kind {
    /// The kinds in the order of their numbers.
    pub const ALL: [Kind; 6] = [
        Kind::DataReceived,
        Kind::DataSent,
        Kind::RemoteReceived,
        Kind::RemoteSent,
        Kind::Warning,
        Kind::ErrorFrame,
    ];

    /// The number that stands for the kind in a packed record, 0 to 5.
    pub fn number(self) -> u64 {
        self as u64
    }

    /// The kind that has this number.
    pub fn of(number: u64) -> Option<Kind> {
        Kind::ALL.into_iter().find(|kind| kind.number() == number)
    }
}

/// The fields of one record, in the order in which they are packed. What is not well formed can be said, and
/// [`pack`](crate::pack) refuses it.
#[derive(Clone, Copy, Debug, PartialEq, Eq, Hash)]
pub struct Record {
    /// Microseconds from the start, at most [`MOST_OFFSET`](crate::MOST_OFFSET), which is all that 48 bits hold.
    pub offset: u64,
    /// 1 to 16; 0 for none, which is so for version 1.1. 5 bits.
    pub bus: u8,
    /// 3 bits. A warning has no ID (0, not extended) and length 4. An error frame has ID 1, 2, 4 or 8 (not extended),
    /// length 4, a first byte of 0 (sending) or 1 (receiving) and as second byte a position in the bit stream: 2 to 15,
    /// 17, 18, 19, 23 to 28; its third and fourth byte are the error counters.
    pub kind: Kind,
    /// Whether the ID has the extended form, whatever its value. 1 bit.
    pub extended: bool,
    /// At most `0x7FF`, or `0x1FFF_FFFF` if extended. 29 bits.
    pub id: u32,
    /// 0 to 8; of a remote frame the length asked for. 4 bits.
    pub length: u8,
    /// Those past the length are 0, and all of them in a remote frame. 64 bits.
    pub data: [u8; 8],
    /// Whether the offset is below that of the record before it in its list: a step back. 1 bit; five zero bits follow.
    ///
    /// In a list it is so for every record, and the first one has `false`. [`read`](crate::read) and
    /// [`read_ascii`](crate::read_ascii) set the marks, [`write()`](crate::write()) and [`export`](crate::export) check
    /// them, and refuse a list with a wrong one (23). A single record may have either, as [`pack`](crate::pack) and
    /// [`unpack`](crate::unpack) do: copied out of its list, it still tells of the step there.
    ///
    /// In a new list of copied records, some of them or in another order, [`mark_steps`](crate::mark_steps) sets it.
    pub mark: bool,
}

impl Record {
    /// The numbers of the C boundary.
    pub(crate) fn fields(&self) -> [u64; 8] {
        [
            self.offset,
            self.bus.into(),
            self.kind.number(),
            self.extended.into(),
            self.id.into(),
            self.length.into(),
            u64::from_be_bytes(self.data),
            self.mark.into(),
        ]
    }

    /// The record with the fields of a well formed one.
    pub(crate) fn of_fields(fields: [u64; 8]) -> Record {
        let [offset, bus, kind, extended, id, length, data, mark] = fields;
        Record {
            offset,
            bus: bus as u8,
            kind: Kind::of(kind).expect("a well formed record has a kind of 0 to 5"),
            extended: extended == 1,
            id: id as u32,
            length: length as u8,
            data: data.to_be_bytes(),
            mark: mark == 1,
        }
    }
}
