//! How a command ends.

/// The later ones go before the earlier: where a file was refused and another could not be written, the run could not be done.
#[derive(Clone, Copy, Debug, PartialEq, Eq, PartialOrd, Ord)]
pub enum Status {
    AllDone,
    SomeRefused,
    NotDone,
    WrongUsage,
}

impl Status {
    /// The exit status.
    pub fn number(self) -> u8 {
        match self {
            Status::AllDone => 0,
            Status::SomeRefused => 1,
            Status::NotDone => 2,
            Status::WrongUsage => 64,
        }
    }
}
