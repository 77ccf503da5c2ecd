//! What is counted in a file, and over all of them.

/// What a command may count.
#[derive(Clone, Copy, Debug, PartialEq, Eq)]
pub enum Count {
    Rows,
    Lines,
    LeftOut,
    StepsBack,
}

impl Count {
    /// Its key in JSON.
    pub fn key(self) -> &'static str {
        match self {
            Count::Rows => "rows",
            Count::Lines => "lines",
            Count::LeftOut => "left_out",
            Count::StepsBack => "steps_back",
        }
    }

    /// In words, for one and for more.
    pub fn nouns(self) -> (&'static str, &'static str) {
        match self {
            Count::Rows => ("row", "rows"),
            Count::Lines => ("line", "lines"),
            Count::LeftOut => ("left out", "left out"),
            Count::StepsBack => ("step back", "steps back"),
        }
    }
}

#[derive(Clone, Copy, Debug, Default)]
pub struct Counts([u64; 4]);

impl Counts {
    pub fn with(mut self, what: Count, number: usize) -> Counts {
        self.0[what as usize] = number as u64;
        self
    }

    pub fn of(&self, what: Count) -> u64 {
        self.0[what as usize]
    }

    pub fn add(&mut self, other: &Counts) {
        for (sum, number) in self.0.iter_mut().zip(other.0) {
            *sum += number;
        }
    }
}
