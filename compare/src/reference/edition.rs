//! The editions of the sheet. Whatever depends on the edition asks it here.

/// An edition that is taken.
#[derive(Clone, Copy, PartialEq, Eq, PartialOrd, Ord, Debug, Default)]
pub enum Edition {
    #[default]
    One = 1,
    /// Brought the vector step.
    Two = 2,
    /// Starts a load without an object from zeros.
    Three = 3,
}

/// What a load starts from: skipped elements have it still.
#[derive(Clone, Copy, PartialEq, Eq, Debug)]
pub enum Start {
    /// What a register holds that is its object.
    Object(usize),
    /// What its own register holds.
    Own,
    /// Zeros of its own register's type.
    Zeros,
}

impl Edition {
    /// Every edition.
    pub const ALL: [Edition; 3] = [Edition::One, Edition::Two, Edition::Three];

    /// The edition with a number, if it is taken.
    pub fn of_number(number: u8) -> Option<Edition> {
        Edition::ALL.into_iter().find(|edition| edition.number() == number)
    }

    /// The number that a sheet gives.
    pub fn number(self) -> u8 {
        self as u8
    }

    /// Whether sheets may have vector steps.
    pub fn has_vectors(self) -> bool {
        self >= Edition::Two
    }

    /// What a load starts from, by its object or none.
    pub fn start(self, object: Option<usize>) -> Start {
        match object {
            Some(object) => Start::Object(object),
            None if self >= Edition::Three => Start::Zeros,
            None => Start::Own,
        }
    }
}
