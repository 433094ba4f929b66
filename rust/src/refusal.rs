//! The refusals of document 01, by name.
use std::fmt;

/// A field of a preview key, from the top.
#[derive(Debug, Clone, Copy, PartialEq, Eq, Hash)]
pub enum Field {
    /// Field 0, 0 to 4,095.
    Card,
    /// Field 1, 0 to 7.
    Rollover,
    /// Field 2, 100 to 999.
    Folder,
    /// Field 3, 0 to 9,999.
    Frame,
    /// Field 4, 0 raw, 1 sidecar.
    Kind,
}

/// Why an entry refused. Nothing that was lent has changed, except with [`Refusal::NoRoom`].
#[derive(Debug, Clone, Copy, PartialEq, Eq, Hash)]
#[non_exhaustive]
pub enum Refusal {
    /// 1: a region is not well formed. For a combination `place` is 0, 1 or 2: a, b, destination.
    Malformed {
        /// Which region.
        place: u64,
    },
    /// 2: a number of a region to be made is outside its range.
    OutOfRange,
    /// 3: the slice is shorter than the region.
    TooShort,
    /// 4: codes, words and answers do not fit together, or there are more than 4,096 words.
    BadLengths,
    /// 5: an unknown code.
    UnknownCode {
        /// The first such place.
        place: u64,
    },
    /// 6: a word at or above 2^(P+S).
    WordTooLarge {
        /// The first such place.
        place: u64,
    },
    /// 7: the sets differ in P or S.
    SetsDiffer,
    /// 8: the walk starts above the member count.
    StartTooFar,
    /// 9: no room. A list keeps the earlier commands' effect; a combination leaves its destination empty.
    NoRoom {
        /// The command that found no room.
        place: u64,
    },
    /// 10: a field of a key is out of its range.
    FieldOutOfRange {
        /// The first such field.
        field: Field,
    },
}

impl Refusal {
    /// The number that document 01 gives it.
    pub fn number(self) -> u64 {
        match self {
            Refusal::Malformed { .. } => 1,
            Refusal::OutOfRange => 2,
            Refusal::TooShort => 3,
            Refusal::BadLengths => 4,
            Refusal::UnknownCode { .. } => 5,
            Refusal::WordTooLarge { .. } => 6,
            Refusal::SetsDiffer => 7,
            Refusal::StartTooFar => 8,
            Refusal::NoRoom { .. } => 9,
            Refusal::FieldOutOfRange { .. } => 10,
        }
    }

    /// The refusal of a verdict; `None` where its number is 0.
    pub(crate) fn of(number: u64, place: u64) -> Option<Refusal> {
        Some(match number {
            0 => return None,
            1 => Refusal::Malformed { place },
            2 => Refusal::OutOfRange,
            3 => Refusal::TooShort,
            4 => Refusal::BadLengths,
            5 => Refusal::UnknownCode { place },
            6 => Refusal::WordTooLarge { place },
            7 => Refusal::SetsDiffer,
            8 => Refusal::StartTooFar,
            9 => Refusal::NoRoom { place },
            10 => Refusal::FieldOutOfRange { field: field(place) },
            _ => unreachable!("the library gives the numbers 0 to 10"),
        })
    }

    /// The same, of a list of which so many words were passed before.
    pub(crate) fn later(self, before: u64) -> Refusal {
        match self {
            Refusal::UnknownCode { place } => Refusal::UnknownCode { place: place + before },
            Refusal::WordTooLarge { place } => Refusal::WordTooLarge { place: place + before },
            Refusal::NoRoom { place } => Refusal::NoRoom { place: place + before },
            other => other,
        }
    }

    /// `value`, unless the verdict refuses.
    pub(crate) fn unless<T>(number: u64, place: u64, value: T) -> Result<T, Refusal> {
        match Refusal::of(number, place) {
            None => Ok(value),
            Some(refusal) => Err(refusal),
        }
    }
}

fn field(place: u64) -> Field {
    match place {
        0 => Field::Card,
        1 => Field::Rollover,
        2 => Field::Folder,
        3 => Field::Frame,
        4 => Field::Kind,
        _ => unreachable!("a key has five fields"),
    }
}

impl fmt::Display for Refusal {
    fn fmt(&self, f: &mut fmt::Formatter<'_>) -> fmt::Result {
        match self {
            Refusal::Malformed { place } => write!(f, "region {place} is not well formed"),
            Refusal::OutOfRange => write!(f, "a number of the region is outside its range"),
            Refusal::TooShort => write!(f, "the slice is shorter than the region"),
            Refusal::BadLengths => write!(f, "codes, words and answers do not fit together"),
            Refusal::UnknownCode { place } => write!(f, "unknown code at place {place}"),
            Refusal::WordTooLarge { place } => write!(f, "the word at place {place} is too large for the set"),
            Refusal::SetsDiffer => write!(f, "the sets differ in P or S"),
            Refusal::StartTooFar => write!(f, "the walk starts above the member count"),
            Refusal::NoRoom { place } => write!(f, "no room for the command at place {place}"),
            Refusal::FieldOutOfRange { field } => write!(f, "the key's {field:?} is out of range"),
        }
    }
}

impl std::error::Error for Refusal {}
