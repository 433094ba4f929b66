//! Preview keys: card, rollover, folder, frame and kind in 40 bits, each a type of its own.
use crate::ffi;
use crate::refusal::Refusal;

/// A card, 0 to 4,095: the key's prefix.
#[derive(Debug, Clone, Copy, PartialEq, Eq, PartialOrd, Ord, Hash)]
pub struct Card(pub u64);

/// How often the frame numbers have rolled over, 0 to 7.
#[derive(Debug, Clone, Copy, PartialEq, Eq, PartialOrd, Ord, Hash)]
pub struct Rollover(pub u64);

/// A folder, 100 to 999.
#[derive(Debug, Clone, Copy, PartialEq, Eq, PartialOrd, Ord, Hash)]
pub struct Folder(pub u64);

/// A frame, 0 to 9,999.
#[derive(Debug, Clone, Copy, PartialEq, Eq, PartialOrd, Ord, Hash)]
pub struct Frame(pub u64);

/// What a key is of: the raw file or its sidecar.
#[derive(Debug, Clone, Copy, PartialEq, Eq, PartialOrd, Ord, Hash)]
pub enum Kind {
    /// 0.
    Raw,
    /// 1.
    Sidecar,
}

/// The fields of a key, from the top.
#[derive(Debug, Clone, Copy, PartialEq, Eq, PartialOrd, Ord, Hash)]
pub struct Fields {
    /// Field 0.
    pub card: Card,
    /// Field 1.
    pub rollover: Rollover,
    /// Field 2.
    pub folder: Folder,
    /// Field 3.
    pub frame: Frame,
    /// Field 4.
    pub kind: Kind,
}

/// A preview key: a word below 2^40 whose fields are all in range.
#[derive(Debug, Clone, Copy, PartialEq, Eq, PartialOrd, Ord, Hash)]
pub struct Key(u64);

impl Key {
    /// Packs fields into a key, or names the first field that is out of range.
    ///
    /// ```
    /// use brothowl::{Card, Field, Fields, Folder, Frame, Key, Kind, Refusal, Rollover};
    ///
    /// let fields = Fields { card: Card(5), rollover: Rollover(0), folder: Folder(99), frame: Frame(1), kind: Kind::Raw };
    /// assert_eq!(Key::pack(fields), Err(Refusal::FieldOutOfRange { field: Field::Folder }));
    /// ```
    pub fn pack(fields: Fields) -> Result<Key, Refusal> {
        let kind = match fields.kind {
            Kind::Raw => 0,
            Kind::Sidecar => 1,
        };
        let v = ffi::pack(fields.card.0, fields.rollover.0, fields.folder.0, fields.frame.0, kind);
        Refusal::unless(v.number, v.place, Key(v.key))
    }

    /// The word of the set: card·2^28 + rollover·2^25 + folder·2^15 + frame·2 + kind.
    pub fn word(self) -> u64 {
        self.0
    }

    /// The fields again.
    pub fn fields(self) -> Fields {
        match unpack(self.0) {
            Ok(fields) => fields,
            Err(_) => unreachable!("a key was packed, or was unpacked once before"),
        }
    }
}

/// Unpacks a word: 6 at or above 2^40, 10 where its folder or frame is out of range.
///
/// ```
/// use brothowl::{Key, Refusal};
///
/// assert_eq!(Key::try_from(1u64 << 40), Err(Refusal::WordTooLarge { place: 0 }));
/// ```
impl TryFrom<u64> for Key {
    type Error = Refusal;

    fn try_from(word: u64) -> Result<Key, Refusal> {
        unpack(word).map(|_| Key(word))
    }
}

impl From<Key> for u64 {
    fn from(key: Key) -> u64 {
        key.0
    }
}

fn unpack(word: u64) -> Result<Fields, Refusal> {
    let v = ffi::unpack(word);
    let kind = if v.kind == 0 { Kind::Raw } else { Kind::Sidecar };
    Refusal::unless(
        v.number,
        v.place,
        Fields {
            card: Card(v.card),
            rollover: Rollover(v.rollover),
            folder: Folder(v.folder),
            frame: Frame(v.frame),
            kind,
        },
    )
}
