//! Regions: the memory that a set lives in, and the entries as they stand: slices in, a refusal or an answer out.
use crate::ffi;
use crate::refusal::Refusal;

/// The numbers of a region.
#[derive(Debug, Clone, Copy, PartialEq, Eq, Hash)]
pub struct Numbers {
    /// Bits of a prefix, 1 to 24.
    pub p: u64,
    /// Bits of a suffix, 1 to 40.
    pub s: u64,
    /// Container slots, 1 to 65,536: how many different prefixes there is room for.
    pub containers: u64,
    /// Node slots, 0 to 1,048,576: room for the tries of prefixes with more than 1,024 words.
    pub nodes: u64,
}

impl Numbers {
    /// The numbers of a set of preview keys, with room for so many cards and trie nodes.
    pub fn for_keys(cards: u64, nodes: u64) -> Numbers {
        Numbers { p: 12, s: 28, containers: cards, nodes }
    }

    /// How many words a region of these numbers takes; `None` where a number is outside its range.
    ///
    /// ```
    /// assert_eq!(brothowl::Numbers::for_keys(4, 8).words(), Some(6320));
    /// ```
    pub fn words(self) -> Option<usize> {
        let good = (1..=24).contains(&self.p)
            && (1..=40).contains(&self.s)
            && (1..=65_536).contains(&self.containers)
            && self.nodes <= 1_048_576;
        if !good {
            return None;
        }
        let bitmap = ((1u64 << self.p) / 64).max(1);
        let words = 16 + bitmap + (1 + 1 + 4 + 1024) * self.containers + (1 + 264) * self.nodes;
        usize::try_from(words).ok()
    }

    /// How many of them stand before the nodes, which are the last of a region.
    pub(crate) fn words_before_nodes(self) -> Option<usize> {
        Some(self.words()? - 264 * self.nodes as usize)
    }
}

/// Makes a region in a lent slice: the fresh image up to its length; the words past it stay.
///
/// ```
/// use brothowl::{make, Numbers, Refusal};
///
/// let mut words = vec![7u64; 6321];
/// make(&mut words, Numbers::for_keys(4, 8))?;
/// assert_eq!(words[..8], [1, 12, 28, 4, 8, 0, 0, 0]);
/// assert_eq!(words[6320], 7);
/// assert_eq!(make(&mut words[..6319], Numbers::for_keys(4, 8)), Err(Refusal::TooShort));
/// # Ok::<(), Refusal>(())
/// ```
pub fn make(region: &mut [u64], numbers: Numbers) -> Result<(), Refusal> {
    let v = ffi::make(region, numbers.p, numbers.s, numbers.containers, numbers.nodes);
    Refusal::unless(v.number, v.place, ())
}

/// Whether a slice is a well-formed region.
///
/// ```
/// use brothowl::{check, make, Numbers, Refusal};
///
/// let mut words = vec![0; 6320];
/// assert_eq!(check(&words), Err(Refusal::Malformed { place: 0 }));
/// make(&mut words, Numbers::for_keys(4, 8))?;
/// assert_eq!(check(&words), Ok(()));
/// # Ok::<(), Refusal>(())
/// ```
pub fn check(region: &[u64]) -> Result<(), Refusal> {
    let v = ffi::check(region);
    Refusal::unless(v.number, v.place, ())
}

/// Runs a command list on a region: one code (0 lookup, 1 insert, 2 remove), one word and one answer byte each.
/// Lookup and remove answer 1 if the word was a member, insert 1 if it was not.
///
/// With [`Refusal::NoRoom`] the earlier commands are done and answered; every other refusal changes nothing.
pub fn run(region: &mut [u64], codes: &[u8], words: &[u64], answers: &mut [u8]) -> Result<(), Refusal> {
    let v = ffi::list(region, codes, words, answers);
    Refusal::unless(v.number, v.place, ())
}

/// Whether all words of a list, of at most 4,096, are members: yes for an empty list.
pub fn all_members(region: &[u64], words: &[u64]) -> Result<bool, Refusal> {
    let v = ffi::all_members(region, words);
    Refusal::unless(v.number, v.place, v.all == 1)
}

/// Writes the words of a region from the one with number `start` on, as far as the output reaches, and answers how many.
/// Prefixes ascend; under a prefix, words stand in stored order up to 1,024 and ascending above.
pub fn walk(region: &[u64], start: u64, output: &mut [u64]) -> Result<usize, Refusal> {
    let v = ffi::walk(region, start, output);
    Refusal::unless(v.number, v.place, v.written as usize)
}

/// A combination of two sets.
#[derive(Debug, Clone, Copy, PartialEq, Eq, Hash)]
pub enum Operation {
    /// Words of a or b.
    Or,
    /// Words of both.
    And,
    /// Words of a that b does not have.
    Minus,
    /// Words of one alone.
    Xor,
}

impl Operation {
    pub(crate) fn code(self) -> u64 {
        match self {
            Operation::Or => 0,
            Operation::And => 1,
            Operation::Minus => 2,
            Operation::Xor => 3,
        }
    }
}

/// Combines two sets into a third. All three must be well formed and agree in P and S; the destination keeps its own
/// containers and nodes, and its members are replaced. With [`Refusal::NoRoom`] it is left empty.
///
/// The borrows say what the library asks: a and b may be one region, the destination is another.
pub fn combine(operation: Operation, a: &[u64], b: &[u64], destination: &mut [u64]) -> Result<(), Refusal> {
    let v = ffi::combine(operation.code(), a, b, destination);
    Refusal::unless(v.number, v.place, ())
}
