//! A set over a region that it owns, or over one that is lent to it.
use crate::memory::Memory;
use crate::refusal::Refusal;
use crate::region::{self, Numbers, Operation};
use std::ops::{BitAnd, BitOr, BitXor, Sub};

/// The most commands in one list.
pub const LONGEST: usize = 4096;

/// The most node slots of a region.
const MOST_NODES: u64 = 1_048_576;

/// The most container slots of a region.
const MOST_CONTAINERS: u64 = 65_536;

/// One command of a list.
#[derive(Debug, Clone, Copy, PartialEq, Eq, Hash)]
pub enum Command {
    /// Is the word a member?
    Lookup(u64),
    /// Insert it: was it new?
    Insert(u64),
    /// Remove it: was it there?
    Remove(u64),
}

impl Command {
    fn code(self) -> u8 {
        match self {
            Command::Lookup(_) => 0,
            Command::Insert(_) => 1,
            Command::Remove(_) => 2,
        }
    }

    fn word(self) -> u64 {
        match self {
            Command::Lookup(w) | Command::Insert(w) | Command::Remove(w) => w,
        }
    }
}

/// A list that was refused: why, and the answers of the commands before it, which are done (none unless there was no room).
#[derive(Debug, Clone, PartialEq, Eq)]
pub struct Stopped {
    /// Why.
    pub refusal: Refusal,
    /// The answers given.
    pub answers: Vec<bool>,
}

impl std::fmt::Display for Stopped {
    fn fmt(&self, f: &mut std::fmt::Formatter<'_>) -> std::fmt::Result {
        write!(f, "{} ({} commands done)", self.refusal, self.answers.len())
    }
}

impl std::error::Error for Stopped {}

impl From<Stopped> for Refusal {
    fn from(stopped: Stopped) -> Refusal {
        stopped.refusal
    }
}

/// A set of words. `R` is the memory: [`Memory`] or a `Vec<u64>` that it owns, or a slice that is lent to it.
///
/// Every call goes through an exported entry, and every entry checks the region first: that is what makes a damaged
/// region a refusal and not a wrong answer. So many words are best passed in one list ([`Set::run`], [`Set::insert_all`]).
///
/// ```
/// use brothowl::{Numbers, Set};
///
/// let mut set = Set::new(Numbers::for_keys(4, 8))?;
/// assert!(set.insert(7)?);
/// assert!(!set.insert(7)?); // it was a member already
/// assert!(set.contains(7)?);
/// assert!(!set.remove(8)?); // it never was one
/// assert_eq!(set.len(), 1);
/// # Ok::<(), brothowl::Refusal>(())
/// ```
#[derive(Debug, Clone)]
pub struct Set<R = Memory> {
    region: R,
}

impl Set<Memory> {
    /// An empty set in memory of its own.
    pub fn new(numbers: Numbers) -> Result<Set, Refusal> {
        let mut region = Memory::for_region(numbers).ok_or(Refusal::OutOfRange)?;
        region::make(&mut region, numbers)?;
        Ok(Set { region })
    }

    /// The set in a region that was made before, copied into memory of its own.
    ///
    /// ```
    /// use brothowl::{Numbers, Set};
    ///
    /// let mut set = Set::new(Numbers::for_keys(4, 8))?;
    /// set.insert(7)?;
    /// let stored: Vec<u64> = set.into_region().into();
    /// let back: Set = Set::copy_of(&stored)?;
    /// assert!(back.contains(7)?);
    /// # Ok::<(), brothowl::Refusal>(())
    /// ```
    pub fn copy_of(region: &[u64]) -> Result<Set, Refusal> {
        let lent = Set::over(region)?;
        let mut copy = Memory::for_region(lent.numbers()).ok_or(Refusal::OutOfRange)?;
        let words = copy.len();
        copy.copy_from_slice(&region[..words]);
        Ok(Set { region: copy })
    }
}

impl<R: AsRef<[u64]>> Set<R> {
    /// The set in a region that was made before, where it lies; [`Set::copy_of`] copies it.
    ///
    /// ```
    /// use brothowl::{make, Numbers, Refusal, Set};
    ///
    /// let mut card = vec![0; 6320];
    /// assert_eq!(Set::over(&mut card[..]).unwrap_err(), Refusal::Malformed { place: 0 });
    /// make(&mut card, Numbers::for_keys(4, 8))?;
    /// let mut set = Set::over(&mut card[..])?; // lent for writing
    /// set.insert(7)?;
    /// assert_eq!(Set::over(&card[..])?.len(), 1); // lent for reading
    /// # Ok::<(), Refusal>(())
    /// ```
    pub fn over(region: R) -> Result<Set<R>, Refusal> {
        region::check(region.as_ref())?;
        Ok(Set { region })
    }

    /// The region's words.
    pub fn region(&self) -> &[u64] {
        self.region.as_ref()
    }

    /// The memory back.
    pub fn into_region(self) -> R {
        self.region
    }

    /// The numbers that it was made with.
    pub fn numbers(&self) -> Numbers {
        let h = self.header();
        Numbers { p: h[1], s: h[2], containers: h[3], nodes: h[4] }
    }

    /// How many words are members.
    pub fn len(&self) -> u64 {
        self.header()[7]
    }

    /// Whether no word is.
    pub fn is_empty(&self) -> bool {
        self.len() == 0
    }

    /// Containers in use: how many different prefixes its members have.
    pub fn containers_in_use(&self) -> u64 {
        self.header()[5]
    }

    /// Nodes in use.
    pub fn nodes_in_use(&self) -> u64 {
        self.header()[6]
    }

    /// Whether a word is a member.
    pub fn contains(&self, word: u64) -> Result<bool, Refusal> {
        region::all_members(self.region(), &[word])
    }

    /// Whether all words of a list, of at most 4,096, are members.
    pub fn contains_all(&self, words: &[u64]) -> Result<bool, Refusal> {
        region::all_members(self.region(), words)
    }

    /// Writes its words from place `start` on, as far as the output reaches, and answers how many.
    pub fn walk(&self, start: u64, output: &mut [u64]) -> Result<usize, Refusal> {
        region::walk(self.region(), start, output)
    }

    /// Its words in walk order.
    ///
    /// ```
    /// use brothowl::{Numbers, Set};
    ///
    /// let mut set = Set::new(Numbers::for_keys(4, 8))?;
    /// set.insert_all([7, 4, 9])?;
    /// set.remove(7)?; // the last entry moves into the hole
    /// assert_eq!(set.iter().collect::<Vec<_>>(), [9, 4]);
    /// # Ok::<(), brothowl::Refusal>(())
    /// ```
    pub fn iter(&self) -> Iter<'_> {
        Iter { region: self.region(), walked: 0, words: Vec::new(), at: 0 }
    }

    fn header(&self) -> &[u64] {
        // a set is made over a region that was checked, so the header is there
        &self.region.as_ref()[..16]
    }
}

impl<R: AsRef<[u64]> + AsMut<[u64]>> Set<R> {
    /// Inserts a word: whether it was new.
    pub fn insert(&mut self, word: u64) -> Result<bool, Refusal> {
        self.one(1, word)
    }

    /// Removes a word: whether it was a member.
    pub fn remove(&mut self, word: u64) -> Result<bool, Refusal> {
        self.one(2, word)
    }

    fn one(&mut self, code: u8, word: u64) -> Result<bool, Refusal> {
        let mut answer = [0];
        region::run(self.region.as_mut(), &[code], &[word], &mut answer)?;
        Ok(answer[0] == 1)
    }

    /// Runs a list of at most 4,096 commands: an answer for each.
    ///
    /// ```
    /// use brothowl::{Command, Numbers, Set};
    ///
    /// let mut set = Set::new(Numbers::for_keys(4, 8))?;
    /// let answers = set.run(&[Command::Insert(7), Command::Insert(7), Command::Lookup(7), Command::Remove(8)])?;
    /// assert_eq!(answers, [true, false, true, false]);
    /// # Ok::<(), Box<dyn std::error::Error>>(())
    /// ```
    pub fn run(&mut self, commands: &[Command]) -> Result<Vec<bool>, Stopped> {
        let codes: Vec<u8> = commands.iter().map(|c| c.code()).collect();
        let words: Vec<u64> = commands.iter().map(|c| c.word()).collect();
        let mut answers = vec![0; commands.len()];
        let told = region::run(self.region.as_mut(), &codes, &words, &mut answers);
        let done = match told {
            Ok(()) => commands.len(),
            Err(Refusal::NoRoom { place }) => place as usize,
            Err(_) => 0,
        };
        let answers = answers[..done].iter().map(|a| *a == 1).collect();
        told.map_err(|refusal| Stopped { refusal, answers: Vec::clone(&answers) })?;
        Ok(answers)
    }

    /// Inserts words, as many lists as it takes: how many were new. Where there is no room it stops, the earlier words
    /// done, and `place` counts from the first word given.
    pub fn insert_all(&mut self, words: impl IntoIterator<Item = u64>) -> Result<u64, Refusal> {
        self.many(1, words)
    }

    /// Removes words, as many lists as it takes: how many were members. A word that is none is no removal.
    pub fn remove_all(&mut self, words: impl IntoIterator<Item = u64>) -> Result<u64, Refusal> {
        self.many(2, words)
    }

    fn many(&mut self, code: u8, words: impl IntoIterator<Item = u64>) -> Result<u64, Refusal> {
        let codes = [code; LONGEST];
        let mut answers = [0; LONGEST];
        let mut words = words.into_iter();
        let mut list = Vec::with_capacity(LONGEST);
        let (mut before, mut ones) = (0, 0);
        loop {
            list.clear();
            list.extend(words.by_ref().take(LONGEST));
            if list.is_empty() {
                return Ok(ones);
            }
            let n = list.len();
            region::run(self.region.as_mut(), &codes[..n], &list, &mut answers[..n]).map_err(|r| r.later(before))?;
            ones += answers[..n].iter().map(|a| u64::from(*a)).sum::<u64>();
            before += n as u64;
        }
    }

    /// Makes this set the combination of two others, in its own memory. With [`Refusal::NoRoom`] it is left empty.
    ///
    /// ```
    /// use brothowl::{Numbers, Operation, Set};
    ///
    /// let numbers = Numbers::for_keys(4, 8);
    /// let (mut a, mut b, mut both) = (Set::new(numbers)?, Set::new(numbers)?, Set::new(numbers)?);
    /// a.insert_all([1, 2, 3])?;
    /// b.insert_all([2, 3, 4])?;
    /// both.combine(Operation::Xor, &a, &b)?;
    /// assert_eq!(both.iter().collect::<Vec<_>>(), [1, 4]);
    /// # Ok::<(), brothowl::Refusal>(())
    /// ```
    pub fn combine<A: AsRef<[u64]>, B: AsRef<[u64]>>(&mut self, operation: Operation, a: &Set<A>, b: &Set<B>) -> Result<(), Refusal> {
        region::combine(operation, a.region(), b.region(), self.region.as_mut())
    }
}

/// The words of a set in walk order, fetched by walks of growing length.
#[derive(Debug, Clone)]
pub struct Iter<'a> {
    region: &'a [u64],
    walked: u64,
    words: Vec<u64>,
    at: usize,
}

impl Iter<'_> {
    fn left(&self) -> usize {
        (self.region[7] - self.walked) as usize
    }
}

impl Iterator for Iter<'_> {
    type Item = u64;

    fn next(&mut self) -> Option<u64> {
        if self.at == self.words.len() {
            // each walk checks the region, so a set that is walked to its end is fetched in few of them
            let room = (2 * self.words.len()).clamp(1024, 1 << 20).min(self.left());
            self.words.resize(room, 0);
            let written = region::walk(self.region, self.walked, &mut self.words).expect("the set was checked, and is only lent for reading");
            self.words.truncate(written);
            self.walked += written as u64;
            self.at = 0;
        }
        let word = *self.words.get(self.at)?;
        self.at += 1;
        Some(word)
    }

    fn size_hint(&self) -> (usize, Option<usize>) {
        let n = self.left() + self.words.len() - self.at;
        (n, Some(n))
    }
}

impl ExactSizeIterator for Iter<'_> {}

impl<'a, R: AsRef<[u64]>> IntoIterator for &'a Set<R> {
    type Item = u64;
    type IntoIter = Iter<'a>;

    fn into_iter(self) -> Iter<'a> {
        self.iter()
    }
}

/// The combination in new memory: room for the containers of both, and for more nodes as long as they do not suffice.
fn combined<A: AsRef<[u64]>, B: AsRef<[u64]>>(operation: Operation, a: &Set<A>, b: &Set<B>) -> Result<Set, Refusal> {
    let Numbers { p, s, .. } = a.numbers();
    let containers = (a.containers_in_use() + b.containers_in_use()).clamp(1, MOST_CONTAINERS);
    let mut nodes = (a.nodes_in_use() + b.nodes_in_use()).min(MOST_NODES);
    loop {
        let mut new = Set::new(Numbers { p, s, containers, nodes })?;
        match new.combine(operation, a, b) {
            Err(Refusal::NoRoom { .. }) if nodes < MOST_NODES => nodes = (2 * nodes).clamp(64, MOST_NODES),
            told => return told.map(|()| new),
        }
    }
}

macro_rules! operator {
    ($trait:ident, $method:ident, $operation:ident) => {
        /// The combination in new memory; [`Set::combine`] has it in memory of the caller's choice.
        impl<A: AsRef<[u64]>, B: AsRef<[u64]>> $trait<&Set<B>> for &Set<A> {
            type Output = Result<Set, Refusal>;

            fn $method(self, other: &Set<B>) -> Result<Set, Refusal> {
                combined(Operation::$operation, self, other)
            }
        }
    };
}

operator!(BitOr, bitor, Or);
operator!(BitAnd, bitand, And);
operator!(Sub, sub, Minus);
operator!(BitXor, bitxor, Xor);
