//! Memory that a set owns.
use crate::region::Numbers;
use std::fmt;
use std::ops::{Deref, DerefMut};

/// Words of a cache line of 64 bytes.
const LINE: usize = 8;

/// The words of a set that owns them; a slice to whoever looks at it.
///
/// The nodes of the region that it is made for begin at cache lines. The first eight words of a node are looked at together, and
/// a node is 33 lines long: either no node has these words on two lines, or all have. A region may begin anywhere; this is only
/// the quickest place.
///
/// Words that were kept elsewhere come back into such memory by [`Set::copy_of`](crate::Set::copy_of).
pub struct Memory {
    words: Vec<u64>,
    start: usize,
    /// Where the nodes begin, counted from `start`.
    nodes: usize,
    len: usize,
}

impl Memory {
    /// Zeroes, as many as a region of these numbers takes; `None` where a number is outside its range.
    pub(crate) fn for_region(numbers: Numbers) -> Option<Memory> {
        let (len, nodes) = (numbers.words()?, numbers.words_before_nodes()?);
        Some(Memory::zeroes(len, nodes))
    }

    fn zeroes(len: usize, nodes: usize) -> Memory {
        let words = vec![0; len + LINE - 1];
        let first = words.as_ptr() as usize / std::mem::size_of::<u64>() + nodes;
        let start = first.next_multiple_of(LINE) - first;
        Memory { words, start, nodes, len }
    }
}

impl Deref for Memory {
    type Target = [u64];

    fn deref(&self) -> &[u64] {
        &self.words[self.start..self.start + self.len]
    }
}

impl DerefMut for Memory {
    fn deref_mut(&mut self) -> &mut [u64] {
        &mut self.words[self.start..self.start + self.len]
    }
}

impl AsRef<[u64]> for Memory {
    fn as_ref(&self) -> &[u64] {
        self
    }
}

impl AsMut<[u64]> for Memory {
    fn as_mut(&mut self) -> &mut [u64] {
        self
    }
}

impl Clone for Memory {
    /// A copy lies elsewhere, so its place is found anew.
    fn clone(&self) -> Memory {
        let mut copy = Memory::zeroes(self.len, self.nodes);
        copy.copy_from_slice(self);
        copy
    }
}

impl PartialEq for Memory {
    fn eq(&self, other: &Memory) -> bool {
        **self == **other
    }
}

impl Eq for Memory {}

impl fmt::Debug for Memory {
    fn fmt(&self, f: &mut fmt::Formatter<'_>) -> fmt::Result {
        fmt::Debug::fmt(&**self, f)
    }
}

impl From<Memory> for Vec<u64> {
    fn from(memory: Memory) -> Vec<u64> {
        let Memory { mut words, start, len, .. } = memory;
        words.truncate(start + len);
        words.drain(..start);
        words
    }
}
