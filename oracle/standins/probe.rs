// Stands in for nothing: our own window on a word set, for the driver.
// It only reads. The fields it reads are those of the published text.

use crate::wordset::WordSet;

/// What a container in use looks like.
#[derive(Clone, Debug, PartialEq, Eq)]
pub struct Container {
    pub prefix: usize,
    pub slot: usize,
    pub trie: bool,
    pub stored: usize,
    pub nodes: usize,
}

impl<const PREFIX_BITS: usize, const SUFFIX_BITS: usize> WordSet<PREFIX_BITS, SUFFIX_BITS>
where
    [(); SUFFIX_BITS.div_ceil(8)]:,
{
    /// The containers in use, by ascending prefix.
    pub fn probe_containers(&self) -> Vec<Container> {
        let seen = |(rank, prefix)| {
            let slot = self.tiered.get(rank) as usize;
            let container = &self.suffix_containers[slot];
            let trie = container.is_trie();
            // The Rust's own count_nodes answers the length for a vector; document 01 says 0.
            let nodes = if trie { container.count_nodes() } else { 0 };
            Container { prefix, slot, trie, stored: container.len(), nodes }
        };
        self.prefixes.iter().enumerate().map(seen).collect()
    }

    /// The freed slots, the one handed out next last, each with what it still holds.
    pub fn probe_freed(&self) -> Vec<(usize, bool, usize)> {
        let seen = |&slot: &usize| {
            let container = &self.suffix_containers[slot];
            (slot, container.is_trie(), container.iter().count())
        };
        self.empty_containers.iter().map(seen).collect()
    }

    /// All slots ever made, in use or freed.
    pub fn probe_slots(&self) -> usize {
        self.suffix_containers.len()
    }
}
