#![allow(incomplete_features)]
#![feature(generic_const_exprs)]

//! Both builds of the Rust behind one face, and small helpers of the programs beside it.

use std::collections::BTreeSet;

/// One container in use, by ascending prefix.
#[derive(Clone, Debug, PartialEq, Eq)]
pub struct Container {
    pub prefix: usize,
    pub slot: usize,
    pub trie: bool,
    pub stored: usize,
    pub nodes: usize,
}

/// A freed slot: its number, whether it is a trie, and how many suffixes it still holds.
pub type Freed = (usize, bool, usize);

/// A word set of either build, over u64 words.
pub trait Set {
    fn contains(&self, word: u64) -> bool;
    fn insert(&mut self, word: u64) -> bool;
    fn remove(&mut self, word: u64) -> bool;
    fn insert_batch(&mut self, words: &[u64]);
    fn remove_batch(&mut self, words: &[u64]);
    fn contains_all(&mut self, words: &[u64]) -> bool;
    fn count(&self) -> usize;
    fn is_empty(&self) -> bool;
    fn walk(&self) -> Vec<u64>;
    fn containers(&self) -> Vec<Container>;
    fn freed(&self) -> Vec<Freed>;
    fn slots(&self) -> usize;
}

/// Which build.
#[derive(Clone, Copy, Debug, PartialEq, Eq)]
pub enum Build {
    Published,
    Corrected,
}

/// Document 01's combination codes.
pub const COMBINATIONS: [&str; 4] = ["or", "and", "minus", "xor"];

/// What both builds must agree on for a combination, each in ascending order.
pub struct Combined {
    pub operator: Vec<u64>,
    pub assigned: Vec<u64>,
    /// `merge` and `intersect`, which use no container operator of ours; codes 0 and 1 only.
    pub merged: Option<Vec<u64>>,
}

pub fn ascending(words: Vec<u64>) -> Vec<u64> {
    let mut words = words;
    words.sort_unstable();
    words
}

macro_rules! faces {
    ($module:ident, $package:ident) => {
        impl<const P: usize, const S: usize> Set for $package::wordset::WordSet<P, S>
        where
            [(); S.div_ceil(8)]:,
        {
            fn contains(&self, word: u64) -> bool {
                self.contains(word)
            }
            fn insert(&mut self, word: u64) -> bool {
                self.insert(word)
            }
            fn remove(&mut self, word: u64) -> bool {
                self.remove(word)
            }
            fn insert_batch(&mut self, words: &[u64]) {
                self.insert_batch(words)
            }
            fn remove_batch(&mut self, words: &[u64]) {
                self.remove_batch(words)
            }
            fn contains_all(&mut self, words: &[u64]) -> bool {
                self.contains_all(words)
            }
            fn count(&self) -> usize {
                self.count()
            }
            fn is_empty(&self) -> bool {
                self.is_empty()
            }
            fn walk(&self) -> Vec<u64> {
                self.iter().collect()
            }
            fn containers(&self) -> Vec<Container> {
                let seen = |c: $package::probe::Container| Container {
                    prefix: c.prefix,
                    slot: c.slot,
                    trie: c.trie,
                    stored: c.stored,
                    nodes: c.nodes,
                };
                self.probe_containers().into_iter().map(seen).collect()
            }
            fn freed(&self) -> Vec<Freed> {
                self.probe_freed()
            }
            fn slots(&self) -> usize {
                self.probe_slots()
            }
        }

        pub mod $module {
            use super::*;
            pub use $package::*;
            use $package::wordset::WordSet;

            /// A combination of two sets made by inserting the words one by one.
            pub fn combined<const P: usize, const S: usize>(
                code: usize,
                a: &[u64],
                b: &[u64],
            ) -> Combined
            where
                [(); S.div_ceil(8)]:,
            {
                let make = |words: &[u64]| {
                    let mut set = WordSet::<P, S>::new();
                    for &word in words {
                        set.insert(word);
                    }
                    set
                };
                let (mut left, mut right) = (make(a), make(b));
                let result = match code {
                    0 => &mut left | &mut right,
                    1 => &mut left & &mut right,
                    2 => &mut left - &mut right,
                    _ => &mut left ^ &mut right,
                };
                let merged = match code {
                    0 => Some(WordSet::merge(vec![&mut left, &mut right])),
                    1 => Some(WordSet::intersect(vec![&mut left, &mut right])),
                    _ => None,
                };
                match code {
                    0 => left |= &mut right,
                    1 => left &= &mut right,
                    2 => left -= &mut right,
                    _ => left ^= &mut right,
                }
                Combined {
                    operator: ascending(result.walk()),
                    assigned: ascending(left.walk()),
                    merged: merged.map(|set| ascending(set.walk())),
                }
            }
        }
    };
}

faces!(published, cbl_original);
faces!(corrected, cbl_corrected);

/// The sizes that the programs use; a const generic needs each written out.
#[macro_export]
macro_rules! sizes {
    ($p:expr, $s:expr, $call:ident) => {
        match ($p, $s) {
            (1, 1) => $call!(1, 1),
            (1, 8) => $call!(1, 8),
            (2, 11) => $call!(2, 11),
            (3, 9) => $call!(3, 9),
            (4, 16) => $call!(4, 16),
            (6, 17) => $call!(6, 17),
            (7, 24) => $call!(7, 24),
            (12, 28) => $call!(12, 28),
            (16, 32) => $call!(16, 32),
            (24, 40) => $call!(24, 40),
            other => panic!("no set of the sizes {other:?} is built"),
        }
    };
}

/// A fresh set of one build.
pub fn fresh(build: Build, p: usize, s: usize) -> Box<dyn Set> {
    macro_rules! make {
        ($p:literal, $s:literal) => {
            match build {
                Build::Published => Box::new(published::wordset::WordSet::<$p, $s>::new()) as Box<dyn Set>,
                Build::Corrected => Box::new(corrected::wordset::WordSet::<$p, $s>::new()),
            }
        };
    }
    sizes!(p, s, make)
}

/// The combination of the corrected copy.
pub fn combined(p: usize, s: usize, code: usize, a: &[u64], b: &[u64]) -> Combined {
    macro_rules! make {
        ($p:literal, $s:literal) => {
            corrected::combined::<$p, $s>(code, a, b)
        };
    }
    sizes!(p, s, make)
}

/// The combination of plain sets, to hold the oracle against.
pub fn plain(code: usize, a: &[u64], b: &[u64]) -> Vec<u64> {
    let a: BTreeSet<u64> = a.iter().copied().collect();
    let b: BTreeSet<u64> = b.iter().copied().collect();
    match code {
        0 => a.union(&b).copied().collect(),
        1 => a.intersection(&b).copied().collect(),
        2 => a.difference(&b).copied().collect(),
        _ => a.symmetric_difference(&b).copied().collect(),
    }
}

/// A small generator of numbers (SplitMix64), so that a seed names an input for good.
pub struct Numbers(pub u64);

impl Numbers {
    pub fn next(&mut self) -> u64 {
        self.0 = self.0.wrapping_add(0x9e37_79b9_7f4a_7c15);
        let mut z = self.0;
        z = (z ^ (z >> 30)).wrapping_mul(0xbf58_476d_1ce4_e5b9);
        z = (z ^ (z >> 27)).wrapping_mul(0x94d0_49bb_1331_11eb);
        z ^ (z >> 31)
    }

    /// A number below `end`.
    pub fn below(&mut self, end: u64) -> u64 {
        self.next() % end
    }
}

/// Document 01's preview key.
pub fn key(card: u64, rollover: u64, folder: u64, frame: u64, kind: u64) -> u64 {
    (card << 28) + (rollover << 25) + (folder << 15) + (frame << 1) + kind
}

/// 12345 as 12,345.
pub fn grouped(number: usize) -> String {
    let digits = number.to_string();
    let mut text = String::new();
    for (place, digit) in digits.chars().enumerate() {
        if place > 0 && (digits.len() - place) % 3 == 0 {
            text.push(',');
        }
        text.push(digit);
    }
    text
}
