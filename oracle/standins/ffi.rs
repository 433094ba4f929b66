// Stands in for src/ffi.rs, which binds the C++ of rank_bv.h and tiered_vec.h.
// Certain, because the Rust texts call them so: the names, the arguments, that every
// method works through a shared reference, that `set` answers the old bit and that
// `rank` counts the ones strictly below. `clear` is taken to answer the old bit too;
// no word set function uses that answer.
// Not known: the C++'s cost, and what it does outside its range. Ours stops there.

use std::cell::{Cell, RefCell};
#[cfg(not(feature = "flat"))]
use std::collections::VecDeque;
use std::ops::Deref;

/// An owning pointer. The original is cxx::UniquePtr.
pub struct UniquePtr<T>(Box<T>);

impl<T> Deref for UniquePtr<T> {
    type Target = T;
    fn deref(&self) -> &T {
        &self.0
    }
}

/// Moves a made value behind the pointer. The original is autocxx::WithinUniquePtr.
pub trait WithinUniquePtr: Sized {
    fn within_unique_ptr(self) -> UniquePtr<Self> {
        UniquePtr(Box::new(self))
    }
}

impl WithinUniquePtr for RankBV {}
impl WithinUniquePtr for TieredVec32 {}

/// A row of bits with ranks. A Fenwick tree over the blocks keeps rank short at P=24.
pub struct RankBV {
    size: usize,
    blocks: Vec<Cell<u64>>,
    sums: Vec<Cell<usize>>,
}

impl RankBV {
    pub fn new(size: usize) -> Self {
        let count = size.div_ceil(64).max(1);
        RankBV {
            size,
            blocks: vec![Cell::new(0); count],
            sums: vec![Cell::new(0); count + 1],
        }
    }

    pub fn size(&self) -> usize {
        self.size
    }

    pub fn num_blocks(&self) -> usize {
        self.blocks.len()
    }

    pub fn get_block(&self, block: usize) -> u64 {
        self.blocks[block].get()
    }

    pub fn update_block(&self, block: usize, bits: u64) {
        let old = self.blocks[block].replace(bits).count_ones() as usize;
        let new = bits.count_ones() as usize;
        let mut place = block + 1;
        while place < self.sums.len() {
            let sum = &self.sums[place];
            sum.set(sum.get() + new - old);
            place += place & place.wrapping_neg();
        }
    }

    pub fn get(&self, index: usize) -> bool {
        self.inside(index);
        self.get_block(index / 64) >> (index % 64) & 1 == 1
    }

    pub fn set(&self, index: usize) -> bool {
        let old = self.get(index);
        if !old {
            self.update_block(index / 64, self.get_block(index / 64) | 1 << (index % 64));
        }
        old
    }

    pub fn clear(&self, index: usize) -> bool {
        let old = self.get(index);
        if old {
            self.update_block(index / 64, self.get_block(index / 64) & !(1 << (index % 64)));
        }
        old
    }

    pub fn rank(&self, index: usize) -> usize {
        self.inside(index);
        let below = self.get_block(index / 64) & ((1 << (index % 64)) - 1);
        self.ones_before(index / 64) + below.count_ones() as usize
    }

    pub fn count_ones(&self) -> usize {
        self.ones_before(self.blocks.len())
    }

    fn ones_before(&self, block: usize) -> usize {
        let mut place = block;
        let mut ones = 0;
        while place > 0 {
            ones += self.sums[place].get();
            place &= place - 1;
        }
        ones
    }

    fn inside(&self, index: usize) {
        assert!(index < self.size, "stand-in RankBV: bit {index} of {}", self.size);
    }
}

/// A row of numbers with insert and remove in the middle, in two levels:
/// every chunk but the last is full, so a place is found by division.
#[cfg(not(feature = "flat"))]
#[derive(Default)]
pub struct TieredVec32 {
    chunks: RefCell<Vec<VecDeque<u32>>>,
}

#[cfg(not(feature = "flat"))]
const CHUNK: usize = 512;

#[cfg(not(feature = "flat"))]
impl TieredVec32 {
    pub fn new() -> Self {
        Self::default()
    }

    pub fn len(&self) -> usize {
        let chunks = self.chunks.borrow();
        chunks.last().map_or(0, |last| (chunks.len() - 1) * CHUNK + last.len())
    }

    pub fn is_empty(&self) -> bool {
        self.len() == 0
    }

    pub fn get(&self, index: usize) -> u32 {
        self.chunks.borrow()[index / CHUNK][index % CHUNK]
    }

    pub fn insert(&self, index: usize, value: u32) {
        assert!(index <= self.len(), "stand-in TieredVec32: insert at {index} of {}", self.len());
        let mut chunks = self.chunks.borrow_mut();
        let mut at = index / CHUNK;
        if at == chunks.len() {
            chunks.push(VecDeque::new());
        }
        chunks[at].insert(index % CHUNK, value);
        while chunks[at].len() > CHUNK {
            let over = chunks[at].pop_back().unwrap();
            at += 1;
            if at == chunks.len() {
                chunks.push(VecDeque::new());
            }
            chunks[at].push_front(over);
        }
    }

    pub fn remove(&self, index: usize) {
        let mut chunks = self.chunks.borrow_mut();
        let at = index / CHUNK;
        let gone = chunks[at].remove(index % CHUNK);
        assert!(gone.is_some(), "stand-in TieredVec32: remove at {index}");
        for next in at + 1..chunks.len() {
            let first = chunks[next].pop_front().unwrap();
            chunks[next - 1].push_back(first);
        }
        if chunks.last().is_some_and(|last| last.is_empty()) {
            chunks.pop();
        }
    }
}

/// The same as a flat table of words, as the port's rank table is: for the bench's rows of new prefixes.
#[cfg(feature = "flat")]
#[derive(Default)]
pub struct TieredVec32 {
    words: RefCell<Vec<u64>>,
}

#[cfg(feature = "flat")]
impl TieredVec32 {
    pub fn new() -> Self {
        Self::default()
    }

    pub fn len(&self) -> usize {
        self.words.borrow().len()
    }

    pub fn is_empty(&self) -> bool {
        self.len() == 0
    }

    pub fn get(&self, index: usize) -> u32 {
        self.words.borrow()[index] as u32
    }

    pub fn insert(&self, index: usize, value: u32) {
        self.words.borrow_mut().insert(index, u64::from(value));
    }

    pub fn remove(&self, index: usize) {
        self.words.borrow_mut().remove(index);
    }
}
