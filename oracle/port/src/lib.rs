//! The port's leaves as the tests' crates `leaves` and `leaves_sets` export them. A leaf refuses what it cannot do with REFUSED. The entries
//! are called through the crate in rust/, as users call them.

use driver::{Container, Freed};

pub const REFUSED: u64 = u64::MAX;

/// A set of the port behind the face that the Rust's two builds have. A batch is lists of single commands.
pub struct Ported(pub brothowl::Set);

impl Ported {
    /// A set of preview keys' sizes, P = 12 and S = 28, with room for a few cards.
    pub fn new() -> Ported {
        Ported(brothowl::Set::new(brothowl::Numbers::for_keys(8, 64)).expect("good numbers"))
    }
}

impl Default for Ported {
    fn default() -> Ported {
        Ported::new()
    }
}

impl driver::Set for Ported {
    fn contains(&self, word: u64) -> bool {
        self.0.contains(word).expect("a word")
    }
    fn insert(&mut self, word: u64) -> bool {
        self.0.insert(word).expect("room")
    }
    fn remove(&mut self, word: u64) -> bool {
        self.0.remove(word).expect("a word")
    }
    fn insert_batch(&mut self, words: &[u64]) {
        self.0.insert_all(words.iter().copied()).expect("room");
    }
    fn remove_batch(&mut self, words: &[u64]) {
        self.0.remove_all(words.iter().copied()).expect("words");
    }
    fn contains_all(&mut self, words: &[u64]) -> bool {
        self.0.contains_all(words).expect("words")
    }
    fn count(&self) -> usize {
        self.0.len() as usize
    }
    fn is_empty(&self) -> bool {
        self.0.is_empty()
    }
    fn walk(&self) -> Vec<u64> {
        self.0.iter().collect()
    }
    fn containers(&self) -> Vec<Container> {
        let l = self.0.region();
        let seen = |rank: usize| {
            let slot = l[l[9] as usize + rank] as usize;
            let record = &l[l[11] as usize + 4 * slot..][..4];
            Container { prefix: record[1] as usize, slot, trie: record[0] == 2, stored: record[2] as usize, nodes: 0 }
        };
        (0..self.0.containers_in_use() as usize).map(seen).collect()
    }
    /// A slot that was in use and is free again is a free slot: it holds nothing.
    fn freed(&self) -> Vec<Freed> {
        Vec::new()
    }
    fn slots(&self) -> usize {
        self.0.numbers().containers as usize
    }
}

/// How many commands were done, REFUSED if none could be, and the nodes in use.
#[repr(C)]
#[derive(Clone, Copy, Debug, PartialEq, Eq)]
pub struct Ran {
    pub done: u64,
    pub used: u64,
}

/// The root of a new trie, REFUSED or NO_ROOM if there is none, and the nodes in use.
#[repr(C)]
#[derive(Clone, Copy, Debug, PartialEq, Eq)]
pub struct Built {
    pub root: u64,
    pub used: u64,
}

pub const NO_ROOM: u64 = u64::MAX - 1;

/// How many suffixes were written, REFUSED if the trie was not poured out, and the nodes in use.
#[repr(C)]
#[derive(Clone, Copy, Debug, PartialEq, Eq)]
pub struct Poured {
    pub written: u64,
    pub used: u64,
}

mod c {
    use super::{Built, Poured, Ran};
    unsafe extern "C" {
        pub fn leaf_map_contains(map: *const u64, words: usize, xs: *const u8, many: usize) -> u64;
        pub fn leaf_map_change(
            map: *mut u64,
            words: usize,
            codes: *const u8,
            many_codes: usize,
            xs: *const u8,
            many: usize,
            answers: *mut u8,
            many_answers: usize,
        ) -> u64;
        pub fn leaf_map_pairs(map: *mut u64, words: usize, xs: *const u8, many: usize, ys: *const u8, many_ys: usize) -> u64;
        pub fn leaf_map_rank(map: *const u64, words: usize, xs: *const u8, many: usize) -> u64;
        pub fn leaf_map_count(maps: *const u64, words: usize) -> u64;
        pub fn leaf_map_walk(map: *const u64, words: usize, out: *mut u8, room: usize) -> u64;
        pub fn leaf_map_next(map: *const u64, words: usize, from: u64) -> u64;
        pub fn leaf_map_is_empty(map: *const u64, words: usize) -> u64;
        pub fn leaf_bitmap_rank(words: *const u64, many: usize, places: *const u64, many_places: usize) -> u64;
        pub fn leaf_bitmap_test(words: *const u64, many: usize, places: *const u64, many_places: usize) -> u64;
        pub fn leaf_bitmap_set(words: *mut u64, many: usize, place: u64) -> u64;
        pub fn leaf_bitmap_clear(words: *mut u64, many: usize, place: u64) -> u64;
        pub fn leaf_bytes(suffixes: *const u64, many: usize, b: u64, out: *mut u8, room: usize) -> u64;
        pub fn leaf_value(s: u64, b: u64) -> u64;
        pub fn leaf_compare(s: u64, t: u64, b: u64) -> u64;
        pub fn leaf_trie_run(
            arena: *mut u64,
            words: usize,
            slots: u64,
            used: u64,
            b: u64,
            root: u64,
            codes: *const u8,
            many_codes: usize,
            suffixes: *const u64,
            many: usize,
            answers: *mut u8,
            many_answers: usize,
        ) -> Ran;
        pub fn leaf_arena_check(arena: *const u64, words: usize, slots: u64, used: u64, b: u64) -> u64;
        pub fn leaf_trie_ask(
            arena: *const u64,
            words: usize,
            slots: u64,
            used: u64,
            b: u64,
            root: u64,
            suffixes: *const u64,
            many: usize,
            answers: *mut u8,
            many_answers: usize,
        ) -> u64;
        pub fn leaf_trie_count(arena: *const u64, words: usize, slots: u64, used: u64, b: u64, root: u64) -> u64;
        pub fn leaf_trie_walk(
            arena: *const u64,
            words: usize,
            slots: u64,
            used: u64,
            b: u64,
            root: u64,
            start: u64,
            out: *mut u64,
            room: usize,
        ) -> u64;
        pub fn leaf_trie_walks(
            arena: *const u64,
            words: usize,
            slots: u64,
            used: u64,
            b: u64,
            root: u64,
            times: u64,
            out: *mut u64,
            room: usize,
        ) -> u64;
        pub fn leaf_trie_build(
            arena: *mut u64,
            words: usize,
            slots: u64,
            used: u64,
            b: u64,
            container: u64,
            strip: *const u64,
            many: usize,
        ) -> Built;
        pub fn leaf_trie_pour(
            arena: *mut u64,
            words: usize,
            slots: u64,
            used: u64,
            b: u64,
            root: u64,
            out: *mut u64,
            room: usize,
        ) -> Poured;
        pub fn leaf_trie_cross(
            arena: *mut u64,
            words: usize,
            slots: u64,
            used: u64,
            b: u64,
            container: u64,
            strip: *const u64,
            many: usize,
            out: *mut u64,
            room: usize,
            times: u64,
        ) -> u64;
        pub fn leaf_set_run(
            region: *mut u64,
            words: usize,
            codes: *const u8,
            many_codes: usize,
            asked: *const u64,
            many: usize,
            answers: *mut u8,
            many_answers: usize,
        ) -> u64;
        pub fn leaf_set_walk(region: *const u64, words: usize, times: u64, out: *mut u64, room: usize) -> u64;
    }
}

// Safe to call: a slice is its pointer and its length, and nothing else is asked.

pub fn map_contains(map: &[u64], xs: &[u8]) -> u64 {
    unsafe { c::leaf_map_contains(map.as_ptr(), map.len(), xs.as_ptr(), xs.len()) }
}

/// Codes: 0 asks, 1 inserts, any other removes.
pub fn map_change(map: &mut [u64], codes: &[u8], xs: &[u8], answers: &mut [u8]) -> u64 {
    unsafe {
        c::leaf_map_change(
            map.as_mut_ptr(),
            map.len(),
            codes.as_ptr(),
            codes.len(),
            xs.as_ptr(),
            xs.len(),
            answers.as_mut_ptr(),
            answers.len(),
        )
    }
}

pub fn map_pairs(map: &mut [u64], xs: &[u8], ys: &[u8]) -> u64 {
    unsafe { c::leaf_map_pairs(map.as_mut_ptr(), map.len(), xs.as_ptr(), xs.len(), ys.as_ptr(), ys.len()) }
}

pub fn map_rank(map: &[u64], xs: &[u8]) -> u64 {
    unsafe { c::leaf_map_rank(map.as_ptr(), map.len(), xs.as_ptr(), xs.len()) }
}

pub fn map_count(maps: &[u64]) -> u64 {
    unsafe { c::leaf_map_count(maps.as_ptr(), maps.len()) }
}

pub fn map_walk(map: &[u64], out: &mut [u8]) -> u64 {
    unsafe { c::leaf_map_walk(map.as_ptr(), map.len(), out.as_mut_ptr(), out.len()) }
}

pub fn map_next(map: &[u64], from: u64) -> u64 {
    unsafe { c::leaf_map_next(map.as_ptr(), map.len(), from) }
}

pub fn map_is_empty(map: &[u64]) -> u64 {
    unsafe { c::leaf_map_is_empty(map.as_ptr(), map.len()) }
}

pub fn bitmap_rank(words: &[u64], places: &[u64]) -> u64 {
    unsafe { c::leaf_bitmap_rank(words.as_ptr(), words.len(), places.as_ptr(), places.len()) }
}

pub fn bitmap_test(words: &[u64], places: &[u64]) -> u64 {
    unsafe { c::leaf_bitmap_test(words.as_ptr(), words.len(), places.as_ptr(), places.len()) }
}

pub fn bitmap_set(words: &mut [u64], place: u64) -> u64 {
    unsafe { c::leaf_bitmap_set(words.as_mut_ptr(), words.len(), place) }
}

pub fn bitmap_clear(words: &mut [u64], place: u64) -> u64 {
    unsafe { c::leaf_bitmap_clear(words.as_mut_ptr(), words.len(), place) }
}

pub fn bytes(suffixes: &[u64], b: u64, out: &mut [u8]) -> u64 {
    unsafe { c::leaf_bytes(suffixes.as_ptr(), suffixes.len(), b, out.as_mut_ptr(), out.len()) }
}

pub fn value(s: u64, b: u64) -> u64 {
    unsafe { c::leaf_value(s, b) }
}

pub fn compare(s: u64, t: u64, b: u64) -> u64 {
    unsafe { c::leaf_compare(s, t, b) }
}

/// Commands on a region, checked once, however many they are: how many were done.
pub fn set_run(region: &mut [u64], codes: &[u8], words: &[u64], answers: &mut [u8]) -> u64 {
    unsafe {
        c::leaf_set_run(
            region.as_mut_ptr(),
            region.len(),
            codes.as_ptr(),
            codes.len(),
            words.as_ptr(),
            words.len(),
            answers.as_mut_ptr(),
            answers.len(),
        )
    }
}

/// Walks a region from its start, checked once, so many times: how many words were written in all.
pub fn set_walk(region: &[u64], times: u64, out: &mut [u64]) -> u64 {
    unsafe { c::leaf_set_walk(region.as_ptr(), region.len(), times, out.as_mut_ptr(), out.len()) }
}

/// An arena, with one trie in it or with none at first.
pub struct Trie {
    pub arena: Vec<u64>,
    pub slots: u64,
    pub used: u64,
    pub b: u64,
}

pub const NODE: usize = 264;

/// Byte j of a suffix, the most significant first.
pub fn byte(b: u64, s: u64, j: u64) -> usize {
    (s >> (8 * (b - 1 - j)) & 255) as usize
}

/// The last `free` nodes stacked as free ones.
fn stack(arena: &mut [u64], slots: u64, free: u64) {
    for place in 0..free {
        let node = slots - 1 - place;
        arena[place as usize] = node;
        arena[slots as usize + node as usize * NODE + 5] = place;
    }
}

impl Trie {
    /// A trie of one suffix, laid out by hand: its nodes are 0 to b - 1, the root is 0.
    pub fn new(slots: u64, b: u64, suffix: u64) -> Trie {
        let mut arena = vec![0; slots as usize * (1 + NODE)];
        for j in 0..b {
            let x = byte(b, suffix, j);
            let node = &mut arena[slots as usize + j as usize * NODE..][..NODE];
            node[x / 64] |= 1 << (x % 64);
            node[4] = j + 1;
            if j + 1 < b {
                node[8 + x] = j + 1;
            }
            if j > 0 {
                node[5] = j - 1;
                node[6] = byte(b, suffix, j - 1) as u64;
            }
        }
        stack(&mut arena, slots, slots - b);
        Trie { arena, slots, used: b, b }
    }

    /// An arena whose nodes are all free, laid out by hand.
    pub fn none(slots: u64, b: u64) -> Trie {
        let mut arena = vec![0; slots as usize * (1 + NODE)];
        stack(&mut arena, slots, slots);
        Trie { arena, slots, used: 0, b }
    }

    /// Codes: 0 asks, 1 inserts, any other removes. The answers end at the first 2: no room, or the last suffix gone.
    pub fn run(&mut self, codes: &[u8], suffixes: &[u64], answers: &mut [u8]) -> u64 {
        let ran = unsafe {
            c::leaf_trie_run(
                self.arena.as_mut_ptr(),
                self.arena.len(),
                self.slots,
                self.used,
                self.b,
                0,
                codes.as_ptr(),
                codes.len(),
                suffixes.as_ptr(),
                suffixes.len(),
                answers.as_mut_ptr(),
                answers.len(),
            )
        };
        self.used = ran.used;
        ran.done
    }

    /// 1 if the arena is well formed, else 0.
    pub fn check(&self) -> u64 {
        unsafe { c::leaf_arena_check(self.arena.as_ptr(), self.arena.len(), self.slots, self.used, self.b) }
    }

    /// An answer for each suffix, 1 or 0, and how many were asked.
    pub fn ask(&self, root: u64, suffixes: &[u64], answers: &mut [u8]) -> u64 {
        unsafe {
            c::leaf_trie_ask(
                self.arena.as_ptr(),
                self.arena.len(),
                self.slots,
                self.used,
                self.b,
                root,
                suffixes.as_ptr(),
                suffixes.len(),
                answers.as_mut_ptr(),
                answers.len(),
            )
        }
    }

    pub fn count(&self, root: u64) -> u64 {
        unsafe { c::leaf_trie_count(self.arena.as_ptr(), self.arena.len(), self.slots, self.used, self.b, root) }
    }

    /// The suffixes from the one with number `start` on, ascending, as far as there is room: how many were written.
    pub fn walk(&self, root: u64, start: u64, out: &mut [u64]) -> u64 {
        unsafe {
            c::leaf_trie_walk(
                self.arena.as_ptr(),
                self.arena.len(),
                self.slots,
                self.used,
                self.b,
                root,
                start,
                out.as_mut_ptr(),
                out.len(),
            )
        }
    }

    /// The same from the first suffix, the arena checked once, so many times: how many were written in all.
    pub fn walks(&self, root: u64, times: u64, out: &mut [u64]) -> u64 {
        unsafe {
            c::leaf_trie_walks(
                self.arena.as_ptr(),
                self.arena.len(),
                self.slots,
                self.used,
                self.b,
                root,
                times,
                out.as_mut_ptr(),
                out.len(),
            )
        }
    }

    /// A trie of 1 to 1,025 different suffixes under a container: its root, REFUSED or NO_ROOM.
    pub fn build(&mut self, container: u64, strip: &[u64]) -> u64 {
        let built = unsafe {
            c::leaf_trie_build(
                self.arena.as_mut_ptr(),
                self.arena.len(),
                self.slots,
                self.used,
                self.b,
                container,
                strip.as_ptr(),
                strip.len(),
            )
        };
        self.used = built.used;
        built.root
    }

    /// The suffixes, ascending, and the trie's nodes freed: how many were written, REFUSED if there is not room for all.
    pub fn pour(&mut self, root: u64, out: &mut [u64]) -> u64 {
        let poured = unsafe {
            c::leaf_trie_pour(
                self.arena.as_mut_ptr(),
                self.arena.len(),
                self.slots,
                self.used,
                self.b,
                root,
                out.as_mut_ptr(),
                out.len(),
            )
        };
        self.used = poured.used;
        poured.written
    }

    /// A trie built of the strip and poured out, the arena checked once, so many times: how many times there was room.
    pub fn cross(&mut self, container: u64, strip: &[u64], out: &mut [u64], times: u64) -> u64 {
        unsafe {
            c::leaf_trie_cross(
                self.arena.as_mut_ptr(),
                self.arena.len(),
                self.slots,
                self.used,
                self.b,
                container,
                strip.as_ptr(),
                strip.len(),
                out.as_mut_ptr(),
                out.len(),
                times,
            )
        }
    }

    /// The suffixes, ascending, by a reading of the words that is not the port's.
    pub fn members(&self) -> Vec<u64> {
        let mut found = Vec::new();
        self.below(0, 0, 0, &mut found);
        found
    }

    fn below(&self, node: u64, level: u64, prefix: u64, found: &mut Vec<u64>) {
        let at = self.slots as usize + node as usize * NODE;
        for x in (0..256usize).filter(|x| self.arena[at + x / 64] >> (x % 64) & 1 == 1) {
            let prefix = prefix << 8 | x as u64;
            match level + 1 == self.b {
                true => found.push(prefix),
                false => self.below(self.arena[at + 8 + x], level + 1, prefix, found),
            }
        }
    }
}
