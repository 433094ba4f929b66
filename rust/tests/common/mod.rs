//! An independent model of document 01, written from the document and not from the port: what a region reads as, when it
//! is well formed, what commands and combinations do, when there is room.
#![allow(dead_code)]
use brothowl::{Numbers, Refusal};
use std::collections::{BTreeMap, BTreeSet};

pub const THRESHOLD: usize = 1024;

/// A container in use: its slot, and its suffixes in stored order (ascending above 1,024).
#[derive(Debug, Clone, PartialEq, Eq)]
pub struct Container {
    pub slot: u64,
    pub suffixes: Vec<u64>,
}

/// What a region reads as. The last free slot is handed out next.
#[derive(Debug, Clone, PartialEq, Eq)]
pub struct Model {
    pub numbers: Numbers,
    pub containers: BTreeMap<u64, Container>,
    pub free: Vec<u64>,
}

fn bytes(s: u64) -> u32 {
    s.div_ceil(8) as u32
}

/// The different leading byte strings, of lengths 0 to b-1.
pub fn trie_nodes(s: u64, suffixes: impl Iterator<Item = u64> + Clone) -> u64 {
    let b = bytes(s);
    (0..b).map(|len| suffixes.clone().map(|x| x >> (8 * (b - len)).min(63)).collect::<BTreeSet<_>>().len() as u64).sum()
}

/// Whether a set of words fits.
pub fn fits(numbers: Numbers, words: &BTreeSet<u64>) -> bool {
    let mut by: BTreeMap<u64, Vec<u64>> = BTreeMap::new();
    for w in words {
        by.entry(w >> numbers.s).or_default().push(w & ((1 << numbers.s) - 1));
    }
    let nodes: u64 = by.values().filter(|v| v.len() > THRESHOLD).map(|v| trie_nodes(numbers.s, v.iter().copied())).sum();
    by.len() as u64 <= numbers.containers && nodes <= numbers.nodes
}

impl Model {
    pub fn new(numbers: Numbers) -> Model {
        Model { numbers, containers: BTreeMap::new(), free: (0..numbers.containers).rev().collect() }
    }

    fn split(&self, w: u64) -> (u64, u64) {
        (w >> self.numbers.s, w & ((1 << self.numbers.s) - 1))
    }

    pub fn is_word(&self, w: u64) -> bool {
        u128::from(w) < 1u128 << (self.numbers.p + self.numbers.s)
    }

    pub fn contains(&self, w: u64) -> bool {
        let (p, x) = self.split(w);
        self.containers.get(&p).is_some_and(|c| c.suffixes.contains(&x))
    }

    pub fn nodes(&self) -> u64 {
        self.containers.values().map(|c| self.nodes_of(&c.suffixes)).sum()
    }

    fn nodes_of(&self, suffixes: &[u64]) -> u64 {
        if suffixes.len() > THRESHOLD { trie_nodes(self.numbers.s, suffixes.iter().copied()) } else { 0 }
    }

    pub fn count(&self) -> u64 {
        self.containers.values().map(|c| c.suffixes.len() as u64).sum()
    }

    pub fn walk(&self) -> Vec<u64> {
        self.containers.iter().flat_map(|(p, c)| c.suffixes.iter().map(move |x| (p << self.numbers.s) + x)).collect()
    }

    /// Whether it was new; `None` without room.
    pub fn insert(&mut self, w: u64) -> Option<bool> {
        if self.contains(w) {
            return Some(false);
        }
        let (p, x) = self.split(w);
        let Some(old) = self.containers.get(&p) else {
            let slot = self.free.pop()?;
            self.containers.insert(p, Container { slot, suffixes: vec![x] });
            return Some(true);
        };
        let mut suffixes = old.suffixes.clone();
        suffixes.push(x);
        if suffixes.len() > THRESHOLD {
            suffixes.sort_unstable();
            if self.nodes() - self.nodes_of(&old.suffixes) + self.nodes_of(&suffixes) > self.numbers.nodes {
                return None;
            }
        }
        self.containers.get_mut(&p).unwrap().suffixes = suffixes;
        Some(true)
    }

    /// Whether it was a member.
    pub fn remove(&mut self, w: u64) -> bool {
        let (p, x) = self.split(w);
        let Some(c) = self.containers.get_mut(&p) else { return false };
        let Some(i) = c.suffixes.iter().position(|y| *y == x) else { return false };
        if c.suffixes.len() > THRESHOLD {
            c.suffixes.remove(i);
        } else {
            c.suffixes.swap_remove(i);
        }
        if c.suffixes.is_empty() {
            self.free.push(c.slot);
            self.containers.remove(&p);
        }
        true
    }

    /// A whole list, and its answer bytes.
    pub fn run(&mut self, codes: &[u8], words: &[u64], answers: &mut [u8]) -> Result<(), Refusal> {
        if codes.len() != words.len() || answers.len() < words.len() || words.len() > 4096 {
            return Err(Refusal::BadLengths);
        }
        if let Some(k) = codes.iter().position(|c| *c > 2) {
            return Err(Refusal::UnknownCode { place: k as u64 });
        }
        if let Some(k) = words.iter().position(|w| !self.is_word(*w)) {
            return Err(Refusal::WordTooLarge { place: k as u64 });
        }
        for (k, (c, w)) in codes.iter().zip(words).enumerate() {
            let yes = match c {
                0 => self.contains(*w),
                1 => self.insert(*w).ok_or(Refusal::NoRoom { place: k as u64 })?,
                _ => self.remove(*w),
            };
            answers[k] = u8::from(yes);
        }
        Ok(())
    }

    /// A combination: the destination with its own containers and nodes, or `None` without room.
    pub fn combine(code: u64, a: &Model, b: &Model, destination: Numbers) -> Option<Model> {
        let mut d = Model::new(destination);
        for w in a.walk() {
            let in_b = b.contains(w);
            if [true, in_b, !in_b, !in_b][code as usize] {
                d.insert(w)?;
            }
        }
        for w in b.walk() {
            let in_a = a.contains(w);
            if [true, false, false, !in_a][code as usize] {
                d.insert(w)?;
            }
        }
        Some(d)
    }

    /// What a slice reads as, or `None` where it is not a well-formed region.
    pub fn read(l: &[u64]) -> Option<Model> {
        if l.len() < 16 || l[0] != 1 {
            return None;
        }
        let numbers = Numbers { p: l[1], s: l[2], containers: l[3], nodes: l[4] };
        let total = numbers.words()?;
        let (c, n, b) = (l[3], l[4], bytes(l[2]) as u64);
        let bitmap_words = ((1u64 << l[1]) / 64).max(1);
        let mut at = 16;
        for (i, words) in [bitmap_words, c, c, 4 * c, 1024 * c, n, 264 * n].iter().enumerate() {
            if l[8 + i] != at {
                return None;
            }
            at += words;
        }
        if l[15] != at || at as usize != total || l.len() < total {
            return None;
        }
        let word = |area: usize, i: u64| l[l[8 + area] as usize + i as usize];
        let bit = |p: u64| word(0, p / 64) >> (p % 64) & 1;
        if (1 << l[1]..64 * bitmap_words).any(|p| bit(p) == 1) {
            return None;
        }
        let prefixes: Vec<u64> = (0..bitmap_words)
            .filter(|j| word(0, *j) != 0)
            .flat_map(|j| (64 * j..64 * j + 64).filter(move |p| word(0, j) >> (p % 64) & 1 == 1))
            .collect();
        if prefixes.len() as u64 != l[5] || l[5] > c {
            return None;
        }
        let record = |slot: u64, i: u64| word(3, 4 * slot + i);
        let node = |m: u64, i: u64| word(6, 264 * m + i);
        let map = |m: u64, x: u64| node(m, x / 64) >> (x % 64) & 1;
        let mut containers = BTreeMap::new();
        let mut reached = BTreeSet::new();
        let mut used_slots = BTreeSet::new();
        for (r, p) in prefixes.iter().enumerate() {
            let slot = word(1, r as u64);
            if slot >= c || record(slot, 1) != *p || !used_slots.insert(slot) {
                return None;
            }
            let size = record(slot, 2);
            let suffixes: Vec<u64> = match record(slot, 0) {
                1 => {
                    if size == 0 || size > 1024 {
                        return None;
                    }
                    (0..size).map(|i| word(4, 1024 * slot + i)).collect()
                }
                2 => {
                    let root = record(slot, 3);
                    if root >= n || node(root, 4) != 1 || node(root, 5) != slot {
                        return None;
                    }
                    let mut out = Vec::new();
                    if !collect(&node, &map, n, b, root, 0, 0, &mut reached, &mut out) || out.len() <= 1024 {
                        return None;
                    }
                    out
                }
                _ => return None,
            };
            if suffixes.len() as u64 != size
                || suffixes.iter().any(|x| *x >= 1 << l[2])
                || suffixes.iter().collect::<BTreeSet<_>>().len() != suffixes.len()
            {
                return None;
            }
            containers.insert(*p, Container { slot, suffixes });
        }
        // every other slot is free, once in the stack and linked to that place; nodes likewise
        let free: Vec<u64> = (0..c - l[5]).map(|i| word(2, i)).collect();
        for (i, slot) in free.iter().enumerate() {
            if *slot >= c || record(*slot, 0) != 0 || record(*slot, 3) != i as u64 || !used_slots.insert(*slot) {
                return None;
            }
        }
        if used_slots.len() as u64 != c || reached.len() as u64 != l[6] || l[6] > n {
            return None;
        }
        for i in 0..n - l[6] {
            let m = word(5, i);
            if m >= n || node(m, 4) != 0 || node(m, 5) != i || !reached.insert(m) {
                return None;
            }
        }
        let model = Model { numbers, containers, free };
        (reached.len() as u64 == n && model.count() == l[7]).then_some(model)
    }
}

/// The suffixes below a node, ascending; false where something is amiss.
#[allow(clippy::too_many_arguments)]
fn collect(
    node: &impl Fn(u64, u64) -> u64,
    map: &impl Fn(u64, u64) -> u64,
    n: u64,
    b: u64,
    m: u64,
    level: u64,
    lead: u64,
    reached: &mut BTreeSet<u64>,
    out: &mut Vec<u64>,
) -> bool {
    if !reached.insert(m) || (0..4).all(|i| node(m, i) == 0) {
        return false;
    }
    for x in 0..256 {
        if map(m, x) == 0 {
            continue;
        }
        let q = lead * 256 + x;
        if level + 1 == b {
            out.push(q);
            continue;
        }
        let child = node(m, 8 + x);
        if child >= n || node(child, 4) != level + 2 || node(child, 5) != m || node(child, 6) != x {
            return false;
        }
        if !collect(node, map, n, b, child, level + 1, q, reached, out) {
            return false;
        }
    }
    true
}

/// Holds a region to a model: well formed, reading as it says, the three counts and the words past the total.
pub fn hold(region: &[u64], model: &Model, mark: u64) {
    let read = Model::read(region).expect("the region is well formed");
    assert_eq!(&read, model);
    assert_eq!(region[5..8], [model.containers.len() as u64, model.nodes(), model.count()]);
    assert!(region[region[15] as usize..].iter().all(|w| *w == mark), "a word past the total changed");
}

/// Numbers that look random and are the same in every run.
pub struct Numbers64(pub u64);

impl Numbers64 {
    pub fn next(&mut self) -> u64 {
        self.0 = self.0.wrapping_add(0x9E37_79B9_7F4A_7C15);
        let mut z = self.0;
        z = (z ^ (z >> 30)).wrapping_mul(0xBF58_476D_1CE4_E5B9);
        z = (z ^ (z >> 27)).wrapping_mul(0x94D0_49BB_1331_11EB);
        z ^ (z >> 31)
    }

    pub fn below(&mut self, n: u64) -> u64 {
        self.next() % n
    }
}
