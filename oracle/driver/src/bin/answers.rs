//! Writes the oracle's answers as plain numbers: answers FOLDER
//! The format is described in answers/README.md.
#![allow(incomplete_features)]
#![feature(generic_const_exprs)]

use driver::{ascending, combined, corrected, fresh, plain, published, sizes, Build, Numbers, Set};
use std::collections::BTreeSet;
use std::fmt::Write;

const SEED: u64 = 2026;
const LOOKUP: u64 = 0;
const INSERT: u64 = 1;
const REMOVE: u64 = 2;

/// One file of answers.
struct Page {
    name: &'static str,
    text: String,
    lines: u64,
}

impl Page {
    fn new(name: &'static str, about: &[&str]) -> Page {
        let mut text = String::new();
        for line in about {
            writeln!(text, "# {line}").unwrap();
        }
        writeln!(text, "# Made by oracle/answers, seed {SEED}. Format: answers/README.md.").unwrap();
        Page { name, text, lines: 0 }
    }

    fn line(&mut self, numbers: impl IntoIterator<Item = u64>) {
        let numbers: Vec<String> = numbers.into_iter().map(|number| number.to_string()).collect();
        writeln!(self.text, "{}", numbers.join(" ")).unwrap();
        self.lines += 1;
    }

    /// Ends the page with the number of its lines, so that a cut file is noticed.
    fn write(mut self, folder: &str) {
        let lines = self.lines;
        self.line([99, lines]);
        std::fs::write(format!("{folder}/{}.txt", self.name), self.text).expect("write a page");
        println!("{}: {lines} lines", self.name);
    }
}

/// Words as runs (start, step, how many), steps not negative.
fn runs(words: &[u64]) -> Vec<[u64; 3]> {
    let mut found = Vec::new();
    let mut at = 0;
    while at < words.len() {
        let mut end = at + 1;
        let mut step = 0;
        if end < words.len() && words[end] > words[at] {
            step = words[end] - words[at];
            while end < words.len() && words[end - 1].checked_add(step) == Some(words[end]) {
                end += 1;
            }
        }
        found.push([words[at], step, (end - at) as u64]);
        at = end;
    }
    found
}

/// A row of words: plain under one code, or as runs under another where that is shorter.
fn row(plain_code: u64, runs_code: u64, words: &[u64]) -> Vec<u64> {
    let found = runs(words);
    if found.len() * 3 < words.len() {
        [runs_code, found.len() as u64].into_iter().chain(found.into_iter().flatten()).collect()
    } else {
        [plain_code, words.len() as u64].into_iter().chain(words.iter().copied()).collect()
    }
}

fn main() {
    let folder = std::env::args().nth(1).expect("usage: answers FOLDER");
    tiny().write(&folder);
    sliced_int().write(&folder);
    trie().write(&folder);
    lists().write(&folder);
    combine().write(&folder);
}

// ---------------------------------------------------------------- the node map

type Map = [u64; 4];
type Tiny = corrected::bitvector::TinyBitvector;

const EDGES: [u8; 16] = [0, 1, 62, 63, 64, 65, 126, 127, 128, 129, 190, 191, 192, 193, 254, 255];

fn tiny_of(map: Map) -> Tiny {
    let mut tiny = Tiny::new();
    for byte in 0..=255u8 {
        if map[byte as usize / 64] >> (byte % 64) & 1 == 1 {
            tiny.insert(byte);
        }
    }
    assert_eq!(map_of(&tiny), map);
    tiny
}

/// The four words, from the type's own Debug text: the field is private.
fn map_of(tiny: &Tiny) -> Map {
    let text = format!("{tiny:?}");
    let inner = text.trim_start_matches("TinyBitvector([").trim_end_matches("])");
    let words: Vec<u64> = inner.split(", ").map(|word| word.parse().expect("a word")).collect();
    words.try_into().expect("four words")
}

fn tiny_ops(page: &mut Page, map: Map, bytes: &[u8]) {
    let with = |op: u64, rest: Vec<u64>| -> Vec<u64> {
        std::iter::once(op).chain(map).chain(rest).collect()
    };
    let tiny = tiny_of(map);
    let all: Vec<u64> = tiny.iter().map(u64::from).collect();
    let model: BTreeSet<u64> = all.iter().copied().collect();
    assert_eq!(all, model.iter().copied().collect::<Vec<_>>());
    assert_eq!((tiny.count(), tiny.is_empty()), (model.len(), model.is_empty()));
    page.line(with(4, vec![tiny.is_empty() as u64]));
    page.line(with(5, vec![tiny.count() as u64]));
    page.line(with(7, std::iter::once(all.len() as u64).chain(all.iter().copied()).collect()));
    for &byte in bytes {
        let x = byte as u64;
        assert_eq!(tiny.contains(byte), model.contains(&x));
        assert_eq!(tiny.rank(byte), model.range(..x).count());
        page.line(with(1, vec![x, tiny.contains(byte) as u64]));
        page.line(with(6, vec![x, tiny.rank(byte) as u64]));
        changed(page, 2, map, byte);
        changed(page, 3, map, byte);
    }
}

fn changed(page: &mut Page, op: u64, map: Map, byte: u8) {
    let mut tiny = tiny_of(map);
    let answer = if op == 2 { tiny.insert(byte) } else { tiny.remove(byte) };
    let after = map_of(&tiny);
    let (word, bit) = (byte as usize / 64, 1 << (byte % 64));
    let mut expected = map;
    expected[word] = if op == 2 { map[word] | bit } else { map[word] & !bit };
    assert_eq!((after, answer), (expected, expected != map), "the node map is no plain set");
    let numbers = std::iter::once(op).chain(map).chain([byte as u64, answer as u64]).chain(after);
    page.line(numbers);
}

fn tiny() -> Page {
    let mut page = Page::new(
        "tiny",
        &["The map of a node: TinyBitvector of src/bitvector/tiny/mod.rs, the text as published."],
    );
    let mut numbers = Numbers(SEED);
    let full = [u64::MAX; 4];
    let alone = |byte: u8| {
        let mut map = [0; 4];
        map[byte as usize / 64] = 1 << (byte % 64);
        map
    };
    tiny_ops(&mut page, [0; 4], &EDGES);
    tiny_ops(&mut page, full, &EDGES);
    for word in 0..4 {
        let mut map = [0; 4];
        map[word] = u64::MAX;
        tiny_ops(&mut page, map, &EDGES);
    }
    for byte in EDGES {
        tiny_ops(&mut page, alone(byte), &[byte, byte.wrapping_add(1), byte.wrapping_sub(1)]);
        let mut map = full;
        map[byte as usize / 64] ^= alone(byte)[byte as usize / 64];
        tiny_ops(&mut page, map, &[byte]);
    }
    let mut edges = [0; 4];
    for byte in EDGES {
        edges[byte as usize / 64] |= alone(byte)[byte as usize / 64];
    }
    tiny_ops(&mut page, edges, &EDGES);
    for round in 0..14 {
        let map: Map = std::array::from_fn(|_| match round % 3 {
            0 => numbers.next(),
            1 => numbers.next() & numbers.next() & numbers.next() & numbers.next(),
            _ => 1 << numbers.below(64),
        });
        let bytes: Vec<u8> = (0..4).map(|_| numbers.below(256) as u8).chain([0, 63, 64, 255]).collect();
        tiny_ops(&mut page, map, &bytes);
    }
    for byte in 0..=255u8 {
        changed(&mut page, 2, [0; 4], byte);
        changed(&mut page, 3, alone(byte), byte);
    }
    page
}

// ---------------------------------------------------------------- suffix bytes

macro_rules! by_bytes {
    ($b:expr, $call:ident) => {
        match $b {
            1 => $call!(1),
            2 => $call!(2),
            3 => $call!(3),
            4 => $call!(4),
            5 => $call!(5),
            other => panic!("no suffix of {other} bytes"),
        }
    };
}

fn be_bytes(b: u64, value: u64) -> Vec<u8> {
    macro_rules! make {
        ($b:literal) => {
            corrected::sliced_int::SlicedInt::<$b>::from_int(value).to_be_bytes().to_vec()
        };
    }
    by_bytes!(b, make)
}

fn got(b: u64, value: u64) -> u64 {
    macro_rules! make {
        ($b:literal) => {
            corrected::sliced_int::SlicedInt::<$b>::from_int(value).get::<u64>()
        };
    }
    by_bytes!(b, make)
}

fn order(b: u64, left: u64, right: u64) -> u64 {
    macro_rules! make {
        ($b:literal) => {{
            type Suffix = corrected::sliced_int::SlicedInt<$b>;
            (Suffix::from_int(left).cmp(&Suffix::from_int(right)) as i8 + 1) as u64
        }};
    }
    by_bytes!(b, make)
}

const SIZES: [(usize, usize); 10] = [
    (1, 1),
    (1, 8),
    (2, 11),
    (3, 9),
    (4, 16),
    (6, 17),
    (7, 24),
    (12, 28),
    (16, 32),
    (24, 40),
];

fn last_word(p: usize, s: usize) -> u64 {
    u64::MAX >> (64 - p - s)
}

fn sliced_int() -> Page {
    let mut page = Page::new(
        "sliced_int",
        &["Suffix bytes and their order: SlicedInt of src/sliced_int.rs, made from u64 only,",
          "and prefix and suffix of a word: WordSet of src/wordset/mod.rs. Texts as published."],
    );
    let mut numbers = Numbers(SEED);
    for b in 1..=5 {
        let end = 1u64 << (8 * b);
        let mut values = vec![0, 1, 2, 127, 128, 254, 255, end / 2 - 1, end / 2, end - 2, end - 1];
        // Above the width: the lower bytes are kept and the rest is dropped.
        values.extend([end, end + 1, end + 255, u64::MAX, u64::MAX - 1, 1 << 63]);
        for byte in 1..b {
            let unit = 1u64 << (8 * byte);
            values.extend([unit - 1, unit, unit + 1, 255 * unit, 254 * unit + 1]);
        }
        values.extend((0..30).map(|_| numbers.below(end)));
        values.extend((0..10).map(|_| numbers.next()));
        for &value in &values {
            assert_eq!(got(b, value), value % end);
            let bytes = be_bytes(b, value);
            page.line([1, b, value].into_iter().chain(bytes.into_iter().map(u64::from)));
            page.line([2, b, value, got(b, value)]);
        }
        let mut pairs: Vec<(u64, u64)> = Vec::new();
        for place in 0..values.len() {
            pairs.push((values[place], values[place]));
            pairs.push((values[place], values[(place + 1) % values.len()]));
            pairs.push((values[place], values[numbers.below(values.len() as u64) as usize]));
        }
        for byte in 0..b {
            // One byte apart, and apart both ways: the more significant byte decides.
            let base = numbers.below(end / 4);
            pairs.push((base, base ^ 1 << (8 * byte)));
            pairs.push((base ^ 1 << (8 * byte), base));
            pairs.push((base & !255 | 255, (base & !255) ^ 1 << (8 * byte)));
        }
        for (left, right) in pairs {
            assert_eq!(order(b, left, right), ((left % end).cmp(&(right % end)) as i8 + 1) as u64);
            page.line([3, b, left, right, order(b, left, right)]);
        }
    }
    for (p, s) in SIZES {
        let unit = 1u64 << s;
        let last = last_word(p, s);
        let mut words = vec![0, 1, unit - 1, unit, last, last - 1, last - unit, last - unit + 1];
        words.extend((0..12).map(|_| numbers.next() & last));
        for word in words {
            macro_rules! split {
                ($p:literal, $s:literal) => {{
                    type Words = corrected::wordset::WordSet<$p, $s>;
                    let (prefix, suffix) = Words::split_prefix_suffix(word);
                    assert_eq!(Words::merge_prefix_suffix::<u64>(prefix, suffix), word);
                    (prefix as u64, suffix.get::<u64>())
                }};
            }
            let (prefix, suffix) = sizes!(p, s, split);
            assert_eq!((prefix, suffix), (word >> s, word % unit));
            page.line([4, p as u64, s as u64, word, prefix, suffix]);
            page.line([5, p as u64, s as u64, prefix, suffix, word]);
        }
    }
    page
}

// ---------------------------------------------------------------- the trie

/// A trie of either build.
trait Tries {
    fn command(&mut self, code: u64, bytes: &[u8]) -> bool;
    fn walk(&self) -> Vec<u64>;
    fn count(&self) -> u64;
    fn nodes(&self) -> u64;
}

macro_rules! tries {
    ($module:ident) => {
        impl<const BYTES: usize> Tries for $module::trie::Trie<BYTES> {
            fn command(&mut self, code: u64, bytes: &[u8]) -> bool {
                match code {
                    LOOKUP => self.contains(bytes),
                    INSERT => self.insert(bytes),
                    _ => self.remove(bytes),
                }
            }
            fn walk(&self) -> Vec<u64> {
                let joined = |bytes: [u8; BYTES]| bytes.iter().fold(0, |sum, &byte| sum << 8 | byte as u64);
                self.iter().map(joined).collect()
            }
            fn count(&self) -> u64 {
                self.count() as u64
            }
            fn nodes(&self) -> u64 {
                self.count_nodes() as u64
            }
        }
    };
}

tries!(published);
tries!(corrected);

fn fresh_trie(build: Build, b: u64) -> Box<dyn Tries> {
    macro_rules! make {
        ($b:literal) => {
            match build {
                Build::Published => Box::new(published::trie::Trie::<$b>::new()) as Box<dyn Tries>,
                Build::Corrected => Box::new(corrected::trie::Trie::<$b>::new()),
            }
        };
    }
    by_bytes!(b, make)
}

/// A trie of each build and the plain set, told the same.
struct TrieCase<'a> {
    page: &'a mut Page,
    b: u64,
    corrected: Box<dyn Tries>,
    published: Box<dyn Tries>,
    model: BTreeSet<u64>,
}

impl<'a> TrieCase<'a> {
    fn new(page: &'a mut Page, b: u64) -> Self {
        page.line([0, b]);
        TrieCase {
            page,
            b,
            corrected: fresh_trie(Build::Corrected, b),
            published: fresh_trie(Build::Published, b),
            model: BTreeSet::new(),
        }
    }

    fn ask(&mut self, code: u64, x: u64) -> (u64, u64) {
        let bytes = be_bytes(self.b, x);
        let answer = self.corrected.command(code, &bytes);
        let other = self.published.command(code, &bytes);
        let expected = match code {
            LOOKUP => self.model.contains(&x),
            INSERT => self.model.insert(x),
            _ => self.model.remove(&x),
        };
        assert_eq!(answer, expected, "the corrected trie is no plain set");
        assert!(answer == other || code == REMOVE, "the builds differ elsewhere than in remove");
        (answer as u64, other as u64)
    }

    fn one(&mut self, code: u64, x: u64) {
        let (answer, other) = self.ask(code, x);
        self.page.line([10 + code, x, answer, other]);
    }

    /// A run whose answers are all alike.
    fn run(&mut self, code: u64, start: u64, step: u64, many: u64) {
        let answers: BTreeSet<(u64, u64)> = (0..many).map(|i| self.ask(code, start + i * step)).collect();
        assert_eq!(answers.len(), 1, "a run with different answers");
        let &(answer, other) = answers.first().unwrap();
        self.page.line([20 + code, start, step, many, answer, other]);
    }

    fn look(&mut self) {
        let walk = self.corrected.walk();
        assert_eq!(walk, self.published.walk());
        assert_eq!(walk, self.model.iter().copied().collect::<Vec<_>>());
        self.page.line(row(3, 4, &walk));
        self.page.line([5, self.corrected.count()]);
        self.page.line([6, self.corrected.nodes()]);
    }
}

fn trie() -> Page {
    let mut page = Page::new(
        "trie",
        &["The trie of src/trie.rs: the corrected copy's answer, then the published one's."],
    );
    let mut numbers = Numbers(SEED);
    for b in 1..=5u64 {
        let last = u64::MAX >> (64 - 8 * b);
        let mut case = TrieCase::new(&mut page, b);
        // The empty trie, one suffix, its neighbour, and empty again.
        case.look();
        for code in [LOOKUP, REMOVE, INSERT, INSERT, LOOKUP] {
            case.one(code, 7);
        }
        for (code, x) in [(LOOKUP, 6), (REMOVE, 6), (LOOKUP, 7), (INSERT, 4), (INSERT, 9), (REMOVE, 7)] {
            case.one(code, x);
        }
        case.look();
        for x in [4, 4, 9, 9] {
            case.one(REMOVE, x);
        }
        case.look();

        // The edges of every byte.
        let mut edges = BTreeSet::from([0, 1, last, last - 1]);
        for byte in 0..b {
            let unit = 1u64 << (8 * byte);
            edges.extend([63 * unit, 64 * unit, 127 * unit, 128 * unit, 191 * unit, 192 * unit, 255 * unit]);
        }
        let mut case = TrieCase::new(&mut page, b);
        for code in [LOOKUP, INSERT, INSERT, LOOKUP, REMOVE, INSERT] {
            for &x in &edges {
                case.one(code, x);
                if code == REMOVE {
                    case.one(REMOVE, x ^ 2);
                }
            }
            case.look();
        }

        // Random commands over few bytes, so that paths are shared and leaves empty out.
        for (few, many) in [(2, 150), (4, 400)] {
            let alphabet = [0u64, 255, 63, 64];
            let mut case = TrieCase::new(&mut page, b);
            for step in 0..many {
                let x = (0..b).fold(0, |sum, _| sum << 8 | alphabet[numbers.below(few) as usize]);
                // The end of a case takes more than it gives.
                let code = match numbers.below(8) {
                    0 => LOOKUP,
                    choice if (choice < 5) == (step < many / 2) => INSERT,
                    _ => REMOVE,
                };
                case.one(code, x);
                if step % 75 == 74 {
                    case.look();
                }
            }
            let left: Vec<u64> = case.model.iter().copied().collect();
            for x in left {
                case.one(REMOVE, x);
            }
            case.look();
        }

        // Random suffixes of the whole width.
        let mut case = TrieCase::new(&mut page, b);
        let many: Vec<u64> = (0..200).map(|_| numbers.next() & last).collect();
        for &x in &many {
            case.one(INSERT, x);
        }
        case.look();
        for &x in many.iter().step_by(2) {
            case.one(REMOVE, x);
            case.one(LOOKUP, x);
            case.one(REMOVE, x ^ 1);
        }
        case.look();
    }
    for b in 2..=5u64 {
        // A container's size: 1,025 in a row (K7 and K8), then even ones, then the ticket.
        let mut case = TrieCase::new(&mut page, b);
        case.run(INSERT, 0, 1, 1025);
        case.look();
        case.run(INSERT, 0, 1, 1025);
        case.run(LOOKUP, 0, 1, 1025);
        case.run(LOOKUP, 1025, 1, 1025);
        case.run(REMOVE, 1025, 1, 255);
        case.run(REMOVE, 1024, 1, 1);
        case.look();
        case.run(REMOVE, 0, 1, 1024);
        case.look();
        let mut case = TrieCase::new(&mut page, b);
        case.run(INSERT, 0, 2, 2000);
        case.look();
        case.run(REMOVE, 1, 2, 2000);
        case.look();
        case.run(LOOKUP, 0, 2, 2000);
        case.run(REMOVE, 0, 512, 8);
        case.look();
        let mut case = TrieCase::new(&mut page, b);
        case.run(INSERT, 3, 61, 1030);
        case.look();
        case.run(REMOVE, 3, 122, 515);
        case.look();
    }
    page
}

// ---------------------------------------------------------------- command lists

/// A list from a fresh set, kept until the room that it needs is known.
struct ListCase {
    p: usize,
    s: usize,
    corrected: Box<dyn Set>,
    /// Left out once an absent word is removed: from then on the published one may drift.
    published: Option<Box<dyn Set>>,
    model: BTreeSet<u64>,
    rows: Vec<Vec<u64>>,
    containers: usize,
    nodes: usize,
}

impl ListCase {
    fn new(p: usize, s: usize) -> Self {
        ListCase {
            p,
            s,
            corrected: fresh(Build::Corrected, p, s),
            published: Some(fresh(Build::Published, p, s)),
            model: BTreeSet::new(),
            rows: Vec::new(),
            containers: 1,
            nodes: 0,
        }
    }

    fn ask(&mut self, code: u64, word: u64) -> u64 {
        assert!(word <= last_word(self.p, self.s), "a word that document 01 refuses");
        if code == REMOVE && !self.model.contains(&word) {
            self.published = None;
        }
        let told = |set: &mut dyn Set| match code {
            LOOKUP => set.contains(word),
            INSERT => set.insert(word),
            _ => set.remove(word),
        };
        let answer = told(self.corrected.as_mut());
        if let Some(published) = &mut self.published {
            assert_eq!(answer, told(published.as_mut()), "the builds differ on the oracle domain");
        }
        let expected = match code {
            LOOKUP => self.model.contains(&word),
            INSERT => self.model.insert(word),
            _ => self.model.remove(&word),
        };
        assert_eq!(answer, expected, "the corrected copy is no plain set");
        answer as u64
    }

    fn room(&mut self) {
        let containers = self.corrected.containers();
        self.containers = self.containers.max(containers.len());
        self.nodes = self.nodes.max(containers.iter().map(|c| c.nodes).sum());
    }

    fn one(&mut self, code: u64, word: u64) {
        let answer = self.ask(code, word);
        self.rows.push(vec![10 + code, word, answer]);
        if code == INSERT {
            self.room();
        }
    }

    fn run(&mut self, code: u64, start: u64, step: u64, many: u64) {
        assert!(many <= 4096, "longer than a list");
        let mut answers = BTreeSet::new();
        for i in 0..many {
            answers.insert(self.ask(code, start + i * step));
            if code == INSERT {
                self.room();
            }
        }
        assert_eq!(answers.len(), 1, "a run with different answers");
        let answer = *answers.first().unwrap();
        self.rows.push(vec![20 + code, start, step, many, answer]);
    }

    /// Walk, counts, and the containers at the first and last ranks.
    fn look(&mut self) {
        let walk = self.corrected.walk();
        let containers = self.corrected.containers();
        if let Some(published) = &self.published {
            assert_eq!(walk, published.walk(), "the builds walk differently on the oracle domain");
            assert_eq!(containers, published.containers());
        }
        assert_eq!(ascending(walk.clone()), self.model.iter().copied().collect::<Vec<_>>());
        assert_eq!(self.corrected.count(), self.model.len());
        self.rows.push(row(3, 4, &walk));
        self.rows.push(vec![5, self.corrected.count() as u64]);
        self.rows.push(vec![6, containers.iter().map(|c| c.nodes as u64).sum()]);
        self.rows.push(vec![7, containers.len() as u64]);
        for (rank, c) in containers.iter().enumerate() {
            if rank < 8 || rank + 8 >= containers.len() {
                let kind = if c.trie { 2 } else { 1 };
                self.rows.push(vec![8, rank as u64, c.prefix as u64, c.slot as u64, kind, c.stored as u64]);
            }
        }
    }

    fn end(mut self, page: &mut Page) {
        self.look();
        let absent = self.published.is_none() as u64;
        page.line([0, self.p as u64, self.s as u64, self.containers as u64, self.nodes as u64, absent]);
        for row in self.rows {
            page.line(row);
        }
    }
}

fn lists() -> Page {
    let mut page = Page::new(
        "lists",
        &["Command lists for the word set of src/wordset/mod.rs, each from a fresh set: the corrected",
          "copy's answers, and the published one's too where no absent word is removed."],
    );
    let mut numbers = Numbers(SEED);

    // Every word of the smallest set.
    let mut case = ListCase::new(1, 1);
    for code in [LOOKUP, INSERT, INSERT, LOOKUP, REMOVE, REMOVE, LOOKUP] {
        for word in 0..4 {
            case.one(code, word);
        }
        case.look();
    }
    case.end(&mut page);

    // Document 01's small worked numbers: K4 and K5.
    let mut case = ListCase::new(12, 28);
    for (code, word) in [(INSERT, 7), (INSERT, 4), (INSERT, 9), (REMOVE, 7)] {
        case.one(code, word);
    }
    case.end(&mut page);
    let mut case = ListCase::new(12, 28);
    case.one(INSERT, 7);
    case.one(INSERT, 7);
    case.end(&mut page);

    // The slot freed last is handed out next; the rank counts strictly smaller prefixes.
    let mut case = ListCase::new(12, 28);
    let word = |prefix: u64, suffix: u64| (prefix << 28) + suffix;
    for prefix in [9, 5, 7, 4095, 0, 63, 64] {
        case.one(INSERT, word(prefix, prefix));
    }
    case.look();
    for prefix in [5, 4095, 0] {
        case.one(REMOVE, word(prefix, prefix));
    }
    case.look();
    for prefix in [6, 8, 1, 2] {
        case.one(INSERT, word(prefix, 1));
    }
    case.end(&mut page);

    // 1,024 and 1,025, up and down, for each width that has tries (K6 to K9).
    for (p, s) in [(12, 28), (4, 16), (2, 11), (6, 17), (7, 24), (16, 32), (24, 40)] {
        let mut case = ListCase::new(p, s);
        let first = ((1u64 << p) - 1) << s;
        case.run(INSERT, first, 1, 1023);
        case.one(INSERT, first + 1023);
        case.look();
        case.one(INSERT, first + 1023);
        case.one(INSERT, first + 1024);
        case.look();
        case.one(REMOVE, first + 1024);
        case.look();
        case.one(REMOVE, first);
        case.one(REMOVE, first + 500);
        case.look();
        case.one(INSERT, first + 1025);
        case.one(INSERT, first + 1026);
        case.one(INSERT, first + 1027);
        case.look();
        for suffix in [1u64, 2, 3, 1027] {
            case.one(REMOVE, first + suffix);
        }
        case.look();
        case.one(LOOKUP, first + 4);
        case.one(LOOKUP, first + 3);
        case.one(INSERT, 3);
        case.end(&mut page);
    }

    // Every suffix of a prefix, and a prefix that is emptied again.
    let mut case = ListCase::new(2, 11);
    case.run(INSERT, 2048, 1, 2048);
    case.look();
    case.run(REMOVE, 2048, 1, 2048);
    case.look();
    case.run(INSERT, 0, 2048, 4);
    case.end(&mut page);
    let mut case = ListCase::new(3, 9);
    case.run(INSERT, 0, 1, 4096);
    case.run(REMOVE, 0, 3, 1366);
    case.end(&mut page);

    // K11 and the ticket: words that were never there are removed from a trie.
    let mut case = ListCase::new(12, 28);
    case.run(INSERT, 0, 2, 1025);
    case.run(REMOVE, 1, 2, 1025);
    case.look();
    case.one(INSERT, word(1, 0));
    case.end(&mut page);
    let mut case = ListCase::new(12, 28);
    let raw = driver::key(5, 0, 100, 1, 0);
    case.run(INSERT, raw, 2, 2000);
    case.run(REMOVE, raw + 1, 2, 2000);
    case.look();
    case.one(INSERT, driver::key(6, 0, 101, 1, 0));
    case.end(&mut page);

    // Many prefixes of one word, by two orders.
    let mut case = ListCase::new(12, 28);
    case.run(INSERT, word(1, 5), word(2, 0), 150);
    case.run(INSERT, word(0, 6), word(2, 0), 150);
    case.look();
    case.run(REMOVE, word(1, 5), word(4, 0), 75);
    case.look();
    case.run(INSERT, word(1000, 5), word(1, 0), 80);
    case.end(&mut page);

    // Across 1,024 with random suffixes, in random order.
    for (p, s) in [(12, 28), (24, 40)] {
        let mut case = ListCase::new(p, s);
        let base = numbers.below(1 << p) << s;
        let mut words = BTreeSet::new();
        while words.len() < 1030 {
            words.insert(base + numbers.below(1 << s));
        }
        let mut words: Vec<u64> = words.into_iter().collect();
        for place in (1..words.len()).rev() {
            words.swap(place, numbers.below(place as u64 + 1) as usize);
        }
        for &word in &words {
            case.one(INSERT, word);
        }
        for &word in &words[..12] {
            case.one(REMOVE, word);
        }
        if s == 28 {
            case.look();
        }
        for &word in &words[..7] {
            case.one(INSERT, word);
        }
        case.end(&mut page);
    }

    // Random lists, with and without removals of absent words.
    for (p, s, prefixes, suffixes, many) in [
        (1, 1, 2, 2, 120),
        (1, 8, 2, 256, 400),
        (3, 9, 8, 40, 400),
        (12, 28, 6, 6, 400),
        (12, 28, 4096, 3, 200),
        (24, 40, 5, 5, 300),
        (24, 40, 1 << 24, 1 << 40, 150),
    ] {
        for absent in [false, true] {
            let mut case = ListCase::new(p, s);
            for step in 0..many {
                let word = (numbers.below(prefixes) << s) + numbers.below(suffixes);
                let mut code = numbers.below(3);
                if code == REMOVE && !absent && !case.model.contains(&word) {
                    code = INSERT;
                }
                case.one(code, word);
                if step % 200 == 149 {
                    case.look();
                }
            }
            case.end(&mut page);
        }
    }
    page
}

// ---------------------------------------------------------------- combinations

/// Inserts into a or b, kept as rows.
struct Side {
    rows: Vec<Vec<u64>>,
    words: Vec<u64>,
    side: u64,
}

impl Side {
    fn new(side: u64) -> Side {
        Side { rows: Vec::new(), words: Vec::new(), side }
    }

    fn some(mut self, words: &[u64]) -> Side {
        self.rows.push([30 + self.side, words.len() as u64].into_iter().chain(words.iter().copied()).collect());
        self.words.extend(words);
        self
    }

    fn run(mut self, start: u64, step: u64, many: u64) -> Side {
        self.rows.push(vec![40 + self.side, start, step, many]);
        self.words.extend((0..many).map(|i| start + i * step));
        self
    }
}

/// The container slots and nodes that a set of words needs.
fn room(p: usize, s: usize, words: &[u64]) -> [u64; 2] {
    let mut set = fresh(Build::Corrected, p, s);
    for &word in words {
        set.insert(word);
    }
    let containers = set.containers();
    [containers.len().max(1) as u64, containers.iter().map(|c| c.nodes as u64).sum()]
}

fn combination(page: &mut Page, p: usize, s: usize, a: Side, b: Side) {
    let (room_a, room_b) = (room(p, s, &a.words), room(p, s, &b.words));
    page.line([0, p as u64, s as u64].into_iter().chain(room_a).chain(room_b));
    for row in a.rows.into_iter().chain(b.rows) {
        page.line(row);
    }
    for code in 0..4 {
        let found = combined(p, s, code, &a.words, &b.words);
        let expected = plain(code, &a.words, &b.words);
        assert_eq!(found.operator, expected, "the operator is no plain combination");
        assert_eq!(found.assigned, expected, "the assigning operator is no plain combination");
        assert!(found.merged.is_none_or(|merged| merged == expected), "merge or intersect differs");
        let code = code as u64;
        page.line([70 + code].into_iter().chain(room(p, s, &expected)));
        page.line(row(50 + code, 60 + code, &expected));
    }
}

fn combine() -> Page {
    let mut page = Page::new(
        "combine",
        &["The four combinations of src/wordset/set_ops.rs, as sorted sets: the corrected copy.",
          "Its containers are combined by a stand-in; merge and intersect, which need none, agree."],
    );
    let mut numbers = Numbers(SEED);
    let (a, b) = (|| Side::new(1), || Side::new(2));
    let word = |prefix: u64, suffix: u64| (prefix << 28) + suffix;

    // K10, its mirror, empty sides, and a set with itself.
    combination(&mut page, 12, 28, a().some(&[1, 2, 3]), b().some(&[2, 3, 4]));
    combination(&mut page, 12, 28, a().some(&[4, 2, 3]), b().some(&[3, 2, 1]));
    combination(&mut page, 12, 28, a().some(&[]), b().some(&[]));
    combination(&mut page, 12, 28, a().some(&[5]), b().some(&[]));
    combination(&mut page, 12, 28, a().some(&[]), b().some(&[5]));
    combination(&mut page, 12, 28, a().some(&[7, 4, 9]), b().some(&[7, 4, 9]));

    // Prefixes only left, only right and on both sides, first and last.
    let left = [word(0, 1), word(3, 1), word(3, 2), word(64, 1), word(4095, 9)];
    let right = [word(3, 2), word(3, 3), word(63, 1), word(64, 1), word(4095, 8)];
    combination(&mut page, 12, 28, a().some(&left), b().some(&right));
    combination(&mut page, 12, 28, a().some(&right), b().some(&left));

    // Results at 1,024 and 1,025, from vectors and from tries.
    for end in [1024, 1025] {
        combination(&mut page, 12, 28, a().run(0, 2, 512), b().run(1, 2, end - 512));
        combination(&mut page, 12, 28, a().run(0, 1, 2000), b().run(2000 - end, 1, 2000));
        combination(&mut page, 12, 28, a().run(0, 1, 1500), b().run(end, 1, 1500));
        combination(&mut page, 4, 16, a().run(0, 1, end), b().run(0, 1, end));
    }
    combination(&mut page, 12, 28, a().run(0, 1, 600), b().run(600, 1, 600));
    combination(&mut page, 12, 28, a().run(0, 2, 1025), b().run(1, 2, 1025));
    combination(&mut page, 2, 11, a().run(0, 3, 2731), b().run(0, 5, 1638));

    // Tries beside vectors under several prefixes.
    combination(
        &mut page,
        12,
        28,
        a().run(word(1, 0), 1, 1100).run(word(2, 0), 3, 20).run(word(9, 0), 7, 1100),
        b().run(word(1, 550), 1, 1100).run(word(2, 0), 2, 1200).run(word(8, 0), 1, 3),
    );

    // Many prefixes.
    combination(
        &mut page,
        12,
        28,
        a().run(word(0, 1), word(3, 0), 300),
        b().run(word(0, 1), word(5, 0), 200),
    );

    // Random sides.
    for (p, s, prefixes, suffixes, many) in [
        (1, 1, 2, 2, 3),
        (3, 9, 8, 10, 40),
        (12, 28, 20, 6, 100),
        (12, 28, 4096, 2, 150),
        (24, 40, 1 << 24, 1 << 40, 60),
        (24, 40, 3, 1 << 40, 100),
        (16, 32, 40, 4, 120),
    ] {
        for _ in 0..3 {
            let mut words = || -> Vec<u64> {
                let some: BTreeSet<u64> =
                    (0..many).map(|_| (numbers.below(prefixes) << s) + numbers.below(suffixes)).collect();
                let mut some: Vec<u64> = some.into_iter().collect();
                for place in (1..some.len()).rev() {
                    some.swap(place, numbers.below(place as u64 + 1) as usize);
                }
                some
            };
            let (left, mut right) = (words(), words());
            // A third of the left side is on the right side too.
            for &word in left.iter().step_by(3) {
                if !right.contains(&word) {
                    right.push(word);
                }
            }
            combination(&mut page, p, s, a().some(&left), b().some(&right));
        }
    }
    page
}
