//! Feeds the port and the Rust the same inputs and compares every value, count and word written and not written.
//! Ends with 1 at the first difference, and names it.
#![allow(incomplete_features)]
#![feature(generic_const_exprs)]

use driver::published::bitvector::{Bitvector, TinyBitvector};
use driver::corrected::trie::Trie as Rust;
use driver::published::sliced_int::SlicedInt;
use driver::{grouped, Numbers};
use port::REFUSED;
use std::collections::BTreeSet;
use std::fmt::Debug;

mod sets;

const SEED: u64 = 2026;

/// The parts, in order. An entry of the port joins with a line here and a face in lib.rs.
const PARTS: [(&str, fn(&mut Tally, &mut Numbers)); 7] = [
    ("node map", node_map),
    ("suffix bytes", suffix_bytes),
    ("prefix bitmap", prefix_bitmap),
    ("trie", tries),
    ("lists and walks", sets::lists),
    ("batches", sets::batches),
    ("combinations", sets::combinations),
];

fn main() {
    let mut sum = 0;
    for (name, part) in PARTS {
        let mut tally = Tally { name, made: 0 };
        part(&mut tally, &mut Numbers(SEED));
        println!("{name}: {} comparisons, no difference", grouped(tally.made));
        sum += tally.made;
    }
    println!("all: {} comparisons, no difference (seed {SEED})", grouped(sum));
}

struct Tally {
    name: &'static str,
    made: usize,
}

impl Tally {
    /// One comparison; `what` says the input where they differ.
    fn same<T: PartialEq + Debug>(&mut self, what: impl FnOnce() -> String, port: T, rust: T) {
        self.made += 1;
        if port != rust {
            println!("{}: {}: the port {port:?}, the Rust {rust:?}", self.name, what());
            println!("A difference after {} comparisons.", grouped(self.made));
            std::process::exit(1);
        }
    }
}

/// What is lent to the port: the middle of a longer row, so that a word written beside it is noticed.
struct Lent<T> {
    row: Vec<T>,
    end: usize,
}

const BESIDE: usize = 6;

impl<T: Copy + PartialEq + Debug> Lent<T> {
    fn new(part: &[T], mark: T) -> Lent<T> {
        let mut row = vec![mark; part.len() + 2 * BESIDE];
        row[BESIDE..BESIDE + part.len()].copy_from_slice(part);
        Lent { end: BESIDE + part.len(), row }
    }

    fn part(&mut self) -> &mut [T] {
        &mut self.row[BESIDE..self.end]
    }

    /// The part against what it must be, and the words beside it against the mark.
    fn same(&self, tally: &mut Tally, what: impl Fn() -> String, expected: &[T], mark: T) {
        let whole = Lent::new(expected, mark);
        tally.made += expected.len() + 2 * BESIDE - 1;
        tally.same(|| format!("{}, words and beside them", what()), &self.row, &whole.row);
    }
}

// ---------------------------------------------------------------- the node map

type Map = [u64; 4];

const MARK: u64 = 0xa5a5_5a5a_0ff0_9669;
const BYTE_MARK: u8 = 0x5a;
const EDGES: [u8; 16] = [0, 1, 62, 63, 64, 65, 126, 127, 128, 129, 190, 191, 192, 193, 254, 255];

fn tiny_of(map: Map) -> TinyBitvector {
    let mut tiny = TinyBitvector::new();
    for byte in 0..=255u8 {
        if map[byte as usize / 64] >> (byte % 64) & 1 == 1 {
            tiny.insert(byte);
        }
    }
    tiny
}

/// The four words of the Rust's map, by its own walk: the field is private.
fn map_of(tiny: &TinyBitvector) -> Map {
    let mut map = [0; 4];
    for byte in tiny.iter() {
        map[byte as usize / 64] |= 1 << (byte % 64);
    }
    map
}

fn alone(byte: u8) -> Map {
    let mut map = [0; 4];
    map[byte as usize / 64] = 1 << (byte % 64);
    map
}

fn maps(numbers: &mut Numbers) -> Vec<Map> {
    let mut maps = vec![[0; 4], [u64::MAX; 4]];
    for word in 0..4 {
        let mut map = [0; 4];
        map[word] = u64::MAX;
        maps.push(map);
        maps.push(map.map(|word| !word));
    }
    for byte in 0..=255u8 {
        maps.push(alone(byte));
        maps.push(alone(byte).map(|word| !word));
    }
    let edges = EDGES.iter().fold([0; 4], |map: Map, &byte| {
        let one = alone(byte);
        std::array::from_fn(|word| map[word] | one[word])
    });
    maps.push(edges);
    for round in 0..300 {
        maps.push(std::array::from_fn(|_| match round % 4 {
            0 => numbers.next(),
            1 => numbers.next() & numbers.next() & numbers.next() & numbers.next(),
            2 => numbers.next() | numbers.next() | numbers.next(),
            _ => 1 << numbers.below(64),
        }));
    }
    maps
}

fn node_map(tally: &mut Tally, numbers: &mut Numbers) {
    for map in maps(numbers) {
        let tiny = tiny_of(map);
        let all: Vec<u8> = tiny.iter().collect();
        tally.same(|| format!("is_empty of {map:x?}"), port::map_is_empty(&map), tiny.is_empty() as u64);
        tally.same(|| format!("count of {map:x?}"), port::map_count(&map), tiny.count() as u64);
        let mut out = Lent::new(&[BYTE_MARK; 260], BYTE_MARK);
        let many = port::map_walk(&map, out.part());
        tally.same(|| format!("bytes walked of {map:x?}"), many, all.len() as u64);
        let mut expected = [BYTE_MARK; 260];
        expected[..all.len()].copy_from_slice(&all);
        out.same(tally, || format!("walk of {map:x?}"), &expected, BYTE_MARK);
        for from in 0..=257u64 {
            let next = all.iter().map(|&byte| byte as u64).find(|&byte| byte >= from).unwrap_or(256);
            tally.same(|| format!("next of {map:x?} from {from}"), port::map_next(&map, from), next);
        }
        for x in 0..=255u8 {
            let what = |op: &str| format!("{op} {x} of {map:x?}");
            tally.same(|| what("contains"), port::map_contains(&map, &[x]), tiny.contains(x) as u64);
            tally.same(|| what("rank"), port::map_rank(&map, &[x]), tiny.rank(x) as u64);
            for code in 0..3u8 {
                let mut words = Lent::new(&map, MARK);
                let mut answers = Lent::new(&[BYTE_MARK], BYTE_MARK);
                let told = port::map_change(words.part(), &[code], &[x], answers.part());
                let mut after = tiny.clone();
                let answer = match code {
                    0 => after.contains(x),
                    1 => after.insert(x),
                    _ => after.remove(x),
                };
                tally.same(|| what("change"), told, 0);
                words.same(tally, || what(["contains", "insert", "remove"][code as usize]), &map_of(&after), MARK);
                answers.same(tally, || what(["contains", "insert", "remove"][code as usize]), &[answer as u8], BYTE_MARK);
            }
        }
    }
    long_runs(tally, numbers);
    map_refusals(tally);
}

/// Long rows of commands on one map, over few bytes or many.
fn long_runs(tally: &mut Tally, numbers: &mut Numbers) {
    for round in 0..200u64 {
        let many = [0, 1, 2, 63, 64, 65, 1000, 3000][round as usize % 8];
        let end = [2, 16, 65, 256][round as usize / 8 % 4];
        let codes: Vec<u8> = (0..many).map(|_| numbers.below(3) as u8).collect();
        let xs: Vec<u8> = (0..many).map(|_| (numbers.below(end) + round) as u8).collect();
        let ys: Vec<u8> = (0..many).map(|_| (numbers.below(end) + round) as u8).collect();
        let map: Map = std::array::from_fn(|_| numbers.next() & numbers.next());
        let mut tiny = tiny_of(map);
        let step = |(&code, &x): (&u8, &u8)| match code {
            0 => tiny.contains(x) as u8,
            1 => tiny.insert(x) as u8,
            _ => tiny.remove(x) as u8,
        };
        let expected: Vec<u8> = codes.iter().zip(&xs).map(step).collect();
        let what = || format!("round {round}, {many} commands from {map:x?}");
        let (mut words, mut answers) = (Lent::new(&map, MARK), Lent::new(&vec![BYTE_MARK; many], BYTE_MARK));
        tally.same(what, port::map_change(words.part(), &codes, &xs, answers.part()), 0);
        words.same(tally, what, &map_of(&tiny), MARK);
        answers.same(tally, what, &expected, BYTE_MARK);

        let mut tiny = tiny_of(map);
        let pair = |(&x, &y): (&u8, &u8)| tiny.insert(x) as u64 + tiny.remove(y) as u64;
        let sum: u64 = xs.iter().zip(&ys).map(pair).sum();
        let mut words = Lent::new(&map, MARK);
        tally.same(what, port::map_pairs(words.part(), &xs, &ys), sum);
        words.same(tally, what, &map_of(&tiny), MARK);
        let tiny = tiny_of(map);
        tally.same(what, port::map_contains(&map, &xs), xs.iter().filter(|&&x| tiny.contains(x)).count() as u64);
        tally.same(what, port::map_rank(&map, &xs), xs.iter().map(|&x| tiny.rank(x) as u64).sum());
    }
}

/// What the port refuses, it leaves as it was.
fn map_refusals(tally: &mut Tally) {
    for words in (0..9usize).filter(|&words| words != 4) {
        let what = || format!("a map of {words} words");
        let map = vec![u64::MAX; words];
        tally.same(what, port::map_contains(&map, &[1]), REFUSED);
        tally.same(what, port::map_rank(&map, &[1]), REFUSED);
        tally.same(what, port::map_next(&map, 0), REFUSED);
        tally.same(what, port::map_is_empty(&map), REFUSED);
        let mut out = Lent::new(&[BYTE_MARK; 256], BYTE_MARK);
        tally.same(what, port::map_walk(&map, out.part()), REFUSED);
        out.same(tally, what, &[BYTE_MARK; 256], BYTE_MARK);
        let (mut lent, mut answers) = (Lent::new(&map, MARK), Lent::new(&[BYTE_MARK], BYTE_MARK));
        tally.same(what, port::map_change(lent.part(), &[2], &[1], answers.part()), REFUSED);
        tally.same(what, port::map_pairs(lent.part(), &[2], &[1]), REFUSED);
        lent.same(tally, what, &map, MARK);
        answers.same(tally, what, &[BYTE_MARK], BYTE_MARK);
    }
    for (codes, xs, answers) in [(1, 2, 2), (3, 2, 2), (2, 2, 1), (2, 2, 3), (0, 0, 1)] {
        let what = || format!("{codes} codes, {xs} bytes, room for {answers} answers");
        let (mut lent, mut told) = (Lent::new(&[0; 4], MARK), Lent::new(&vec![BYTE_MARK; answers], BYTE_MARK));
        tally.same(what, port::map_change(lent.part(), &vec![1; codes], &vec![7; xs], told.part()), REFUSED);
        lent.same(tally, what, &[0; 4], MARK);
        told.same(tally, what, &vec![BYTE_MARK; answers], BYTE_MARK);
    }
    let mut out = Lent::new(&[BYTE_MARK; 255], BYTE_MARK);
    tally.same(|| "a walk with room for 255".into(), port::map_walk(&[1, 0, 0, 0], out.part()), REFUSED);
    out.same(tally, || "a walk with room for 255".into(), &[BYTE_MARK; 255], BYTE_MARK);
}

// ---------------------------------------------------------------- suffix bytes

macro_rules! by_bytes {
    ($b:expr, $call:ident) => {
        match $b {
            1 => $call!(1),
            2 => $call!(2),
            3 => $call!(3),
            4 => $call!(4),
            5 => $call!(5),
            other => panic!("no suffix of {other} bytes"),
        }
    };
}

/// The Rust's bytes, the most significant first, and the number they are.
fn cut(b: u64, s: u64) -> (Vec<u8>, u64) {
    macro_rules! make {
        ($b:literal) => {{
            let suffix = SlicedInt::<$b>::from_int(s);
            (suffix.to_be_bytes().to_vec(), suffix.get::<u64>())
        }};
    }
    by_bytes!(b, make)
}

fn order(b: u64, s: u64, t: u64) -> u64 {
    macro_rules! make {
        ($b:literal) => {
            (SlicedInt::<$b>::from_int(s).cmp(&SlicedInt::<$b>::from_int(t)) as i8 + 1) as u64
        };
    }
    by_bytes!(b, make)
}

fn suffix_bytes(tally: &mut Tally, numbers: &mut Numbers) {
    for b in 1..=5u64 {
        let end = 1u64 << (8 * b);
        // Every boundary, and past the end, where both keep the low bytes only.
        let mut suffixes = vec![0, 1, 2, end - 1, end - 2, end, end + 1, u64::MAX, u64::MAX - 1];
        for place in 0..64 {
            let one = 1u64 << place;
            suffixes.extend([one, one - 1, one.wrapping_add(1), !one, u64::MAX - (one - 1)]);
        }
        let edges = suffixes.len();
        suffixes.extend((0..20000).map(|_| numbers.below(end)));
        suffixes.extend((0..2000).map(|_| numbers.next()));
        let mut rows = Vec::new();
        for &s in &suffixes {
            let (bytes, value) = cut(b, s);
            let mut out = Lent::new(&vec![BYTE_MARK; b as usize], BYTE_MARK);
            tally.same(|| format!("bytes of {s}, b = {b}"), port::bytes(&[s], b, out.part()), 1);
            out.same(tally, || format!("bytes of {s}, b = {b}"), &bytes, BYTE_MARK);
            tally.same(|| format!("value of {s}, b = {b}"), port::value(s, b), value);
            rows.extend(bytes);
        }
        let mut out = Lent::new(&vec![BYTE_MARK; rows.len()], BYTE_MARK);
        tally.same(|| format!("all, b = {b}"), port::bytes(&suffixes, b, out.part()), suffixes.len() as u64);
        out.same(tally, || format!("all, b = {b}"), &rows, BYTE_MARK);
        // Room for one byte less than two suffixes: one is written.
        let mut short = vec![BYTE_MARK; 2 * b as usize - 1];
        let mut out = Lent::new(&short, BYTE_MARK);
        tally.same(|| format!("short room, b = {b}"), port::bytes(&suffixes[..2], b, out.part()), 1);
        short[..b as usize].copy_from_slice(&rows[..b as usize]);
        out.same(tally, || format!("short room, b = {b}"), &short, BYTE_MARK);
        for &s in &suffixes[..edges] {
            for &t in &suffixes[..edges] {
                tally.same(|| format!("order of {s} and {t}, b = {b}"), port::compare(s, t, b), order(b, s, t));
            }
        }
        for pair in suffixes[edges..].windows(2) {
            let (s, t) = (pair[0], pair[1]);
            tally.same(|| format!("order of {s} and {t}, b = {b}"), port::compare(s, t, b), order(b, s, t));
        }
    }
    for b in [6, 7, 8, 9, 1 << 32, u64::MAX] {
        let what = || format!("b = {b}");
        let mut out = Lent::new(&[BYTE_MARK; 16], BYTE_MARK);
        tally.same(what, port::bytes(&[1, 2], b, out.part()), REFUSED);
        out.same(tally, what, &[BYTE_MARK; 16], BYTE_MARK);
        tally.same(what, port::value(1, b), REFUSED);
        tally.same(what, port::compare(1, 2, b), REFUSED);
    }
}

// ---------------------------------------------------------------- the prefix bitmap

/// The words of the Rust's bitmap, by its own walk.
fn words_of(bits: &Bitvector, many: usize) -> Vec<u64> {
    let mut words = vec![0; many];
    for place in bits.iter() {
        words[place / 64] |= 1 << (place % 64);
    }
    words
}

fn prefix_bitmap(tally: &mut Tally, numbers: &mut Numbers) {
    for p in [1usize, 2, 3, 5, 6, 7, 8, 10, 12, 16] {
        let end = 1u64 << p;
        let many = (end as usize).div_ceil(64);
        let mut bits = Bitvector::new_with_bitlength(p);
        let mut words = Lent::new(&vec![0; many], MARK);
        let mut edges = vec![0, 1, end - 1, end / 2];
        edges.extend((0..many as u64).flat_map(|word| [64 * word, (64 * word).saturating_sub(1), 64 * word + 1]));
        edges.retain(|&place| place < end);
        edges.truncate(400);
        for round in 0..1200usize {
            let place = match round % 3 {
                0 => edges[round / 3 % edges.len()],
                _ => numbers.below(end),
            };
            let set = numbers.below(3) > 0;
            let what = || format!("P = {p}, round {round}, place {place}, set {set}");
            let (told, answer) = match set {
                true => (port::bitmap_set(words.part(), place), bits.insert(place as usize)),
                false => (port::bitmap_clear(words.part(), place), bits.remove(place as usize)),
            };
            tally.same(what, told, answer as u64);
            for asked in [place, numbers.below(end), edges[round % edges.len()], end - 1] {
                let at = asked as usize;
                tally.same(what, port::bitmap_test(words.part(), &[asked]), bits.contains(at) as u64);
                tally.same(what, port::bitmap_rank(words.part(), &[asked]), bits.rank(at) as u64);
            }
            if round % 16 == 0 {
                words.same(tally, what, &words_of(&bits, many), MARK);
            }
        }
        words.same(tally, || format!("P = {p}"), &words_of(&bits, many), MARK);
        let all = |place: &u64| bits.rank(*place as usize) as u64;
        tally.same(|| format!("P = {p}, all edges"), port::bitmap_rank(words.part(), &edges), edges.iter().map(all).sum());
        // A place past the last word is refused, and nothing is written.
        let past = 64 * many as u64;
        let before = words.part().to_vec();
        for place in [past, past + 1, past + 64, u64::MAX] {
            let what = || format!("P = {p}, past the end, {place}");
            tally.same(what, port::bitmap_set(words.part(), place), REFUSED);
            tally.same(what, port::bitmap_clear(words.part(), place), REFUSED);
            tally.same(what, port::bitmap_test(words.part(), &[0, place]), REFUSED);
            tally.same(what, port::bitmap_rank(words.part(), &[0, place]), REFUSED);
            words.same(tally, what, &before, MARK);
        }
    }
}

// ---------------------------------------------------------------- the trie

/// The nodes that the suffixes need: one for each different start.
fn nodes(b: u64, members: &BTreeSet<u64>) -> u64 {
    (0..b).map(|j| members.iter().map(|s| s >> (8 * (b - j))).collect::<BTreeSet<u64>>().len() as u64).sum()
}

fn tries(tally: &mut Tally, numbers: &mut Numbers) {
    trie_commands::<1>(tally, numbers);
    trie_commands::<2>(tally, numbers);
    trie_commands::<3>(tally, numbers);
    trie_commands::<4>(tally, numbers);
    trie_commands::<5>(tally, numbers);
}

/// One command a call, so that every arena is looked at; the Rust is the corrected copy.
fn trie_commands<const B: usize>(tally: &mut Tally, numbers: &mut Numbers) {
    let b = B as u64;
    for (few, many, slots) in [(2u64, 300, 40), (4, 700, 400), (256, 500, 90)] {
        let first = numbers.next() >> (64 - 8 * b);
        let start = || (port::Trie::new(slots, b, first), Rust::<B>::new(), BTreeSet::from([first]));
        let (mut trie, mut rust, mut model) = start();
        rust.insert(&SlicedInt::<B>::from_int(first).to_be_bytes());
        for step in 0..many {
            let alphabet = [0, 255, 63, 64];
            let random = (0..b).fold(0, |sum, _| sum << 8 | if few > 4 { numbers.below(256) } else { alphabet[numbers.below(few) as usize] });
            let s = match numbers.below(4) {
                0 => *model.iter().nth(numbers.below(model.len() as u64) as usize).expect("a member"),
                _ => random,
            };
            // The end of a case takes more than it gives.
            let code = match numbers.below(8) {
                0 => 0,
                choice if (choice < 5) == (step < many / 2) => 1,
                _ => 2,
            };
            let what = || format!("b = {b}, {slots} slots, step {step}, code {code}, suffix {s}");
            let before = trie.arena.clone();
            let used = trie.used;
            let bytes = SlicedInt::<B>::from_int(s).to_be_bytes();
            let mut after = model.clone();
            match code {
                1 => after.insert(s),
                2 => after.remove(&s),
                _ => false,
            };
            let no_room = nodes(b, &after) > slots;
            let rust_answer = match code {
                0 => rust.contains(&bytes),
                1 if no_room => false,
                1 => rust.insert(&bytes),
                _ => rust.remove(&bytes),
            };
            let mut answers = Lent::new(&[BYTE_MARK], BYTE_MARK);
            let done = trie.run(&[code], &[s], answers.part());
            tally.same(what, done, 1);
            let expected = if no_room || after.is_empty() { 2 } else { rust_answer as u8 };
            answers.same(tally, what, &[expected], BYTE_MARK);
            if no_room || after == model {
                tally.made += before.len() - 1;
                tally.same(|| format!("{}, words", what()), &trie.arena == &before, true);
                tally.same(|| format!("{}, nodes in use", what()), trie.used, used);
                continue;
            }
            if after.is_empty() {
                tally.same(|| format!("{}, nodes in use", what()), trie.used, 0);
                (trie, rust, model) = start();
                rust.insert(&SlicedInt::<B>::from_int(first).to_be_bytes());
                continue;
            }
            model = after;
            tally.same(|| format!("{}, nodes in use", what()), trie.used, rust.count_nodes() as u64);
            tally.made += model.len();
            tally.same(|| format!("{}, members", what()), trie.members(), model.iter().copied().collect());
            tally.same(|| format!("{}, count", what()), model.len(), rust.count());
        }
    }
    // What is not well formed is refused, and left as it was.
    let mut trie = port::Trie::new(8, b, 7);
    for place in 0..trie.arena.len() {
        let whole = trie.arena[place];
        trie.arena[place] ^= 1 << (place % 63);
        let before = trie.arena.clone();
        let mut answers = Lent::new(&[BYTE_MARK], BYTE_MARK);
        let done = trie.run(&[0], &[7], answers.part());
        tally.made += before.len() - 1;
        tally.same(|| format!("b = {b}, word {place} damaged"), &trie.arena == &before, true);
        if done == REFUSED {
            answers.same(tally, || format!("b = {b}, word {place} damaged"), &[BYTE_MARK], BYTE_MARK);
        }
        trie.arena[place] = whole;
    }
    let mut answers = Lent::new(&[BYTE_MARK], BYTE_MARK);
    tally.same(|| format!("b = {b}, a suffix too long"), trie.run(&[1], &[1 << (8 * b)], answers.part()), 0);
    answers.same(tally, || format!("b = {b}, a suffix too long"), &[BYTE_MARK], BYTE_MARK);
}
