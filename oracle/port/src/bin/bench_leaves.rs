//! Times of the port's leaves beside the Rust's, one table. Nothing timed is a test; that both did the same is.
#![allow(incomplete_features)]
#![feature(generic_const_exprs)]

use cbl_original::bitvector::TinyBitvector;
use cbl_original::sliced_int::SlicedInt;
use cbl_original::trie::Trie;
use driver::{grouped, Numbers};
use std::collections::BTreeSet;
use std::ffi::c_void;
use std::hint::black_box;
use std::time::Instant;

unsafe extern "C" {
    fn plain_rank(words: *const u64, place: usize) -> u64;
    fn memset(to: *mut c_void, byte: i32, many: usize) -> *mut c_void;
}

/// The least time of each side, in nanoseconds; the two sides are taken in turn.
fn sides(rounds: usize, mut port: impl FnMut() -> u64, mut peer: impl FnMut() -> u64) -> (f64, f64) {
    let mut best = (f64::INFINITY, f64::INFINITY);
    for _ in 0..rounds {
        let start = Instant::now();
        let ours = black_box(port());
        best.0 = best.0.min(start.elapsed().as_nanos() as f64);
        let start = Instant::now();
        let theirs = black_box(peer());
        best.1 = best.1.min(start.elapsed().as_nanos() as f64);
        assert_eq!(ours, theirs, "the two sides did not do the same");
    }
    best
}

fn row(name: &str, beside: &str, unit: &str, per: f64, (port, peer): (f64, f64), most: &str) {
    let above = if most.parse().is_ok_and(|most: f64| port / peer > most) { ", above" } else { "" };
    println!("{name:<50} | {unit} | {:>9.3} | {beside:<17} | {:>9.3} | {:>5.2} | {most}{above}", port / per, peer / per, port / peer);
}

fn main() {
    println!("{:<50} | {} | {:>9} | {:<17} | {:>9} | {:>5} | at most", "leaf", "  ", "the port", "beside", "its time", "ratio");
    node_map();
    suffix_bytes();
    bitmap();
    trie::<4>("S = 28", 1 << 28);
    trie::<5>("S = 40", 1 << 40);
    crossing::<4>("S = 28", 1 << 28);
    crossing::<5>("S = 40", 1 << 40);
    make();
}

const MANY: usize = 1 << 16;

#[inline(never)]
fn rust_contains(map: &TinyBitvector, xs: &[u8]) -> u64 {
    xs.iter().map(|&x| map.contains(x) as u64).sum()
}

#[inline(never)]
fn rust_pairs(map: &mut TinyBitvector, xs: &[u8], ys: &[u8]) -> u64 {
    xs.iter().zip(ys).map(|(&x, &y)| map.insert(x) as u64 + map.remove(y) as u64).sum()
}

#[inline(never)]
fn rust_change(map: &mut TinyBitvector, codes: &[u8], xs: &[u8], answers: &mut [u8]) {
    for ((&code, &x), answer) in codes.iter().zip(xs).zip(answers) {
        *answer = match code {
            0 => map.contains(x),
            1 => map.insert(x),
            _ => map.remove(x),
        } as u8;
    }
}

#[inline(never)]
fn rust_rank(map: &TinyBitvector, xs: &[u8]) -> u64 {
    xs.iter().map(|&x| map.rank(x) as u64).sum()
}

#[inline(never)]
fn rust_count(maps: &[TinyBitvector]) -> u64 {
    maps.iter().map(|map| map.count() as u64).sum()
}

#[inline(never)]
fn rust_walk(map: &TinyBitvector, out: &mut [u8; 256]) -> u64 {
    let mut many = 0;
    for byte in map.iter() {
        out[many] = byte;
        many += 1;
    }
    many as u64
}

fn tiny_of(map: &[u64]) -> TinyBitvector {
    let mut tiny = TinyBitvector::new();
    for byte in 0..=255u8 {
        if map[byte as usize / 64] >> (byte % 64) & 1 == 1 {
            tiny.insert(byte);
        }
    }
    tiny
}

fn node_map() {
    let mut numbers = Numbers(2026);
    let xs: Vec<u8> = (0..MANY).map(|_| numbers.next() as u8).collect();
    let ys: Vec<u8> = (0..MANY).map(|_| numbers.next() as u8).collect();
    let codes: Vec<u8> = (0..MANY).map(|_| numbers.below(3) as u8).collect();
    let map: Vec<u64> = (0..4).map(|_| numbers.next() & numbers.next()).collect();
    let tiny = tiny_of(&map);
    let (many, beside) = (MANY as f64, "TinyBitvector");
    let rounds = 301;
    let times = sides(rounds, || port::map_contains(black_box(&map), &xs), || rust_contains(black_box(&tiny), &xs));
    row("node map: contains, a quarter set", beside, "ns", many, times, "1.10");
    let times = sides(rounds, || port::map_pairs(&mut [0; 4], &xs, &ys), || rust_pairs(&mut TinyBitvector::new(), &xs, &ys));
    row("node map: an insert and a remove", beside, "ns", many, times, "1.10");
    let (mut ours, mut theirs) = (vec![0; MANY], vec![0; MANY]);
    let times = sides(
        rounds,
        || port::map_change(&mut [0; 4], &codes, &xs, &mut ours),
        || {
            rust_change(&mut TinyBitvector::new(), &codes, &xs, &mut theirs);
            0
        },
    );
    assert_eq!(ours, theirs);
    row("node map: mixed commands, answers written", beside, "ns", many, times, "");
    let times = sides(rounds, || port::map_rank(black_box(&map), &xs), || rust_rank(black_box(&tiny), &xs));
    row("node map: rank", beside, "ns", many, times, "1.10");

    let words: Vec<u64> = (0..4096).map(|_| numbers.next()).collect();
    let tinies: Vec<TinyBitvector> = words.chunks(4).map(tiny_of).collect();
    let times = sides(rounds * 10, || port::map_count(black_box(&words)), || rust_count(black_box(&tinies)));
    row("node map: count, 1,024 maps", beside, "ns", 1024.0, times, "1.10");

    for (name, map) in [("a quarter set", map), ("all set", vec![u64::MAX; 4]), ("4 set", vec![2, 1 << 40, 1 << 63, 1])] {
        let tiny = tiny_of(&map);
        let (mut ours, mut theirs) = ([0; 256], [0; 256]);
        let times = sides(
            rounds,
            || (0..1000).map(|_| port::map_walk(black_box(&map), &mut ours)).sum(),
            || (0..1000).map(|_| rust_walk(black_box(&tiny), black_box(&mut theirs))).sum(),
        );
        assert_eq!(ours, theirs);
        row(&format!("node map: walk, {name}, a byte"), beside, "ns", 1000.0 * tiny.count() as f64, times, "1.10");
    }
}

#[inline(never)]
fn rust_bytes<const B: usize>(suffixes: &[u64], out: &mut [u8]) -> u64 {
    for (&s, out) in suffixes.iter().zip(out.chunks_exact_mut(B)) {
        out.copy_from_slice(&SlicedInt::<B>::from_int(s).to_be_bytes());
    }
    suffixes.len() as u64
}

fn suffix_bytes() {
    let mut numbers = Numbers(2026);
    for b in [4usize, 5] {
        let suffixes: Vec<u64> = (0..MANY).map(|_| numbers.below(1 << (8 * b))).collect();
        let (mut ours, mut theirs) = (vec![0; b * MANY], vec![0; b * MANY]);
        let rust = if b == 4 { rust_bytes::<4> } else { rust_bytes::<5> };
        let times = sides(101, || port::bytes(&suffixes, b as u64, &mut ours), || rust(&suffixes, &mut theirs));
        assert_eq!(ours, theirs);
        row(&format!("suffix bytes: b = {b}, written out"), "SlicedInt", "ns", MANY as f64, times, "");
    }
}

fn bitmap() {
    let mut numbers = Numbers(2026);
    let words: Vec<u64> = (0..1 << 18).map(|_| numbers.next()).collect();
    let place = (1usize << 24) - 5;
    let times = sides(101, || port::bitmap_rank(black_box(&words), &[place as u64]), || unsafe {
        plain_rank(black_box(words.as_ptr()), place)
    });
    row("prefix bitmap: rank over 2^24 bits", "plain loop in C", "us", 1000.0, times, "1.30");
}

/// One row of commands on the Rust's trie; how many answered yes.
#[inline(never)]
fn rust_run<const B: usize>(trie: &mut Trie<B>, codes: &[u8], suffixes: &[u64]) -> u64 {
    let one = |(&code, &s): (&u8, &u64)| {
        let bytes = SlicedInt::<B>::from_int(s).to_be_bytes();
        match code {
            0 => trie.contains(&bytes) as u64,
            1 => trie.insert(&bytes) as u64,
            _ => trie.remove(&bytes) as u64,
        }
    };
    codes.iter().zip(suffixes).map(one).sum()
}

/// The suffixes ascending, as the Rust's containers walk their tries.
#[inline(never)]
fn rust_trie_walk<const B: usize>(trie: &Trie<B>, out: &mut Vec<SlicedInt<B>>) -> u64 {
    out.clear();
    out.extend(trie.iter().map(|bytes: [u8; B]| SlicedInt::<B>::from_be_bytes(&bytes)));
    out.len() as u64
}

/// A trie made of a vector and a vector made of it, word for word as `as_trie` and `as_vec` of src/trievec/mod.rs.
#[inline(never)]
fn rust_cross<const B: usize>(strip: &[SlicedInt<B>]) -> Vec<SlicedInt<B>> {
    let mut trie = Trie::<B>::new();
    for x in strip.iter() {
        trie.insert(&x.to_be_bytes());
    }
    trie.iter().map(|bytes: [u8; B]| SlicedInt::from_be_bytes(&bytes)).collect()
}

/// So many different suffixes, in no order.
fn shuffled(numbers: &mut Numbers, many: usize, even: bool, end: u64) -> Vec<u64> {
    let mut all: Vec<u64> = match even {
        true => (0..many as u64).map(|place| 2 * place).collect(),
        false => {
            let mut seen = BTreeSet::new();
            while seen.len() < many {
                seen.insert(numbers.below(end));
            }
            seen.into_iter().collect()
        }
    };
    for place in (1..all.len()).rev() {
        all.swap(place, numbers.below(place as u64 + 1) as usize);
    }
    all
}

/// How many nodes a trie of the suffixes has.
fn nodes<const B: usize>(suffixes: &[u64]) -> u64 {
    (0..B).map(|j| suffixes.iter().map(|s| s >> (8 * (B - j))).collect::<BTreeSet<u64>>().len() as u64).sum()
}

/// The least time of a call.
fn least(rounds: usize, mut call: impl FnMut()) -> f64 {
    let timed = |_| {
        let start = Instant::now();
        call();
        start.elapsed().as_nanos() as f64
    };
    (0..rounds).map(timed).fold(f64::INFINITY, f64::min)
}

/// Lookups, walks, and insert with remove. A call of the port checks its arena first: so a call does many, and the least
/// time of a call that does none is taken off the least time of a call.
fn trie<const B: usize>(size: &str, end: u64) {
    let mut numbers = Numbers(2026);
    for (many, new) in [(2000usize, 500usize), (100000, 10000)] {
        for even in [false, true] {
            let all = shuffled(&mut numbers, many + new, even, end);
            let (members, fresh) = all.split_at(many);
            let mut ours = port::Trie::new(nodes::<B>(&all) + 8, B as u64, members[0]);
            let mut answers = vec![0; many];
            assert_eq!(ours.run(&vec![1; many], members, &mut answers), many as u64);
            let mut theirs = Trie::<B>::new();
            rust_run(&mut theirs, &vec![1; many], members);
            answers_right(&ours, members, fresh);

            let rounds = 15;
            let shape = if even { "even" } else { "random" };
            let name = |what: &str| format!("trie: {}, {shape}, {size}, {what}", grouped(many));
            let times = COMMANDS / many;
            let asked = members.repeat(times);
            let none = vec![0; asked.len()];
            let mut answers = vec![0; asked.len()];
            let check = least(2 * rounds, || assert_eq!(ours.ask(0, &[], &mut []), 0));
            let (port, peer) = sides(rounds, || ours.ask(0, &asked, &mut answers), || rust_run(&mut theirs, &none, &asked));
            assert!(answers.iter().all(|&answer| answer == 1));
            row(&name("lookup"), "Trie", "ns", asked.len() as f64, (port - check, peer), "0.60");

            let (mut out, mut vector) = (vec![0; many], Vec::with_capacity(many));
            let check = least(2 * rounds, || assert_eq!(ours.walks(0, 0, &mut []), 0));
            let (port, peer) = sides(
                rounds,
                || ours.walks(0, times as u64, &mut out),
                || (0..times).map(|_| rust_trie_walk(black_box(&theirs), black_box(&mut vector))).sum(),
            );
            assert!(vector.iter().map(|s| s.get::<u64>()).eq(out.iter().copied()));
            row(&name("walk"), "Trie", "ns", (many * times) as f64, (port - check, peer), "1.00");

            let times = COMMANDS / (2 * new);
            let pairs: Vec<u64> = [fresh, fresh].concat().repeat(times);
            let both: Vec<u8> = [vec![1; new], vec![2; new]].concat().repeat(times);
            let mut answers = vec![0; pairs.len()];
            let check = least(2 * rounds, || assert_eq!(ours.run(&[], &[], &mut []), 0));
            let (port, peer) =
                sides(rounds, || ours.run(&both, &pairs, &mut answers), || rust_run(&mut theirs, &both, &pairs));
            assert!(answers.iter().all(|&answer| answer == 1));
            row(&name("insert and remove"), "Trie", "ns", (new * times) as f64, (port - check, peer), "1.00");
        }
    }
}

/// The most commands of a call.
const COMMANDS: usize = 800000;

/// The port's answers against the members, which are known here without it.
fn answers_right(ours: &port::Trie, members: &[u64], absent: &[u64]) {
    let many = members.len();
    let sorted: Vec<u64> = members.iter().copied().collect::<BTreeSet<u64>>().into_iter().collect();
    assert_eq!(ours.check(), 1);
    assert_eq!(ours.count(0), many as u64);
    for (suffixes, answer) in [(members, 1), (absent, 0)] {
        let mut answers = vec![2; suffixes.len()];
        assert_eq!(ours.ask(0, suffixes, &mut answers), suffixes.len() as u64);
        assert!(answers.iter().all(|&told| told == answer));
    }
    // from the middle on, with room for less than all and for more
    for (start, room) in [(0, many), (many / 2, many / 3), (many / 2, many), (many, 1)] {
        let mut out = vec![u64::MAX; room];
        let written = room.min(many - start);
        assert_eq!(ours.walk(0, start as u64, &mut out), written as u64);
        assert_eq!(out[..written], sorted[start..start + written]);
        assert!(out[written..].iter().all(|&word| word == u64::MAX));
    }
}

/// A vector of 1,025 suffixes made a trie, and the trie a vector again.
fn crossing<const B: usize>(size: &str, end: u64) {
    let (mut numbers, many, times) = (Numbers(2026), 1025, 200);
    for even in [false, true] {
        let strip = shuffled(&mut numbers, many, even, end);
        let sorted: Vec<u64> = strip.iter().copied().collect::<BTreeSet<u64>>().into_iter().collect();
        let slots = nodes::<B>(&strip) + 8;
        let mut ours = port::Trie::none(slots, B as u64);
        let mut out = vec![0; many];

        let root = ours.build(7, &strip);
        assert!(root < slots);
        assert_eq!((ours.check(), ours.used, ours.count(root)), (1, slots - 8, many as u64));
        assert_eq!(ours.build(7, &strip), port::NO_ROOM);
        assert_eq!(ours.pour(root, &mut out[1..]), port::REFUSED);
        assert_eq!(ours.pour(root, &mut out), many as u64);
        assert_eq!((ours.check(), ours.used, &out), (1, 0, &sorted));

        let vector: Vec<SlicedInt<B>> = strip.iter().map(|&s| SlicedInt::from_int(s)).collect();
        let check = least(18, || assert_eq!(ours.cross(7, &strip, &mut out, 0), 0));
        out.fill(0);
        let mut made = Vec::new();
        let (port, peer) = sides(
            9,
            || ours.cross(7, &strip, &mut out, times),
            || {
                for _ in 0..times {
                    made = rust_cross(black_box(&vector));
                }
                times
            },
        );
        assert_eq!((ours.check(), ours.used, &out), (1, 0, &sorted));
        assert!(made.iter().map(|s| s.get::<u64>()).eq(sorted));
        let name = format!("trie: {}, {}, {size}, build and pour", grouped(many), if even { "even" } else { "random" });
        row(&name, "as_trie, as_vec", "us", 1e3 * times as f64, (port - check, peer), "1.00");
    }
}

/// Kilobytes that Linux says can be had.
fn available() -> u64 {
    let text = std::fs::read_to_string("/proc/meminfo").unwrap_or_default();
    let line = text.lines().find(|line| line.starts_with("MemAvailable:"));
    line.and_then(|line| line.split_whitespace().nth(1)?.parse().ok()).unwrap_or(0)
}

fn make() {
    let (p, s, c) = (24u64, 40u64, 65536u64);
    let words = |n: u64| (16 + (1 << p) / 64 + 1030 * c + 265 * n) as usize;
    let largest = available() / 1024 > 5000;
    let n = if largest { 1 << 20 } else { 65536 };
    let mut region = vec![0u64; words(n)];
    let bytes = 8 * region.len();
    let set: unsafe extern "C" fn(*mut c_void, i32, usize) -> *mut c_void = black_box(memset);
    let at = region.as_mut_ptr();
    unsafe { set(at.cast(), 1, bytes) };
    let times = sides(
        if largest { 7 } else { 31 },
        || brothowl::make(unsafe { std::slice::from_raw_parts_mut(at, words(n)) }, brothowl::Numbers { p, s, containers: c, nodes: n }).is_err() as u64,
        || unsafe {
            set(at.cast(), 0, bytes);
            0
        },
    );
    let name = format!("make: C = {}, N = {}", grouped(c as usize), grouped(n as usize));
    row(&name, "memset", "ms", 1e6, times, "1.30");
    println!();
    println!("make: P = 24, S = 40, {} words, {:.2} GB, one region for both, every page touched before the clock.", grouped(words(n)), bytes as f64 / 1e9);
    if !largest {
        println!("Not the largest region: less than 5 GB of memory can be had.");
    }
}
