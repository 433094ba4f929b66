//! The bench: the port, the Rust, Judy1 and Roaring on the same words, one table; the check and the growth of the costs behind it.
#![allow(incomplete_features)]
#![feature(generic_const_exprs)]

use brothowl::{Operation, Set};
use cbl_flat::wordset::WordSet as FlatSet;
use cbl_original::wordset::WordSet;
use driver::{grouped, Numbers};
use std::collections::BTreeSet;
use std::ffi::c_void;
use std::fmt::Write as _;
use std::hint::black_box;
use std::ptr::null_mut;
use std::time::Instant;

/// A set that can be timed. Times are nanoseconds for the whole call.
trait Peer: Sized {
    fn new() -> Self;
    fn contains(&self, word: u64) -> bool;
    fn insert(&mut self, word: u64) -> bool;
    fn remove(&mut self, word: u64) -> bool;
    fn count(&self) -> u64;
    fn words(&self, out: &mut [u64]) -> usize;
    fn combine(&mut self, code: i32, other: &mut Self) -> Self;
}

macro_rules! rust {
    ($set:ident) => {
        impl<const P: usize, const S: usize> Peer for $set<P, S>
        where
            [(); S.div_ceil(8)]:,
        {
            fn new() -> Self {
                $set::new()
            }
            fn contains(&self, word: u64) -> bool {
                $set::contains(self, word)
            }
            fn insert(&mut self, word: u64) -> bool {
                $set::insert(self, word)
            }
            fn remove(&mut self, word: u64) -> bool {
                $set::remove(self, word)
            }
            fn count(&self) -> u64 {
                $set::count(self) as u64
            }
            fn words(&self, out: &mut [u64]) -> usize {
                let mut written = 0;
                for (word, place) in self.iter::<u64>().zip(out) {
                    *place = word;
                    written += 1;
                }
                written
            }
            fn combine(&mut self, code: i32, other: &mut Self) -> Self {
                match code {
                    0 => self | other,
                    1 => self & other,
                    2 => self - other,
                    _ => self ^ other,
                }
            }
        }
    };
}

rust!(WordSet);
rust!(FlatSet);

unsafe extern "C" {
    fn Judy1Test(array: *const c_void, index: usize, error: *mut c_void) -> i32;
    fn Judy1Set(array: *mut *mut c_void, index: usize, error: *mut c_void) -> i32;
    fn Judy1Unset(array: *mut *mut c_void, index: usize, error: *mut c_void) -> i32;
    fn Judy1Count(array: *const c_void, first: usize, last: usize, error: *mut c_void) -> usize;
    fn Judy1First(array: *const c_void, index: *mut usize, error: *mut c_void) -> i32;
    fn Judy1Next(array: *const c_void, index: *mut usize, error: *mut c_void) -> i32;
    fn Judy1FreeArray(array: *mut *mut c_void, error: *mut c_void) -> usize;
}

struct Judy(*mut c_void);

impl Drop for Judy {
    fn drop(&mut self) {
        unsafe { Judy1FreeArray(&mut self.0, null_mut()) };
    }
}

impl Judy {
    fn each(&self, mut step: impl FnMut(u64)) {
        let mut index = 0;
        let mut found = unsafe { Judy1First(self.0, &mut index, null_mut()) };
        while found == 1 {
            step(index as u64);
            found = unsafe { Judy1Next(self.0, &mut index, null_mut()) };
        }
    }
}

impl Peer for Judy {
    fn new() -> Self {
        Judy(null_mut())
    }
    fn contains(&self, word: u64) -> bool {
        unsafe { Judy1Test(self.0, word as usize, null_mut()) == 1 }
    }
    fn insert(&mut self, word: u64) -> bool {
        unsafe { Judy1Set(&mut self.0, word as usize, null_mut()) == 1 }
    }
    fn remove(&mut self, word: u64) -> bool {
        unsafe { Judy1Unset(&mut self.0, word as usize, null_mut()) == 1 }
    }
    fn count(&self) -> u64 {
        unsafe { Judy1Count(self.0, 0, usize::MAX, null_mut()) as u64 }
    }
    fn words(&self, out: &mut [u64]) -> usize {
        let mut written = 0;
        self.each(|word| {
            out[written] = word;
            written += 1;
        });
        written
    }
    /// Judy has no combinations: both sides are walked and the result is set word by word.
    fn combine(&mut self, code: i32, other: &mut Self) -> Self {
        let mut result = Judy::new();
        let mut keep = |word| {
            result.insert(word);
        };
        self.each(|word| match code {
            0 => keep(word),
            1 if other.contains(word) => keep(word),
            2 | 3 if !other.contains(word) => keep(word),
            _ => (),
        });
        if code == 0 || code == 3 {
            other.each(|word| {
                if code == 0 || !self.contains(word) {
                    keep(word);
                }
            });
        }
        result
    }
}

macro_rules! roaring {
    ($type:ident, $new:ident, $free:ident, $contains:ident, $insert:ident, $remove:ident, $count:ident, $walk:ident, $combine:ident) => {
        unsafe extern "C" {
            fn $new() -> *mut c_void;
            fn $free(set: *mut c_void);
            fn $contains(set: *const c_void, word: u64) -> bool;
            fn $insert(set: *mut c_void, word: u64) -> bool;
            fn $remove(set: *mut c_void, word: u64) -> bool;
            fn $count(set: *const c_void) -> u64;
            fn $walk(set: *const c_void, out: *mut u64) -> u64;
            fn $combine(code: i32, left: *const c_void, right: *const c_void) -> *mut c_void;
        }

        struct $type(*mut c_void);

        impl Drop for $type {
            fn drop(&mut self) {
                unsafe { $free(self.0) };
            }
        }

        impl Peer for $type {
            fn new() -> Self {
                $type(unsafe { $new() })
            }
            fn contains(&self, word: u64) -> bool {
                unsafe { $contains(self.0, word) }
            }
            fn insert(&mut self, word: u64) -> bool {
                unsafe { $insert(self.0, word) }
            }
            fn remove(&mut self, word: u64) -> bool {
                unsafe { $remove(self.0, word) }
            }
            fn count(&self) -> u64 {
                unsafe { $count(self.0) }
            }
            fn words(&self, out: &mut [u64]) -> usize {
                assert!(self.count() <= out.len() as u64);
                unsafe { $walk(self.0, out.as_mut_ptr()) as usize }
            }
            fn combine(&mut self, code: i32, other: &mut Self) -> Self {
                $type(unsafe { $combine(code, self.0, other.0) })
            }
        }
    };
}

roaring!(Roaring32, roaring32_new, roaring32_free, roaring32_contains, roaring32_insert, roaring32_remove, roaring32_count, roaring32_walk, roaring32_combine);
roaring!(Roaring64, roaring64_new, roaring64_free, roaring64_contains, roaring64_insert, roaring64_remove, roaring64_count, roaring64_walk, roaring64_combine);

// ---------------------------------------------------------------- the clock

const ROUNDS: usize = 5;
const PASSES: usize = 3;

/// Takes the four in turn, several times, so that a busy spell does not hit one of them alone.
fn in_turn<const N: usize>(mut peers: [&mut dyn FnMut() -> [f64; N]; 4]) -> [[f64; N]; 4] {
    let mut best = [[f64::INFINITY; N]; 4];
    for _ in 0..PASSES {
        for (peer, best) in peers.iter_mut().zip(&mut best) {
            for (time, best) in peer().into_iter().zip(best) {
                *best = best.min(time);
            }
        }
    }
    best
}

/// The least time of all rounds, in nanoseconds; the step times itself.
fn least(mut step: impl FnMut() -> f64) -> f64 {
    (0..ROUNDS).map(|_| step()).fold(f64::INFINITY, f64::min)
}

fn clocked<R>(work: impl FnOnce() -> R) -> (f64, R) {
    let start = Instant::now();
    let result = work();
    (start.elapsed().as_nanos() as f64, result)
}

// ---------------------------------------------------------------- shapes

/// Words that are in, words that are not, and new ones that come and go.
struct Shape {
    name: &'static str,
    /// P and S.
    sizes: (u64, u64),
    members: Vec<u64>,
    absent: Vec<u64>,
    new: Vec<u64>,
}

const STEPS: [&str; 4] = ["lookup, member", "lookup, absent", "insert + remove", "walk"];

/// Commands of a timed row: the clock is read twice for so many of them.
const MANY: usize = 400_000;

/// The words over and over, so that there are about MANY.
fn repeated(words: &[u64]) -> Vec<u64> {
    words.repeat((MANY / words.len()).max(1))
}

/// New words inserted and then removed, in lists of at most 2,048 each, over and over.
fn pairs(new: &[u64]) -> (Vec<u8>, Vec<u64>) {
    let (mut codes, mut words) = (Vec::new(), Vec::new());
    for list in new.chunks(2048) {
        for code in [1, 2] {
            codes.extend(list.iter().map(|_| code));
            words.extend(list);
        }
    }
    let times = (MANY / words.len()).max(1);
    (codes.repeat(times), words.repeat(times))
}

/// The four steps of one peer, nanoseconds an operation; insert + remove is the pair, walk is for a word.
fn steps<T: Peer>(shape: &Shape) -> [f64; 4] {
    let mut set = T::new();
    shape.members.iter().for_each(|&word| assert!(set.insert(word)));
    let lookups = |set: &T, words: &[u64], expected: usize| {
        let words = repeated(words);
        least(|| {
            let (time, found) = clocked(|| words.iter().filter(|&&word| set.contains(black_box(word))).count());
            assert_eq!(found, expected * words.len(), "a wrong lookup");
            time / words.len() as f64
        })
    };
    let member = lookups(&set, &shape.members, 1);
    let absent = lookups(&set, &shape.absent, 0);
    let (codes, words) = pairs(&shape.new);
    let pair = least(|| {
        let (time, answered) = clocked(|| {
            let mut one = |(&code, &word): (&u8, &u64)| if code == 1 { set.insert(word) } else { set.remove(word) };
            codes.iter().zip(&words).filter(|&pair| one(pair)).count()
        });
        assert_eq!(answered, words.len(), "a wrong insert or remove");
        time / (words.len() / 2) as f64
    });
    let mut out = vec![0; shape.members.len()];
    let times = (MANY / out.len()).max(8);
    let walk = least(|| {
        let (time, written) = clocked(|| (0..times).map(|_| set.words(black_box(&mut out))).sum::<usize>());
        assert_eq!(written, times * out.len(), "a wrong walk");
        time / written as f64
    });
    assert_eq!(set.count(), shape.members.len() as u64);
    [member, absent, pair, walk]
}

/// The nodes that a set's tries need, by the definition of document 01.
fn nodes((p, s): (u64, u64), words: &[u64]) -> u64 {
    let b = s.div_ceil(8);
    let mut by: std::collections::BTreeMap<u64, Vec<u64>> = Default::default();
    words.iter().for_each(|word| by.entry(word >> s).or_default().push(word & ((1 << s) - 1)));
    assert!(by.keys().all(|prefix| prefix >> p == 0));
    let strings = |suffixes: &Vec<u64>, len: u64| suffixes.iter().map(|x| x >> (8 * (b - len))).collect::<BTreeSet<_>>().len() as u64;
    by.values().filter(|suffixes| suffixes.len() > 1024).map(|suffixes| (0..b).map(|len| strings(suffixes, len)).sum::<u64>()).sum()
}

/// A set of the port with room for exactly these words, holding some of them.
fn ported(sizes: (u64, u64), all: &[u64], members: &[u64]) -> Set {
    let containers = all.iter().map(|word| word >> sizes.1).collect::<BTreeSet<_>>().len() as u64;
    let numbers = brothowl::Numbers { p: sizes.0, s: sizes.1, containers: containers.max(1), nodes: nodes(sizes, all) };
    let mut set = Set::new(numbers).expect("good numbers");
    // by one call: the exported list takes 4,096 and checks each time
    let mut answers = vec![0; members.len()];
    let region = set.into_region();
    let mut region = region;
    assert_eq!(port::set_run(&mut region, &vec![1; members.len()], members, &mut answers), members.len() as u64);
    assert!(answers.iter().all(|&answer| answer == 1));
    set = Set::over(region).expect("well formed");
    set
}

/// The least time of the check.
fn check(region: &[u64]) -> f64 {
    least(|| clocked(|| assert!(brothowl::check(black_box(region)).is_ok())).0)
}

/// The four steps of the port. A call checks its region once, and the least time of a call with nothing to do is taken off.
fn port_steps(shape: &Shape) -> [f64; 4] {
    let all: Vec<u64> = shape.members.iter().chain(&shape.new).copied().collect();
    let mut region = ported(shape.sizes, &all, &shape.members).into_region();
    let idle = least(|| clocked(|| port::set_run(black_box(&mut region), &[], &[], &mut [])).0);
    let mut answers = vec![0; 2 * MANY];
    let mut run = |codes: &[u8], words: &[u64], expected: u8| {
        let answers = &mut answers[..words.len()];
        least(|| {
            let (time, done) = clocked(|| port::set_run(black_box(&mut region), codes, words, answers));
            assert_eq!(done, words.len() as u64);
            assert!(answers.iter().all(|&answer| answer == expected), "a wrong answer");
            (time - idle).max(0.0) / words.len() as f64
        })
    };
    let members = repeated(&shape.members);
    let member = run(&vec![0; members.len()], &members, 1);
    let absent = repeated(&shape.absent);
    let absent = run(&vec![0; absent.len()], &absent, 0);
    let (codes, words) = pairs(&shape.new);
    let pair = 2.0 * run(&codes, &words, 1);
    let mut out = vec![0; shape.members.len()];
    let times = (MANY / out.len()).max(8);
    let none = least(|| clocked(|| port::set_walk(black_box(&region), 0, &mut out)).0);
    let walk = least(|| {
        let (time, written) = clocked(|| port::set_walk(black_box(&region), times as u64, &mut out));
        assert_eq!(written as usize, times * out.len());
        (time - none).max(0.0) / written as f64
    });
    [member, absent, pair, walk]
}

/// One insert and one remove that cross the threshold, nanoseconds for the pair.
fn crossing<T: Peer>(members: &[u64], new: u64) -> f64 {
    let mut set = T::new();
    members.iter().for_each(|&word| assert!(set.insert(word)));
    least(|| {
        let (time, answers) = clocked(|| (0..64).filter(|_| set.insert(new) && set.remove(new)).count());
        assert_eq!(answers, 64);
        time / 64.0
    })
}

fn port_crossing(members: &[u64], new: u64) -> f64 {
    let all: Vec<u64> = members.iter().copied().chain([new]).collect();
    let mut region = ported((12, 28), &all, members).into_region();
    let idle = least(|| clocked(|| port::set_run(black_box(&mut region), &[], &[], &mut [])).0);
    let (codes, words) = ([1, 2].repeat(64), vec![new; 128]);
    let mut answers = vec![0; 128];
    least(|| {
        let (time, done) = clocked(|| port::set_run(&mut region, &codes, &words, &mut answers));
        assert!(done == 128 && answers.iter().all(|&answer| answer == 1));
        (time - idle).max(0.0) / 64.0
    })
}

/// The four combinations of one peer, nanoseconds each; the results' sizes are known.
fn combinations<T: Peer>(a: &[u64], b: &[u64], expected: [u64; 4]) -> [f64; 4] {
    let make = |words: &[u64]| {
        let mut set = T::new();
        words.iter().for_each(|&word| assert!(set.insert(word)));
        set
    };
    let (mut left, mut right) = (make(a), make(b));
    std::array::from_fn(|code| {
        least(|| {
            let (time, result) = clocked(|| left.combine(code as i32, &mut right));
            assert_eq!(result.count(), expected[code], "a wrong combination");
            time
        })
    })
}

const OPERATIONS: [Operation; 4] = [Operation::Or, Operation::And, Operation::Minus, Operation::Xor];

/// The port's: the least time of a call, less the least time of the three checks that it makes, timed alone before each call.
fn port_combinations(a: &[u64], b: &[u64], all: &[u64], expected: [u64; 4]) -> [f64; 4] {
    let (left, right) = (ported((12, 28), a, a), ported((12, 28), b, b));
    std::array::from_fn(|code| {
        let mut destination = ported((12, 28), all, &[]);
        let (mut call, mut checks) = (f64::INFINITY, f64::INFINITY);
        for _ in 0..ROUNDS {
            // as it was left by the round before, like a region that is used again
            let three = [left.region(), right.region(), destination.region()];
            let (time, good) = clocked(|| three.iter().all(|region| brothowl::check(black_box(region)).is_ok()));
            assert!(good);
            checks = checks.min(time);
            let (time, told) = clocked(|| destination.combine(OPERATIONS[code], &left, &right));
            assert_eq!((told, destination.len()), (Ok(()), expected[code]), "a wrong combination");
            call = call.min(time);
        }
        (call - checks).max(0.0)
    })
}

/// Random different words, in random order.
fn random(numbers: &mut Numbers, many: usize, mut word: impl FnMut(&mut Numbers) -> u64) -> Vec<u64> {
    let mut seen = BTreeSet::new();
    let mut words = Vec::with_capacity(many);
    while words.len() < many {
        let next = word(numbers);
        if seen.insert(next) {
            words.push(next);
        }
    }
    words
}

fn shuffled(numbers: &mut Numbers, mut words: Vec<u64>) -> Vec<u64> {
    for place in (1..words.len()).rev() {
        words.swap(place, numbers.below(place as u64 + 1) as usize);
    }
    words
}

/// Members, absent and new words cut from one random row.
fn random_shape(numbers: &mut Numbers, name: &'static str, members: usize, new: usize) -> Shape {
    let mut row = random(numbers, members + members.min(20000) + new, |numbers| numbers.below(1 << 28));
    let new = row.split_off(row.len() - new);
    let absent = row.split_off(members);
    Shape { name, sizes: (12, 28), members: row, absent, new }
}

/// Members are even suffixes in a row; absent and new ones are odd, among them.
fn even_shape(numbers: &mut Numbers, name: &'static str, members: u64, new: u64) -> Shape {
    let odd = shuffled(numbers, (0..members).map(|place| 2 * place + 1).collect());
    Shape {
        name,
        sizes: (12, 28),
        members: shuffled(numbers, (0..members).map(|place| 2 * place).collect()),
        absent: odd.iter().copied().skip(new as usize).take(20000).collect(),
        new: odd.into_iter().take(new as usize).collect(),
    }
}

// ---------------------------------------------------------------- the table and its picture

/// A row that was measured.
struct Row {
    shape: String,
    step: &'static str,
    unit: &'static str,
    /// The port, the Rust, Judy1, Roaring.
    times: [f64; 4],
    /// The port's time over the Rust's is asked to be at most this.
    most: f64,
}

#[derive(Default)]
struct Table {
    rows: Vec<Row>,
}

impl Table {
    fn row(&mut self, shape: &str, step: &'static str, unit: &'static str, scale: f64, times: [f64; 4], most: f64) {
        let [port, rust, judy, roaring] = times.map(|time| time / scale);
        println!(
            "{shape:<33} | {step:<15} | {unit} | {port:>9.1} | {rust:>9.1} | {judy:>9.1} | {roaring:>9.1} | {:>9.2} | {:>7.2} | {:>10.2} | {:>12.2}",
            port / rust, most, port / judy, port / roaring,
        );
        self.rows.push(Row { shape: shape.into(), step, unit, times: [port, rust, judy, roaring], most });
    }

    /// The rows whose ratio to the Rust is above what is asked.
    fn above(&self) -> String {
        let ratio = |row: &Row| row.times[0] / row.times[1];
        let rows: Vec<String> = self
            .rows
            .iter()
            .filter(|row| ratio(row) > row.most)
            .map(|row| format!("{}, {}: {:.2}, asked {:.2}", row.shape, row.step, ratio(row), row.most))
            .collect();
        match rows.is_empty() {
            true => "Every row is within what is asked.".into(),
            false => format!("Above what is asked, in this run:\n{}", rows.join("\n")),
        }
    }

    /// One bar a row: the port's time over the Rust's, on a scale where equal lengths are equal factors.
    fn picture(&self) -> String {
        let (left, wide, high, top) = (330.0, 520.0, 17.0, 46.0);
        let at = |ratio: f64| left + wide * (ratio.clamp(0.02, 16.0) / 0.02).ln() / (16.0f64 / 0.02).ln();
        let tall = top + high * self.rows.len() as f64 + 10.0;
        let mut svg = String::new();
        let _ = writeln!(svg, "<svg xmlns=\"http://www.w3.org/2000/svg\" width=\"920\" height=\"{tall}\" font-family=\"sans-serif\" font-size=\"11\">");
        let _ = writeln!(svg, "<rect width=\"100%\" height=\"100%\" fill=\"white\"/>");
        let _ = writeln!(svg, "<text x=\"8\" y=\"18\" font-size=\"13\">The port's time over the Rust's, by oracle/bench. Left of 1 the port is faster; the mark is what is asked at most.</text>");
        for ratio in [0.02, 0.05, 0.1, 0.2, 0.5, 1.0, 2.0, 5.0, 10.0] {
            let x = at(ratio);
            let color = if ratio == 1.0 { "#444" } else { "#ddd" };
            let _ = writeln!(svg, "<line x1=\"{x:.1}\" x2=\"{x:.1}\" y1=\"{}\" y2=\"{:.1}\" stroke=\"{color}\"/><text x=\"{x:.1}\" y=\"{}\" text-anchor=\"middle\" fill=\"#666\">{ratio}</text>", top - 6.0, tall - 6.0, top - 10.0);
        }
        for (place, row) in self.rows.iter().enumerate() {
            let y = top + high * place as f64;
            let ratio = row.times[0] / row.times[1];
            let (x, one, mark) = (at(ratio), at(1.0), at(row.most));
            let color = if ratio <= row.most { "#2a7f4f" } else { "#c2452d" };
            let _ = writeln!(svg, "<text x=\"{}\" y=\"{:.1}\" text-anchor=\"end\">{}, {}</text>", left - 8.0, y + 12.0, row.shape, row.step);
            let _ = writeln!(svg, "<rect x=\"{:.1}\" y=\"{:.1}\" width=\"{:.1}\" height=\"{}\" fill=\"{color}\"/>", x.min(one), y + 3.0, (x - one).abs().max(1.0), high - 6.0);
            let _ = writeln!(svg, "<line x1=\"{mark:.1}\" x2=\"{mark:.1}\" y1=\"{:.1}\" y2=\"{:.1}\" stroke=\"black\" stroke-width=\"2\"/>", y + 1.0, y + high - 1.0);
            let _ = writeln!(svg, "<text x=\"{:.1}\" y=\"{:.1}\" fill=\"#333\">{ratio:.2}</text>", x.max(one).max(mark) + 5.0, y + 12.0);
        }
        svg.push_str("</svg>\n");
        svg
    }
}

/// Whether a shape is to be measured: all are, unless `oracle/bench --only TEXT` names some.
fn wanted(name: &str) -> bool {
    std::env::var("BROTHOWL_ONLY").map_or(true, |some| name.contains(&some))
}

fn main() {
    let mut numbers = Numbers(2026);
    let mut table = Table::default();
    println!(
        "{:<33} | {:<15} | {} | {:>9} | {:>9} | {:>9} | {:>9} | {:>9} | {:>7} | {:>10} | {:>12}",
        "shape", "operation", "  ", "the port", "the Rust", "Judy1", "Roaring", "port/Rust", "at most", "port/Judy1", "port/Roaring"
    );

    let shapes = [
        random_shape(&mut numbers, "vector of 10", 10, 1),
        random_shape(&mut numbers, "vector of 1,000", 1000, 20),
        random_shape(&mut numbers, "trie of 2,000, random", 2000, 200),
        even_shape(&mut numbers, "trie of 2,000, even", 2000, 200),
        random_shape(&mut numbers, "trie of 100,000, random", 100000, 5000),
        even_shape(&mut numbers, "trie of 100,000, even", 100000, 5000),
    ];
    for shape in shapes.iter().filter(|shape| wanted(shape.name)) {
        let times = in_turn([
            &mut || port_steps(shape),
            &mut || steps::<WordSet<12, 28>>(shape),
            &mut || steps::<Judy>(shape),
            &mut || steps::<Roaring32>(shape),
        ]);
        let lookup = if shape.name.starts_with("trie") { 0.6 } else { 1.0 };
        for (place, step) in STEPS.into_iter().enumerate() {
            let most = if place < 2 { lookup } else { 1.0 };
            table.row(shape.name, step, "ns", 1.0, times.map(|steps| steps[place]), most);
        }
    }

    // 60,000 prefixes of 3 words; new words under old prefixes, then under new ones.
    let prefixes = random(&mut numbers, 62000, |numbers| numbers.below(1 << 24));
    let mut under = |some: &[u64], each: usize| -> Vec<u64> {
        let words: Vec<u64> = some
            .iter()
            .flat_map(|&prefix| random(&mut numbers, each, |numbers| (prefix << 40) + numbers.below(1 << 40)))
            .collect();
        shuffled(&mut numbers, words)
    };
    let (old, new) = prefixes.split_at(60000);
    let mut shape = Shape {
        name: "60,000 prefixes of 3, old prefix",
        sizes: (24, 40),
        members: under(old, 3),
        absent: under(&old[..20000], 1),
        new: under(&old[20000..22000], 1),
    };
    for fresh in [false, true] {
        if fresh {
            shape.name = "60,000 prefixes of 3, new prefix";
            shape.absent = under(new, 1);
            shape.new = under(new, 1);
        }
        if !wanted(shape.name) {
            continue;
        }
        // A new prefix is held against the Rust with a flat table, as the port's is.
        let times = in_turn([
            &mut || port_steps(&shape),
            &mut || if fresh { steps::<FlatSet<24, 40>>(&shape) } else { steps::<WordSet<24, 40>>(&shape) },
            &mut || steps::<Judy>(&shape),
            &mut || steps::<Roaring64>(&shape),
        ]);
        for (place, step) in STEPS.into_iter().enumerate().skip(fresh as usize).take(4 - 2 * fresh as usize) {
            table.row(shape.name, step, "ns", 1.0, times.map(|steps| steps[place]), 1.0);
        }
    }

    let random_members = random(&mut numbers, 1024, |numbers| numbers.below(1 << 27));
    let even_members: Vec<u64> = (0..1024).map(|place| 2 * place).collect();
    for (name, members, new) in [
        ("1,024 to 1,025 and back, random", &random_members, 1 << 27),
        ("1,024 to 1,025 and back, even", &even_members, 2048),
    ] {
        if !wanted(name) {
            continue;
        }
        let times = in_turn([
            &mut || [port_crossing(members, new)],
            &mut || [crossing::<WordSet<12, 28>>(members, new)],
            &mut || [crossing::<Judy>(members, new)],
            &mut || [crossing::<Roaring32>(members, new)],
        ]);
        table.row(name, "insert + remove", "ns", 1.0, times.map(|[time]| time), 2.0);
    }

    for (name, prefixes) in [("two of 100,000, one prefix", 1), ("two of 100,000, 64 tries", 64), ("two of 100,000, 4,096 vectors", 4096)] {
        // Half of each side is on both.
        let words = random(&mut numbers, 150000, |numbers| (numbers.below(prefixes) << 28) + numbers.below(1 << 28));
        if !wanted(name) {
            continue;
        }
        let (a, b) = (&words[..100000], &words[50000..]);
        let expected: [u64; 4] = [150000, 50000, 50000, 100000];
        let times = in_turn([
            &mut || port_combinations(a, b, &words, expected),
            &mut || combinations::<WordSet<12, 28>>(a, b, expected),
            &mut || combinations::<Judy>(a, b, expected),
            &mut || match prefixes {
                1 => combinations::<Roaring32>(a, b, expected),
                _ => combinations::<Roaring64>(a, b, expected),
            },
        ]);
        for (code, step) in driver::COMBINATIONS.into_iter().enumerate() {
            table.row(name, step, "us", 1000.0, times.map(|combined| combined[code]), 1.0);
        }
    }

    println!();
    println!("{}", table.above());
    if std::env::var("BROTHOWL_ONLY").is_ok() {
        return;
    }
    println!();
    println!("The check, and a list of 4,096 lookups through the exported entry, which checks first. A vector's distinctness is apart:");
    println!("the check's second column is of vectors whose entries ascend, which are told distinct by one look at each entry. The words");
    println!("seen are copied twice: as so many in a row, and from where they lie; the ratios are of the second column to each.");
    println!(
        "{:<33} | {:>9} | {:>10} | {:>10} | {:>9} | {:>6} | {:>10} | {:>6} | {:>9} | {:>14}",
        "shape", "check, us", "ascending", "words seen", "in a row", "ratio", "where laid", "ratio", "list, us", "the check's part"
    );
    for shape in shapes.iter().chain([&shape]) {
        let mut region = ported(shape.sizes, &shape.members, &shape.members).into_region();
        let (time, seen) = (check(&region), looked_at(&region));
        let words: usize = seen.iter().map(|run| run.len()).sum();
        let (row, laid) = (copy(words), gather(&region, &seen, words));
        // tries are left as they are: their nodes would lie in another order
        let apart = if region[6] > 0 { time } else { check(ascending(shape).region()) };
        let asked: Vec<u64> = shape.members.iter().cycle().take(4096).copied().collect();
        let mut answers = vec![0; 4096];
        let list = least(|| clocked(|| assert!(brothowl::run(&mut region, &[0; 4096], &asked, &mut answers).is_ok())).0);
        println!(
            "{:<33} | {:>9.1} | {:>10.1} | {:>10} | {:>9.1} | {:>6.2} | {:>10.1} | {:>6.2} | {:>9.1} | {:>13.0}%",
            shape.name, time / 1000.0, apart / 1000.0, grouped(words), row / 1000.0, apart / row, laid / 1000.0, apart / laid,
            list / 1000.0, 100.0 * (time / list).min(1.0),
        );
    }

    println!();
    println!("How a lookup's cost grows, ns for one, the check apart");
    for (what, rows) in growth(&mut numbers) {
        println!("{what:<28} | {}", rows.iter().map(|(at, time)| format!("{}: {time:.1}", grouped(*at))).collect::<Vec<_>>().join(" | "));
    }
    println!();
    println!("What a list costs by its length, us for the call through the exported entry, a trie of 2,000, random");
    let shape = &shapes[2];
    let mut region = ported(shape.sizes, &shape.members, &shape.members).into_region();
    let by: Vec<String> = [0usize, 1, 16, 256, 4096]
        .iter()
        .map(|&n| {
            let words: Vec<u64> = shape.members.iter().cycle().take(n).copied().collect();
            let (codes, mut answers) = (vec![0; n], vec![0; n]);
            let time = least(|| clocked(|| assert!(brothowl::run(&mut region, &codes, &words, &mut answers).is_ok())).0);
            format!("{}: {:.1}", grouped(n), time / 1000.0)
        })
        .collect();
    println!("{:<28} | {}", "commands", by.join(" | "));

    if let Some(path) = std::env::args().nth(1) {
        std::fs::write(&path, table.picture()).expect("the picture can be written");
    }
}

/// The same members, inserted in ascending order.
fn ascending(shape: &Shape) -> Set {
    let mut words = shape.members.clone();
    words.sort_unstable();
    ported(shape.sizes, &words, &words)
}

/// The words of a well-formed region that document 01 says are looked at: runs of them, as they lie.
fn looked_at(l: &[u64]) -> Vec<std::ops::Range<usize>> {
    let [c, n, k, used] = [3, 4, 5, 6].map(|place| l[place] as usize);
    let last = l[2].div_ceil(8);
    let area = |which: usize| l[8 + which] as usize;
    let mut runs: Vec<std::ops::Range<usize>> = Vec::new();
    let mut look = |start: usize, words: usize| match runs.last_mut() {
        Some(run) if run.end == start => run.end += words,
        _ => runs.push(start..start + words),
    };
    look(0, 16);
    look(area(0), area(1) - area(0));
    look(area(1), k);
    look(area(2), c - k);
    // kind and link of a free slot; kind, prefix and length of a vector; all four of a trie
    for at in (0..c).map(|slot| area(3) + 4 * slot) {
        match l[at] {
            0 => {
                look(at, 1);
                look(at + 3, 1);
            }
            kind => look(at, 2 + kind as usize),
        }
    }
    for slot in (0..c).filter(|slot| l[area(3) + 4 * slot] == 1) {
        look(area(4) + 1024 * slot, l[area(3) + 4 * slot + 2] as usize);
    }
    look(area(5), n - used);
    for at in (0..n).map(|node| area(6) + 264 * node) {
        match l[at + 4] {
            0 => look(at + 4, 2),
            level => {
                look(at, 7);
                let children = |x: &usize| level < last && l[at + x / 64] >> (x % 64) & 1 == 1;
                (0..256).filter(children).for_each(|x| look(at + 8 + x, 1));
            }
        }
    }
    runs.retain(|run| !run.is_empty());
    runs
}

/// A memcpy of so many words in a row.
fn copy(words: usize) -> f64 {
    let from = vec![1u64; words];
    let mut to = vec![0u64; words];
    least(|| clocked(|| black_box(&mut to).copy_from_slice(black_box(&from))).0)
}

/// A copy of words from where they lie.
fn gather(l: &[u64], runs: &[std::ops::Range<usize>], words: usize) -> f64 {
    let mut to = vec![0u64; words];
    let gathered = |to: &mut [u64], l: &[u64]| {
        let mut at = 0;
        for run in runs {
            to[at..at + run.len()].copy_from_slice(&l[run.clone()]);
            at += run.len();
        }
    };
    least(|| clocked(|| gathered(black_box(&mut to), black_box(l))).0)
}

/// A lookup of members, by how many there are under one prefix, by how many prefixes there are, and by P.
fn growth(numbers: &mut Numbers) -> Vec<(&'static str, Vec<(usize, f64)>)> {
    let time = |sizes: (u64, u64), words: Vec<u64>| {
        let mut region = ported(sizes, &words, &words).into_region();
        let idle = least(|| clocked(|| port::set_run(black_box(&mut region), &[], &[], &mut [])).0);
        let asked = repeated(&words);
        let (codes, mut answers) = (vec![0; asked.len()], vec![0; asked.len()]);
        least(|| (clocked(|| port::set_run(black_box(&mut region), &codes, &asked, &mut answers)).0 - idle).max(0.0)) / asked.len() as f64
    };
    let members = [10usize, 100, 1024, 1025, 10000, 100000]
        .map(|n| (n, time((12, 28), random(numbers, n, |numbers| numbers.below(1 << 28)))))
        .to_vec();
    let prefixes = [1usize, 10, 100, 1000, 10000, 60000]
        .map(|n| (n, time((24, 40), random(numbers, n, |numbers| numbers.next()))))
        .to_vec();
    let bits = [10usize, 12, 16, 20, 24]
        .map(|p| (p, time((p as u64, 28), (0..512).map(|i| (i << 28) + 5).collect())))
        .to_vec();
    vec![("members of one prefix", members), ("prefixes, one word each", prefixes), ("P, at 512 prefixes", bits)]
}
