//! Every difference of docs/DIFFERENCES.md that can be run, run. Numbers as there.
#![allow(incomplete_features)]
#![feature(generic_const_exprs)]

use brothowl::{Numbers, Operation, Refusal};
use driver::{corrected, fresh, grouped, published, Build, Set};
use port::Ported;
use std::panic::{catch_unwind, AssertUnwindSafe};

type Published = published::wordset::WordSet<12, 28>;
type Corrected = corrected::wordset::WordSet<12, 28>;

const BUILDS: [(&str, Which); 3] = [("published", Which::Rust(Build::Published)), ("corrected", Which::Rust(Build::Corrected)), ("the port", Which::Port)];

#[derive(Clone, Copy)]
enum Which {
    Rust(Build),
    Port,
}

fn new(which: Which) -> Box<dyn Set> {
    match which {
        Which::Rust(build) => fresh(build, 12, 28),
        Which::Port => Box::new(Ported::new()),
    }
}

/// A set of the port with some words.
fn ported(words: impl IntoIterator<Item = u64>) -> Ported {
    let mut set = Ported::new();
    set.0.insert_all(words).expect("room");
    set
}

/// Two sets of the port combined into a third.
fn combined(operation: Operation, a: &Ported, b: &Ported) -> Ported {
    let mut result = Ported::new();
    result.0.combine(operation, &a.0, &b.0).expect("room");
    result
}

fn title(text: &str, input: &str) {
    println!("{text}");
    println!("  input: {input}");
}

fn words(words: &[u64]) -> String {
    let mut shown: Vec<String> = words.iter().take(4).map(|&word| grouped(word as usize)).collect();
    if words.len() > 4 {
        shown.push(format!("… ({} words)", grouped(words.len())));
    }
    if shown.is_empty() { "empty".into() } else { shown.join(" ") }
}

/// The kind and length of the only container, or what stands in its place.
fn kind(set: &dyn Set) -> String {
    match set.containers().as_slice() {
        [] => "no container in use".into(),
        [c] => format!("a {} of {}", if c.trie { "trie" } else { "vector" }, grouped(c.stored)),
        more => format!("{} containers", more.len()),
    }
}

/// A set with the suffixes 0 to end - 1 under prefix 0.
fn row(which: Which, end: u64) -> Box<dyn Set> {
    let mut set = new(which);
    for suffix in 0..end {
        set.insert(suffix);
    }
    set
}

fn main() {
    // A caught stop is part of the output; its text is not.
    std::panic::set_hook(Box::new(|_| ()));

    title("1. remove of an absent word answers 1", "insert 0 to 1,024; remove 1,025");
    for (name, build) in BUILDS {
        let mut set = row(build, 1025);
        let answer = set.remove(1025) as u8;
        println!(
            "  {name}: answer {answer}; members {}; {}",
            grouped(set.walk().len()),
            kind(set.as_ref())
        );
    }
    println!("  input, the trie alone, 2 bytes: insert 0; remove 1");
    let mut left = published::trie::Trie::<2>::new();
    let mut right = corrected::trie::Trie::<2>::new();
    left.insert(&[0, 0]);
    right.insert(&[0, 0]);
    println!("  published: answer {}", left.remove(&[0, 1]) as u8);
    println!("  corrected: answer {}", right.remove(&[0, 1]) as u8);
    println!("  input, the trie alone, 1 byte, empty: remove 0");
    println!("  published: answer {}", published::trie::Trie::<1>::new().remove(&[0]) as u8);
    println!("  corrected: answer {}", corrected::trie::Trie::<1>::new().remove(&[0]) as u8);
    println!();

    title("2. the count falls with absent removals, and comes back", "insert 0, 2, … 3,998; remove 1, 3, … 3,999 one by one");
    for (name, build) in BUILDS {
        let mut set = new(build);
        for frame in 0..2000 {
            set.insert(2 * frame);
        }
        let (mut ones, mut least) = (0, usize::MAX);
        for frame in 0..2000 {
            ones += set.remove(2 * frame + 1) as usize;
            least = least.min(set.count());
        }
        println!(
            "  {name}: answers of 1: {}; least count on the way {}; at the end {}",
            grouped(ones),
            grouped(least),
            kind(set.as_ref())
        );
    }
    println!();

    title("3. remove_batch frees a container that still holds its words", "insert 0 to 1,024; remove_batch of 1,025, named 1,025 times; then insert 0 under prefix 1");
    for (name, build) in BUILDS {
        let mut set = row(build, 1025);
        set.remove_batch(&[1025; 1025]);
        let held: usize = set.freed().iter().map(|freed| freed.2).sum();
        println!(
            "  {name}: is_empty {}; count {}; walk {}; words in freed slots {}",
            set.is_empty(),
            grouped(set.count()),
            words(&set.walk()),
            grouped(held)
        );
        let answer = set.insert(1 << 28) as u8;
        let under: Vec<u64> = set.walk().into_iter().filter(|word| word >> 28 == 1).collect();
        println!("  {name}: insert answers {answer}; words under prefix 1: {}", grouped(under.len()));
    }
    println!("  input: insert 0 to 1,024; remove_batch of 1,025, named 1,024 times");
    for (name, build) in BUILDS {
        let mut set = row(build, 1025);
        set.remove_batch(&[1025; 1024]);
        println!("  {name}: count {}; {}", grouped(set.count()), kind(set.as_ref()));
    }
    println!("  input: insert 0 to 1,023; remove_batch of 1,024, named 1,024 times");
    for (name, build) in BUILDS {
        let mut set = row(build, 1024);
        set.remove_batch(&[1024; 1024]);
        println!("  {name}: count {}; {}", grouped(set.count()), kind(set.as_ref()));
    }
    println!("  input: insert 0 to 1,024; remove_batch of 1,025, named 1,026 times (release build)");
    for (name, build) in BUILDS {
        let mut set = row(build, 1025);
        set.remove_batch(&[1025; 1026]);
        println!("  {name}: count {}; members {}", grouped(set.count()), grouped(set.walk().len()));
    }
    println!();

    title("4. remove_batch leaves another stored order than single removes", "insert 0 to 1,024; remove 1,024 and 0");
    for (name, build) in BUILDS {
        let mut singly = row(build, 1025);
        singly.remove(1024);
        singly.remove(0);
        let mut batch = row(build, 1025);
        batch.remove_batch(&[1024u64, 0]);
        println!("  {name}: singly {}; batch {}", words(&singly.walk()), words(&batch.walk()));
    }
    println!();

    title("5. a combined container keeps no kind", "a: insert 0 to 599; b: insert 600 to 1,199; merge a and b");
    let (mut a, mut b) = (Published::new(), Published::new());
    for suffix in 0..600u64 {
        a.insert(suffix);
        b.insert(600 + suffix);
    }
    println!("  published: {}", kind(&Published::merge(vec![&mut a, &mut b])));
    println!("  the port: {}", kind(&combined(Operation::Or, &ported(0..600), &ported(600..1200))));
    println!("  input, the smallest: a: insert 0 to 1,023; b: insert 1,024; merge a and b");
    let (mut a, mut b) = (Published::new(), Published::new());
    for suffix in 0..1024u64 {
        a.insert(suffix);
    }
    b.insert(1024u64);
    println!("  published: {}", kind(&Published::merge(vec![&mut a, &mut b])));
    println!("  the port: {}", kind(&combined(Operation::Or, &ported(0..1024), &ported([1024]))));
    println!("  input: a and b: insert 0 to 1,024 each; intersect a and b");
    let (mut a, mut b) = (Published::new(), Published::new());
    for suffix in 0..1025u64 {
        a.insert(suffix);
        b.insert(suffix);
    }
    println!("  published: {}", kind(&Published::intersect(vec![&mut a, &mut b])));
    println!("  the port: {}", kind(&combined(Operation::And, &ported(0..1025), &ported(0..1025))));
    println!();

    title("6. merge and intersect sort their operands", "a: insert 2, 1; b: insert 1; walk a before and after");
    for (name, merged) in [("merge", true), ("intersect", false)] {
        let (mut a, mut b) = (Published::new(), Published::new());
        a.insert(2u64);
        a.insert(1u64);
        b.insert(1u64);
        let before = a.walk();
        if merged {
            Published::merge(vec![&mut a, &mut b]);
        } else {
            Published::intersect(vec![&mut a, &mut b]);
        }
        println!("  published, {name}: before {}; after {}", words(&before), words(&a.walk()));
    }
    let (a, b) = (ported([2, 1]), ported([1]));
    let before = a.0.region().to_vec();
    for (name, operation) in [("or", Operation::Or), ("and", Operation::And)] {
        combined(operation, &a, &b);
        println!("  the port, {name}: before {}; after {}; the region is as before: {}", words(&[2, 1]), words(&a.walk()), a.0.region() == before);
    }
    println!();

    title("7. |= and ^= take new slots while freed ones wait", "a: insert 0 under prefix 1, remove it; b: insert 0 under prefix 2; combine b into a");
    for name in ["|=", "^="] {
        let (mut a, mut b) = (Published::new(), Published::new());
        a.insert(1u64 << 28);
        a.remove(1u64 << 28);
        b.insert(2u64 << 28);
        if name == "|=" {
            a |= &mut b;
        } else {
            a ^= &mut b;
        }
        let slot = a.containers()[0].slot;
        println!("  published, {name}: slot {slot}; slots made {}; freed and waiting {}", a.slots(), a.freed().len());
    }
    let mut a = Published::new();
    a.insert(1u64 << 28);
    a.remove(1u64 << 28);
    a.insert(2u64 << 28);
    println!("  published, insert instead: slot {}; slots made {}; freed and waiting {}", a.containers()[0].slot, a.slots(), a.freed().len());
    let mut a = ported([1 << 28]);
    a.remove(1 << 28);
    for (name, operation) in [("or", Operation::Or), ("xor", Operation::Xor)] {
        println!("  the port, {name}: slot {}", combined(operation, &a, &ported([2 << 28])).containers()[0].slot);
    }
    println!();

    title("8. a word at or above 2^(P+S) is not checked", "the word 2^40 at P=12, S=28");
    let (prefix, suffix) = Published::split_prefix_suffix(1u64 << 40);
    println!("  published: prefix {}; suffix {}; prefixes there are: 0 to {}", grouped(prefix), suffix.get::<u64>(), grouped(4095));
    let asked = catch_unwind(AssertUnwindSafe(|| Published::new().contains(1u64 << 40)));
    println!("  published: the bitmap is asked for bit {}; our stand-in for it stops: {}", grouped(prefix), asked.is_err());
    let told = |told: Result<bool, Refusal>| told.map_or_else(|refusal| format!("refused with {}", refusal.number()), |answer| format!("answers {}", answer as u8));
    let mut set = Ported::new();
    println!("  the port: lookup {}; insert {}", told(set.0.contains(1 << 40)), told(set.0.insert(1 << 40)));
    println!();

    title("9. a suffix made from a narrower integer", "not run: it would read past the integer");
    println!("  bytes of a suffix at S=28: {}", std::mem::size_of_val(&suffix));
    println!("  bytes of u8, u16, u32, u64: {} {} {} {}", size_of::<u8>(), size_of::<u16>(), size_of::<u32>(), size_of::<u64>());
    println!();

    title("10. sizes that document 01 refuses", "a new set of each size, one insert of 1 and one lookup of it");
    macro_rules! size {
        ($p:literal, $s:literal) => {
            let made = catch_unwind(|| {
                let mut set = published::wordset::WordSet::<$p, $s>::new();
                (set.insert(1u64), set.contains(1u64))
            });
            match made {
                Ok((inserted, found)) => {
                    println!("  published, P={} S={}: made; insert {}, lookup {}", $p, $s, inserted as u8, found as u8)
                }
                Err(_) => println!("  published, P={} S={}: stops", $p, $s),
            }
        };
    }
    size!(0, 8);
    size!(25, 8);
    size!(12, 41);
    size!(33, 8);
    for (p, s) in [(0, 8), (25, 8), (12, 41), (33, 8)] {
        let made = brothowl::Set::new(Numbers { p, s, containers: 1, nodes: 0 });
        println!("  the port, P={p} S={s}: {}", made.map_or_else(|refusal| format!("refused with {}", refusal.number()), |_| "made".into()));
    }
    println!();

    title("11. operands are taken as mutable", "asked of the compiler: these lines are in the program");
    let (mut a, mut b) = (Corrected::new(), Corrected::new());
    a.insert(1u64);
    let both: fn(&mut Corrected, &mut Corrected) -> Corrected = |a, b| a ^ b;
    let asked: fn(&mut Corrected, &[u64]) -> bool = Corrected::contains_all::<u64>;
    println!("  a combination takes (&mut, &mut); members of the result: {}", both(&mut a, &mut b).walk().len());
    println!("  contains_all takes &mut; an empty list: {}", asked(&mut a, &[]) as u8);
    let a = ported([1]);
    println!("  the port: a xor a, one region lent twice: members of the result: {}; an empty list: {}", combined(Operation::Xor, &a, &a).walk().len(), a.0.contains_all(&[]).expect("no words") as u8);
    println!();

    title("12. slots and stored order of a combination", "a: insert 0 under prefix 2; b: insert 0 under prefix 1; a | b");
    let (mut a, mut b) = (Published::new(), Published::new());
    a.insert(2u64 << 28);
    b.insert(1u64 << 28);
    for c in (&mut a | &mut b).containers() {
        println!("  published: prefix {} has slot {}", c.prefix, c.slot);
    }
    for c in combined(Operation::Or, &ported([2 << 28]), &ported([1 << 28])).containers() {
        println!("  the port: prefix {} has slot {}", c.prefix, c.slot);
    }
    println!("  input: a: insert 2; b: insert 1; merge a and b");
    let (mut a, mut b) = (Published::new(), Published::new());
    a.insert(2u64);
    b.insert(1u64);
    println!("  published: walk {}", words(&Published::merge(vec![&mut a, &mut b]).walk()));
    println!("  the port, or: walk {}", words(&combined(Operation::Or, &ported([2]), &ported([1])).walk()));
}
