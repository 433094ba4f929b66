//! The set level: command lists, walks, batches and combinations, through the exported entries, on document 01's oracle
//! domain. Lists that remove no absent word are held against the Rust as published and as corrected, others and all that
//! is compared as sets against the corrected copy.
use super::Tally;
use brothowl::{Numbers as Sizes, Operation, Set};
use driver::{ascending, fresh, Build, Numbers, COMBINATIONS};
use std::collections::BTreeSet;

const SIZES: [(usize, usize); 10] = [(1, 1), (1, 8), (2, 11), (3, 9), (4, 16), (6, 17), (7, 24), (12, 28), (16, 32), (24, 40)];

const OPERATIONS: [Operation; 4] = [Operation::Or, Operation::And, Operation::Minus, Operation::Xor];

/// Room for all that is asked of it here, so that no list is refused.
fn roomy(p: usize, s: usize, prefixes: u64) -> Set {
    let sizes = Sizes { p: p as u64, s: s as u64, containers: prefixes.min(1 << p), nodes: 12000 };
    Set::new(sizes).expect("good numbers")
}

/// Some prefixes, and words under them that are close together, far apart, or both.
struct Words {
    prefixes: Vec<u64>,
    s: usize,
    dense: u64,
}

impl Words {
    fn new(numbers: &mut Numbers, p: usize, s: usize, many: u64) -> Words {
        let prefixes: BTreeSet<u64> = (0..many).map(|_| numbers.below(1 << p)).collect();
        let dense = [1300, 1 << 20][numbers.below(2) as usize].min(1 << s);
        Words { prefixes: prefixes.into_iter().collect(), s, dense }
    }

    fn next(&self, numbers: &mut Numbers) -> u64 {
        let prefix = self.prefixes[numbers.below(self.prefixes.len() as u64) as usize];
        (prefix << self.s) + numbers.below(self.dense)
    }
}

pub fn lists(tally: &mut Tally, numbers: &mut Numbers) {
    for (p, s) in SIZES {
        for round in 0..6 {
            let absent = round % 2 == 1;
            let many = [1, 3, 40][round / 2];
            let words = Words::new(numbers, p, s, many);
            let mut region = roomy(p, s, words.prefixes.len() as u64).into_region();
            let builds = if absent { &[Build::Corrected][..] } else { &[Build::Published, Build::Corrected][..] };
            let mut rusts: Vec<_> = builds.iter().map(|build| (*build, fresh(*build, p, s))).collect();
            let mut model = BTreeSet::new();
            for list in 0..12 {
                let n = [4096, 700, 1, 0, 2500][numbers.below(5) as usize];
                // the first lists grow the set, the last ones empty it
                let (mut codes, mut given) = (Vec::new(), Vec::new());
                for _ in 0..n {
                    let word = words.next(numbers);
                    let choice = numbers.below(8);
                    let mut code = if choice == 0 { 0 } else if (choice < 6) == (list < 6) { 1 } else { 2 };
                    if code == 2 && !absent && !model.contains(&word) {
                        code = 0;
                    }
                    match code {
                        1 => {
                            model.insert(word);
                        }
                        2 => {
                            model.remove(&word);
                        }
                        _ => (),
                    }
                    codes.push(code as u8);
                    given.push(word);
                }
                let what = || format!("P = {p}, S = {s}, round {round}, list {list} of {n} commands");
                let mut answers = vec![7u8; n + 1];
                let told = brothowl::run(&mut region, &codes, &given, &mut answers);
                tally.same(what, told, Ok(()));
                tally.same(|| format!("{}, the byte past the list", what()), answers.pop(), Some(7));
                let port = Set::over(&region[..]).expect("well formed");
                for (build, rust) in &mut rusts {
                    for (place, (&code, &word)) in codes.iter().zip(&given).enumerate() {
                        let answer = match code {
                            0 => rust.contains(word),
                            1 => rust.insert(word),
                            _ => rust.remove(word),
                        };
                        tally.same(|| format!("{}, place {place}, {build:?}", what()), answers[place], answer as u8);
                    }
                    compare(tally, || format!("{}, {build:?}", what()), &port, &**rust);
                }
            }
        }
    }
}

/// Count, walk in order, containers with slot, kind, length and nodes.
fn compare(tally: &mut Tally, what: impl Fn() -> String, port: &Set<&[u64]>, rust: &dyn driver::Set) {
    let walk: Vec<u64> = port.iter().collect();
    tally.made += walk.len();
    tally.same(|| format!("{}, the walk", what()), &walk, &rust.walk());
    tally.same(|| format!("{}, the count", what()), port.len(), rust.count() as u64);
    let region = port.region();
    let containers = rust.containers();
    tally.same(|| format!("{}, containers in use", what()), port.containers_in_use(), containers.len() as u64);
    for (rank, c) in containers.iter().enumerate() {
        let slot = region[region[9] as usize + rank];
        let record = &region[region[11] as usize + 4 * slot as usize..][..4];
        let seen = (slot, record[1], record[0] == 2, record[2]);
        tally.same(|| format!("{}, container {rank}", what()), seen, (c.slot as u64, c.prefix as u64, c.trie, c.stored as u64));
    }
    let nodes: usize = containers.iter().map(|c| c.nodes).sum();
    tally.same(|| format!("{}, nodes in use", what()), port.nodes_in_use(), nodes as u64);
    // from a place in the middle, singly and past the end
    let n = walk.len();
    for start in [0, n / 3, n.saturating_sub(2), n] {
        let mut out = [7u64; 3];
        let written = port.walk(start as u64, &mut out).expect("a start within the walk");
        let mut expected = [7u64; 3];
        let rest = &walk[start..n.min(start + 3)];
        expected[..rest.len()].copy_from_slice(rest);
        tally.same(|| format!("{}, the walk from {start}", what()), (written, out), (rest.len(), expected));
    }
}

/// The Rust's batch functions, as sets, with the corrected copy.
pub fn batches(tally: &mut Tally, numbers: &mut Numbers) {
    for (p, s) in SIZES {
        for round in 0..4 {
            let words = Words::new(numbers, p, s, [1, 20][round % 2]);
            let mut port = roomy(p, s, words.prefixes.len() as u64);
            let mut rust = fresh(Build::Corrected, p, s);
            for step in 0..6 {
                let some: Vec<u64> = (0..numbers.below(3000)).map(|_| words.next(numbers)).collect();
                let what = || format!("P = {p}, S = {s}, round {round}, step {step}, {} words", some.len());
                if step % 3 == 2 {
                    // the Rust's batch counts on a batch without repeats
                    let once: BTreeSet<u64> = some.iter().copied().collect();
                    let gone: Vec<u64> = once.into_iter().collect();
                    port.remove_all(gone.iter().copied()).expect("never refused");
                    rust.remove_batch(&gone);
                } else {
                    port.insert_all(some.iter().copied()).expect("room");
                    rust.insert_batch(&some);
                }
                tally.made += port.len() as usize;
                tally.same(what, ascending(port.iter().collect()), ascending(rust.walk()));
                let mut asked: Vec<u64> = port.iter().take(1 + numbers.below(4000) as usize).collect();
                if numbers.below(2) == 0 {
                    asked.push(words.next(numbers));
                }
                asked.truncate(4096);
                tally.same(|| format!("{}, all members", what()), port.contains_all(&asked), Ok(rust.contains_all(&asked)));
            }
        }
    }
}

/// The four combinations, as sets, with the corrected copy's operators, assignments, merge and intersect.
pub fn combinations(tally: &mut Tally, numbers: &mut Numbers) {
    for (p, s) in SIZES {
        for round in 0..4 {
            let words = Words::new(numbers, p, s, [1, 3, 30, 200][round]);
            let mut draw = |most: u64| -> Vec<u64> { (0..numbers.below(most)).map(|_| words.next(numbers)).collect() };
            let (left, right) = (draw(6000), draw(3000));
            let make = |some: &[u64]| {
                let mut set = roomy(p, s, words.prefixes.len() as u64);
                set.insert_all(some.iter().copied()).expect("room");
                set
            };
            let (a, b) = (make(&left), make(&right));
            let mut destination = make(&right);
            for (code, operation) in OPERATIONS.into_iter().enumerate() {
                let what = || format!("P = {p}, S = {s}, round {round}, {} of {} and {} words", COMBINATIONS[code], a.len(), b.len());
                let rust = driver::combined(p, s, code, &left, &right);
                tally.same(what, destination.combine(operation, &a, &b), Ok(()));
                let result = ascending(destination.iter().collect());
                tally.made += result.len();
                tally.same(|| format!("{}, the operator", what()), &result, &rust.operator);
                tally.same(|| format!("{}, assigned", what()), &result, &rust.assigned);
                if let Some(merged) = rust.merged {
                    tally.same(|| format!("{}, merge or intersect", what()), &result, &merged);
                }
            }
            tally.same(|| format!("P = {p}, S = {s}, a xor a"), destination.combine(Operation::Xor, &a, &a), Ok(()));
            tally.same(|| format!("P = {p}, S = {s}, a xor a, the count"), destination.len(), 0);
        }
    }
}
