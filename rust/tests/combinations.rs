//! Combinations against the model of document 01: members, stored order, slots, room exact and one short; and the set's own surface.
mod common;
use brothowl::{combine, make, run, Command, Numbers, Operation, Refusal, Set};
use common::{hold, Model, Numbers64};
use std::collections::BTreeSet;

const MARK: u64 = 0xDEAD_BEEF_0BAD_CAFE;
const ALL: [Operation; 4] = [Operation::Or, Operation::And, Operation::Minus, Operation::Xor];

fn region(numbers: Numbers) -> Vec<u64> {
    let mut l = vec![MARK; numbers.words().unwrap() + 2];
    make(&mut l, numbers).unwrap();
    l
}

fn filled(numbers: Numbers, words: &[u64]) -> (Vec<u64>, Model) {
    let mut l = region(numbers);
    let mut model = Model::new(numbers);
    for list in words.chunks(4096) {
        run(&mut l, &vec![1; list.len()], list, &mut vec![0; list.len()]).unwrap();
        for w in list {
            model.insert(*w).unwrap();
        }
    }
    hold(&l, &model, MARK);
    (l, model)
}

/// All four, into destinations with room, without, and with exactly enough.
fn all_four(a: &(Vec<u64>, Model), b: &(Vec<u64>, Model), random: &mut Numbers64) {
    let Numbers { p, s, .. } = a.1.numbers;
    for (code, operation) in ALL.into_iter().enumerate() {
        let wide = Model::combine(code as u64, &a.1, &b.1, Numbers { p, s, containers: 64, nodes: 40000 }).unwrap();
        let (k, n) = ((wide.containers.len() as u64).max(1), wide.nodes());
        let mut sizes = vec![(k + 2, n + 5), (k, n)];
        if k > 1 {
            sizes.push((k - 1, n));
        }
        if n > 0 {
            sizes.extend([(k, n - 1), (k, n - n.min(40)), (k, n / 2)]);
        }
        for (containers, nodes) in sizes {
            let numbers = Numbers { p, s, containers, nodes };
            // the destination had members of its own
            let mut d = region(numbers);
            let old: Vec<u64> = (0..5).map(|_| random.below(1 << (p + s))).collect();
            let _ = run(&mut d, &[1; 5], &old, &mut [0; 5]);
            let told = combine(operation, &a.0, &b.0, &mut d);
            match Model::combine(code as u64, &a.1, &b.1, numbers) {
                Some(model) => {
                    assert_eq!(told, Ok(()));
                    hold(&d, &model, MARK);
                }
                None => {
                    assert_eq!(told, Err(Refusal::NoRoom { place: 0 }));
                    assert!(d == region(numbers), "the fresh image, word for word");
                }
            }
        }
    }
}

#[test]
fn small_sets() {
    let mut random = Numbers64(7);
    for _ in 0..150 {
        let (p, s) = (1 + random.below(4), 1 + random.below(6));
        let words = |random: &mut Numbers64| -> Vec<u64> { (0..random.below(40)).map(|_| random.below(1 << (p + s))).collect() };
        let (x, y) = (words(&mut random), words(&mut random));
        let a = filled(Numbers { p, s, containers: 16, nodes: 0 }, &x);
        let b = filled(Numbers { p, s, containers: 17, nodes: 3 }, &y);
        all_four(&a, &b, &mut random);
        all_four(&a, &a, &mut random);
    }
}

#[test]
fn tries_and_vectors() {
    let mut random = Numbers64(8);
    for s in [12, 16, 20] {
        let words = |random: &mut Numbers64, from: u64| -> Vec<u64> {
            let mut v: Vec<u64> = (0..1500).map(|i| (1 << s) + (from + i) % 4000).collect();
            v.extend((0..800).map(|i| (2 << s) + (from + 3 * i) % 4000));
            v.extend((0..1024).map(|i| (3 << s) + (from + i) % 4000));
            v.extend((0..10).map(|_| random.below(4 << s)));
            v
        };
        let (x, y) = (words(&mut random, 0), words(&mut random, 700));
        let a = filled(Numbers { p: 2, s, containers: 4, nodes: 900 }, &x);
        let b = filled(Numbers { p: 2, s, containers: 4, nodes: 1200 }, &y);
        all_four(&a, &b, &mut random);
        all_four(&b, &b, &mut random);
    }
}

/// Tries whose suffixes differ from the one before in the last byte, in the last two, or in more: a trie takes many at a time.
/// Each has 2,600 words and 1,300 are in both, so all four results are tries.
#[test]
fn neighbours_in_tries() {
    let mut random = Numbers64(10);
    for s in [12, 17, 28, 40] {
        let mut suffixes = BTreeSet::new();
        while suffixes.len() < 3900 {
            let (at, step) = (random.below(1 << s), 1 << [0, 5, 8, 13][random.below(4) as usize]);
            suffixes.extend((0..30).map(|i| (at + i * step) % (1 << s)));
        }
        let mut words: Vec<u64> = suffixes.into_iter().take(3900).map(|suffix| (1 << s) + suffix).collect();
        (1..words.len()).for_each(|i| words.swap(i, random.below(i as u64 + 1) as usize));
        let numbers = Numbers { p: 2, s, containers: 2, nodes: 12000 };
        let (a, b) = (filled(numbers, &words[..2600]), filled(numbers, &words[1300..]));
        for code in 0..4 {
            assert!(Model::combine(code, &a.1, &b.1, numbers).unwrap().nodes() > 0, "a trie");
        }
        all_four(&a, &b, &mut random);
    }
}

/// Vectors of one prefix that pass 1,024 together, with so many words in both that the union is just below the threshold, at it, or a trie.
#[test]
fn vectors_about_the_threshold() {
    let (mut random, s) = (Numbers64(9), 20);
    let row = |from: u64, many: u64| -> Vec<u64> { (from..from + many).map(|i| (5 << s) + i * 37 % (1 << s)).collect() };
    for (left, right, common) in
        [(600, 600, 177), (600, 600, 176), (600, 600, 175), (1024, 1024, 1024), (1024, 1, 1), (1024, 1, 0), (1000, 24, 0), (1000, 25, 0), (1, 1023, 0), (1, 1024, 0)]
    {
        let numbers = Numbers { p: 3, s, containers: 2, nodes: 0 };
        let a = filled(numbers, &row(0, left));
        let b = filled(numbers, &row(left - common, right));
        all_four(&a, &b, &mut random);
        all_four(&b, &a, &mut random);
    }
}

#[test]
fn sets_that_differ_and_what_comes_first() {
    let of = |p, s| region(Numbers { p, s, containers: 2, nodes: 1 });
    let a = of(3, 4);
    for (b, d) in [(of(3, 5), of(3, 4)), (of(3, 4), of(2, 4)), (of(2, 4), of(2, 4)), (of(4, 3), of(3, 4))] {
        for operation in ALL {
            let mut dest = d.clone();
            assert_eq!(combine(operation, &a, &b, &mut dest), Err(Refusal::SetsDiffer));
            assert!(dest == d);
        }
    }
}

#[test]
fn the_surface() -> Result<(), Box<dyn std::error::Error>> {
    let numbers = Numbers::for_keys(4, 64);
    let mut a = Set::new(numbers)?;
    assert_eq!(a.insert_all(0..1030)?, 1030);
    assert_eq!(a.remove_all((0..2000).map(|i| (1 << 27) + i))?, 0); // never cached: nothing is removed
    assert_eq!((a.len(), a.containers_in_use(), a.nodes_in_use()), (1030, 1, 8));
    let mut memory = vec![0; numbers.words().unwrap()];
    make(&mut memory, numbers)?;
    let mut b = Set::over(&mut memory[..])?;
    b.run(&[Command::Insert(3), Command::Insert(5000), Command::Remove(3), Command::Insert(1)])?;
    assert_eq!((&a | &b)?.len(), 1031);
    assert_eq!((&a & &b)?.iter().collect::<Vec<_>>(), [1]);
    assert_eq!((&a - &b)?.len(), 1029);
    assert_eq!((&a ^ &b)?.len(), 1030);
    assert_eq!(a.iter().len(), 1030);
    assert!(a.iter().eq(0..1030));
    assert!((&a).into_iter().skip(1000).eq(1000..1030));
    assert!(a.contains_all(&[0, 1029])? && !a.contains(1030)?);
    // a list that stops keeps what came before
    let mut small = Set::new(Numbers::for_keys(1, 0))?;
    let stopped = small.run(&[Command::Insert(1), Command::Insert(1 << 28), Command::Insert(2)]).unwrap_err();
    assert_eq!((stopped.refusal, stopped.answers), (Refusal::NoRoom { place: 1 }, vec![true]));
    assert_eq!(small.iter().collect::<Vec<_>>(), [1]);
    assert_eq!(small.insert_all(0..2000).unwrap_err(), Refusal::NoRoom { place: 1024 });
    // two vectors whose union is a trie: the operators find the nodes
    let (mut x, mut y) = (Set::new(Numbers::for_keys(1, 0))?, Set::new(Numbers::for_keys(1, 0))?);
    x.insert_all((0..1024).map(|i| i << 17))?;
    y.insert_all((0..1024).map(|i| (i << 17) + 1))?;
    assert_eq!((&x | &y)?.len(), 2048);
    Ok(())
}
