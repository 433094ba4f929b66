//! The entries use little stack: each of them, on its deepest ways, in a thread that has 64 KB of it.
use brothowl::{all_members, check, combine, make, run, walk, Numbers, Operation};

#[test]
fn every_entry_in_64_kilobytes() {
    // Exactly the nodes that 1,025 suffixes need, so that they are counted; a vector that is not ascending; tries to combine.
    let suffixes: Vec<u64> = (0..1025u64).map(|i| i.wrapping_mul(0x9E37_79B9_7F4A_7C15) >> 24).collect();
    let nodes = (0..5).map(|j| suffixes.iter().map(|s| s >> (40 - 8 * j)).collect::<std::collections::BTreeSet<_>>().len() as u64).sum();
    let numbers = Numbers { p: 2, s: 40, containers: 2, nodes };
    let words = numbers.words().unwrap();
    let (mut a, mut b, mut d) = (vec![0; words], vec![0; words], vec![0; words]);
    let (codes, mut answers, mut out) = (vec![1; 1025], vec![0; 2050], vec![0; 1100]);
    let gone = vec![2; 1025];
    let work = move || {
        for region in [&mut a, &mut b, &mut d] {
            make(region, numbers).unwrap();
        }
        run(&mut a, &codes, &suffixes, &mut answers).unwrap();
        run(&mut b, &codes[..1000], &suffixes[..1000], &mut answers).unwrap();
        check(&a).unwrap();
        check(&b).unwrap();
        for operation in [Operation::Or, Operation::And, Operation::Minus, Operation::Xor] {
            combine(operation, &a, &b, &mut d).unwrap();
            combine(operation, &b, &a, &mut d).unwrap();
        }
        assert_eq!(walk(&a, 0, &mut out), Ok(1025));
        assert_eq!(all_members(&a, &suffixes), Ok(true));
        run(&mut a, &gone, &suffixes, &mut answers).unwrap();
        assert_eq!(a[7], 0);
    };
    std::thread::Builder::new().stack_size(64 << 10).spawn(work).unwrap().join().unwrap();
}
