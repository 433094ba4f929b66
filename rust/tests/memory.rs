//! Memory that a set owns: the region that make writes, with its nodes at cache lines wherever the allocator puts it, and a copy's too.
use brothowl::{make, Memory, Numbers, Set};

/// The bytes by which the nodes miss the beginning of a line; word 14 of a region says where they begin.
fn off_line(region: &[u64]) -> usize {
    (region.as_ptr() as usize + 8 * region[14] as usize) % 64
}

#[test]
fn nodes_begin_at_lines() {
    for containers in 1..=3 {
        for nodes in 0..=40 {
            let numbers = Numbers { p: 3 + containers, s: 20, containers, nodes };
            let mut set = Set::new(numbers).unwrap();
            let mut plain = vec![0; numbers.words().unwrap()];
            make(&mut plain, numbers).unwrap();
            assert_eq!(set.region(), plain);
            assert_eq!(off_line(set.region()), 0, "{numbers:?}");

            assert!(set.insert(5).unwrap());
            let copy = set.clone();
            assert_eq!(copy.region(), set.region());
            assert_eq!(off_line(copy.region()), 0, "the copy of {numbers:?}");

            let mut memory: Memory = set.into_region();
            memory[7] = 0; // a count that is not true
            assert!(Set::over(memory.clone()).is_err());
            memory[7] = 1;
            let words = Vec::from(memory.clone());
            assert_eq!(words[..], memory[..]);
            assert_eq!(format!("{memory:?}"), format!("{words:?}"));
            let copy = Set::copy_of(&words).unwrap().into_region();
            assert_eq!((off_line(&copy), &copy), (0, &memory));
            assert!(Set::over(memory).unwrap().contains(5).unwrap());
            assert!(Set::over(words).unwrap().contains(5).unwrap());
        }
    }
}
