//! Hostile regions: every entry refuses exactly when the model says that a region is not well formed, and changes nothing.
mod common;
use brothowl::{all_members, check, combine, make, run, walk, Numbers, Operation, Refusal};
use common::{Model, Numbers64};

const BAD: Refusal = Refusal::Malformed { place: 0 };

/// A region with a trie, a vector of 1,024, a small vector, a freed slot and freed nodes.
fn sample(s: u64) -> Vec<u64> {
    let numbers = Numbers { p: 7, s, containers: 5, nodes: 60 };
    let mut l = vec![0; numbers.words().unwrap()];
    make(&mut l, numbers).unwrap();
    let mut words: Vec<u64> = (0..1100).map(|i| (5 << s) + i).collect();
    words.extend((0..1024).map(|i| (9 << s) + 1023 - i));
    words.extend([(70 << s) + 3, (70 << s) + 1, (100 << s), (127 << s) + 2]);
    let n = words.len();
    run(&mut l, &vec![1; n], &words, &mut vec![0; n]).unwrap();
    let gone: Vec<u64> = (1050..1100).map(|i| (5 << s) + i).chain([100 << s]).collect();
    run(&mut l, &vec![2; gone.len()], &gone, &mut vec![0; gone.len()]).unwrap();
    assert!(Model::read(&l).is_some());
    l
}

/// Every entry on a slice: refused with 1 exactly when the model cannot read it.
fn all_entries(l: &mut [u64]) -> bool {
    let good = Model::read(l).is_some();
    assert_eq!(check(l).is_ok(), good, "header {:?}", &l[..16.min(l.len())]);
    if good {
        return true;
    }
    let before = l.to_vec();
    let mut answers = [7u8; 2];
    assert_eq!(check(l), Err(BAD));
    // 1 comes before every other refusal
    assert_eq!(run(l, &[1, 9], &[0, u64::MAX], &mut answers), Err(BAD));
    assert_eq!(run(l, &[1], &[0, 1], &mut answers), Err(BAD));
    assert_eq!(answers, [7, 7]);
    assert_eq!(all_members(l, &[]), Err(BAD));
    assert_eq!(all_members(l, &[u64::MAX]), Err(BAD));
    let mut out = [7u64; 4];
    assert_eq!(walk(l, u64::MAX, &mut out), Err(BAD));
    assert_eq!(out, [7; 4]);
    assert!(l == before, "a refused entry changed a word");
    false
}

#[test]
fn one_word_edited() {
    let mut random = Numbers64(5);
    let (mut kept, mut refused) = (0, 0);
    for s in [12, 16] {
        let l = sample(s);
        let total = l[15] as usize;
        // header, bitmap, ranks, stack and records whole; entries and nodes by samples and at the places that matter
        let mut places: Vec<usize> = (0..l[12] as usize).collect();
        places.extend((0..600).map(|_| l[12] as usize + random.below(l[13] - l[12]) as usize));
        places.extend(l[13] as usize..l[14] as usize);
        for n in 0..l[4] as usize {
            places.extend((0..8).map(|i| l[14] as usize + 264 * n + i));
            places.extend((0..12).map(|_| l[14] as usize + 264 * n + 8 + random.below(256) as usize));
        }
        let mut m = l.clone();
        for at in places {
            assert!(at < total);
            let was = l[at];
            for new in [0, 1, 2, 3, was.wrapping_add(1), was.wrapping_sub(1), was ^ (1 << random.below(64)), u64::MAX, random.below(70), 1 << 63] {
                m[at] = new;
                if all_entries(&mut m) {
                    kept += 1;
                } else {
                    refused += 1;
                }
            }
            m[at] = was;
        }
    }
    assert!(kept > 1000 && refused > 1000, "kept {kept}, refused {refused}");
}

#[test]
fn two_words_edited() {
    let mut random = Numbers64(6);
    let l = sample(12);
    let mut m = l.clone();
    let likely: Vec<usize> = (0..l[12] as usize).chain(l[13] as usize..l[14] as usize).chain((0..60 * 8).map(|i| l[14] as usize + 264 * (i / 8) + i % 8)).collect();
    for _ in 0..6000 {
        let at = [0, 1].map(|_| likely[random.below(likely.len() as u64) as usize]);
        if random.below(2) == 0 {
            m.swap(at[0], at[1]);
        } else {
            for i in at {
                m[i] = [random.below(6), l[likely[random.below(likely.len() as u64) as usize]], m[i] ^ 1][random.below(3) as usize];
            }
        }
        all_entries(&mut m);
        for i in at {
            m[i] = l[i];
        }
    }
}

#[test]
fn truncated_and_empty() {
    let mut l = sample(12);
    let total = l.len();
    for n in (0..20).chain([total / 2, total - 1]) {
        assert!(!all_entries(&mut l[..n]), "{n}");
    }
    assert!(all_entries(&mut l));
    for word in [0, 1, u64::MAX] {
        for n in [0, 1, 15, 16, 17, 100] {
            assert!(!all_entries(&mut vec![word; n]));
        }
    }
}

#[test]
fn which_region_of_a_combination() {
    let good = sample(12);
    let mut bad = good.clone();
    bad[7] += 1;
    for code in [Operation::Or, Operation::And, Operation::Minus, Operation::Xor] {
        for mask in 1..8 {
            let pick = |i: u64| if mask >> i & 1 == 1 { bad.clone() } else { good.clone() };
            let (a, b, mut d) = (pick(0), pick(1), pick(2));
            let before = d.clone();
            let first = (0..3).find(|i| mask >> i & 1 == 1).unwrap();
            assert_eq!(combine(code, &a, &b, &mut d), Err(Refusal::Malformed { place: first }));
            assert!(d == before);
        }
    }
}
