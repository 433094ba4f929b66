//! Holds every stand-in against a plain model. A fault in one ends the build.

use driver::{combined, corrected, fresh, plain, published, Build, Numbers, COMBINATIONS};
use std::collections::BTreeSet;

fn main() {
    let mut numbers = Numbers(5);
    rank_bv(&mut numbers);
    tiered_vec(&mut numbers);
    bitmaps(&mut numbers);
    iter_set_ops(&mut numbers);
    combinations(&mut numbers);
    word_sets(&mut numbers);
    println!("the stand-ins agree with plain models");
}

/// RankBV against a row of bools.
fn rank_bv(numbers: &mut Numbers) {
    for size in [1usize, 2, 64, 128, 4096] {
        let bits = published::ffi::RankBV::new(size);
        let mut model = vec![false; size];
        assert_eq!(bits.size(), size);
        for _ in 0..3 * size.min(400) {
            let index = numbers.below(size as u64) as usize;
            let set = numbers.below(3) > 0;
            let old = std::mem::replace(&mut model[index], set);
            let answer = if set { bits.set(index) } else { bits.clear(index) };
            assert_eq!(answer, old, "set and clear answer the old bit");
            let asked = numbers.below(size as u64) as usize;
            assert_eq!(bits.get(asked), model[asked]);
            let below = model[..asked].iter().filter(|&&bit| bit).count();
            assert_eq!(bits.rank(asked), below, "rank counts strictly below");
            assert_eq!(bits.count_ones(), model.iter().filter(|&&bit| bit).count());
        }
        for block in 0..bits.num_blocks() {
            let model = model.iter().skip(block * 64).take(64).enumerate();
            let expected = model.fold(0, |sum, (place, &bit)| sum | (bit as u64) << place);
            assert_eq!(bits.get_block(block), expected);
        }
    }
}

/// TieredVec32 against a Vec, across several chunks.
fn tiered_vec(numbers: &mut Numbers) {
    let tiered = published::ffi::TieredVec32::new();
    let mut model: Vec<u32> = Vec::new();
    for step in 0..6000u32 {
        let grow = if step < 3000 { 3 } else { 1 };
        if model.is_empty() || numbers.below(4) < grow {
            let index = numbers.below(model.len() as u64 + 1) as usize;
            tiered.insert(index, step);
            model.insert(index, step);
        } else {
            let index = numbers.below(model.len() as u64) as usize;
            tiered.remove(index);
            model.remove(index);
        }
        assert_eq!(tiered.len(), model.len());
        if !model.is_empty() {
            let index = numbers.below(model.len() as u64) as usize;
            assert_eq!(tiered.get(index), model[index]);
        }
        if step % 500 == 0 {
            let all: Vec<u32> = (0..tiered.len()).map(|index| tiered.get(index)).collect();
            assert_eq!(all, model);
        }
    }
}

/// The operators of bitvector/set_ops against plain sets.
fn bitmaps(numbers: &mut Numbers) {
    for bitlength in [1usize, 6, 9] {
        for code in 0..4 {
            let mut bits = || -> Vec<u64> { (0..40).map(|_| numbers.below(1 << bitlength)).collect() };
            let make = |bits: &[u64]| {
                let mut map = published::bitvector::Bitvector::new_with_bitlength(bitlength);
                for &bit in bits {
                    map.insert(bit as usize);
                }
                map
            };
            let (a, b) = (bits(), bits());
            let (mut left, right) = (make(&a), make(&b));
            match code {
                0 => left |= &right,
                1 => left &= &right,
                2 => left -= &right,
                _ => left ^= &right,
            }
            let found: Vec<u64> = left.iter().map(|bit| bit as u64).collect();
            assert_eq!(found, plain(code, &a, &b), "bitmaps, {}", COMBINATIONS[code]);
            assert_eq!(left.count(), found.len(), "bitmaps, {}", COMBINATIONS[code]);
        }
    }
}

/// The four functions of iter_set_ops against plain sets.
fn iter_set_ops(numbers: &mut Numbers) {
    for many in 1..5usize {
        for _ in 0..50 {
            let sets: Vec<BTreeSet<u64>> =
                (0..many).map(|_| (0..numbers.below(12)).map(|_| numbers.below(12)).collect()).collect();
            let iters = || -> Vec<_> { sets.iter().map(|set| set.iter().copied()).collect() };
            let all: BTreeSet<u64> = sets.iter().flatten().copied().collect();
            let common: Vec<u64> =
                all.iter().copied().filter(|x| sets.iter().all(|set| set.contains(x))).collect();

            let merged: Vec<u64> = iter_set_ops::merge_iters(&mut iters()).collect();
            assert_eq!(merged, all.iter().copied().collect::<Vec<_>>());
            let met: Vec<u64> = iter_set_ops::intersect_iters(&mut iters()).collect();
            assert_eq!(met, common);
            let mut heads = iters();
            for details in iter_set_ops::merge_iters_detailed_by(&mut heads, |a, b| a.cmp(b)) {
                let value = details[0].1;
                let places: Vec<usize> = (0..many).filter(|&i| sets[i].contains(&value)).collect();
                assert_eq!(details, places.iter().map(|&i| (i, value)).collect::<Vec<_>>());
            }
            let mut heads = iters();
            let met: Vec<Vec<u64>> =
                iter_set_ops::intersect_iters_detailed_by(&mut heads, |a, b| a.cmp(b)).collect();
            assert_eq!(met, common.iter().map(|&x| vec![x; many]).collect::<Vec<_>>());
        }
    }
}

/// The operators of both set_ops stand-ins, through the published wordset/set_ops.
fn combinations(numbers: &mut Numbers) {
    for (p, s, prefixes, suffixes, len) in
        [(2, 11, 4, 2048, 40), (4, 16, 3, 4000, 3000), (12, 28, 60, 50, 300), (12, 28, 1, 3000, 1500)]
    {
        for _ in 0..4 {
            let mut words = || -> Vec<u64> {
                (0..len).map(|_| (numbers.below(prefixes) << s) + numbers.below(suffixes)).collect()
            };
            let (a, mut b) = (words(), words());
            // One prefix is alike on both sides, so that a result can lose it.
            b.retain(|word| word >> s != 0);
            b.extend(a.iter().filter(|&word| word >> s == 0));
            for code in 0..4 {
                let found = combined(p, s, code, &a, &b);
                let expected = plain(code, &a, &b);
                assert_eq!(found.operator, expected, "{}", COMBINATIONS[code]);
                assert_eq!(found.assigned, expected, "{} assigned", COMBINATIONS[code]);
                assert!(found.merged.is_none_or(|merged| merged == expected), "merge or intersect");
            }
        }
    }
}

/// Whole word sets of the corrected copy against a plain set.
fn word_sets(numbers: &mut Numbers) {
    for (p, s) in [(1, 1), (3, 9), (4, 16), (12, 28), (24, 40)] {
        let mut set = fresh(Build::Corrected, p, s);
        let mut model = BTreeSet::new();
        for _ in 0..6000 {
            let word = (numbers.below(1 << p.min(2)) << s) + numbers.below(1 << s.min(11));
            match numbers.below(5) {
                0 | 1 | 2 => assert_eq!(set.insert(word), model.insert(word)),
                3 => assert_eq!(set.remove(word), model.remove(&word)),
                _ => assert_eq!(set.contains(word), model.contains(&word)),
            }
        }
        assert_eq!(driver::ascending(set.walk()), model.iter().copied().collect::<Vec<_>>());
        assert_eq!(set.count(), model.len());
    }
    // The correction is in: the trie of the corrected copy counts no absent removal.
    let mut trie = corrected::trie::Trie::<2>::new();
    trie.insert(&[0, 0]);
    assert!(!trie.remove(&[0, 1]), "the corrected copy is not corrected");
    // And the published one is the published one.
    let mut trie = published::trie::Trie::<2>::new();
    trie.insert(&[0, 0]);
    assert!(trie.remove(&[0, 1]), "the published copy is not as published");
}
