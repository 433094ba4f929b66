//! Command lists against the model of document 01: answers, refusals and their places, and what the region reads as.
mod common;
use brothowl::{all_members, make, run, walk, Numbers, Refusal};
use common::{hold, Model, Numbers64};

const MARK: u64 = 0xDEAD_BEEF_0BAD_CAFE;

fn region(numbers: Numbers) -> Vec<u64> {
    let mut l = vec![MARK; numbers.words().unwrap() + 3];
    make(&mut l, numbers).unwrap();
    l
}

/// Runs one list on both and compares all that is written and not written.
fn both(l: &mut [u64], model: &mut Model, codes: &[u8], words: &[u64], room: usize) -> Result<(), Refusal> {
    let mut answers = vec![9u8; room];
    let mut expected = answers.clone();
    let before = l.to_vec();
    let told = run(l, codes, words, &mut answers);
    assert_eq!(told, model.run(codes, words, &mut expected), "{codes:?} {words:?}");
    assert_eq!(answers, expected);
    if told.is_err() && !matches!(told, Err(Refusal::NoRoom { .. })) {
        assert!(l == before, "a refusal changed a word");
    }
    told
}

/// The walk from some places, and all members of some lists.
fn ask(l: &[u64], model: &Model, random: &mut Numbers64) {
    let words = model.walk();
    let n = words.len() as u64;
    for start in [0, n / 2, n.saturating_sub(1), n, n + 1, u64::MAX, random.below(n + 1)] {
        for room in [0, 1, 3, words.len() + 2] {
            let mut out = vec![MARK; room];
            let told = walk(l, start, &mut out);
            if start > n {
                assert_eq!(told, Err(Refusal::StartTooFar));
                assert!(out.iter().all(|w| *w == MARK));
                continue;
            }
            let want = &words[start as usize..][..room.min((n - start) as usize)];
            assert_eq!(told, Ok(want.len()));
            assert_eq!(&out[..want.len()], want);
            assert!(out[want.len()..].iter().all(|w| *w == MARK));
        }
    }
    let some: Vec<u64> = words.iter().take(4096).copied().collect();
    assert_eq!(all_members(l, &some), Ok(true));
    let other = random.next() >> (64 - model.numbers.p - model.numbers.s);
    let mut more = some;
    more.truncate(4095);
    more.push(other);
    assert_eq!(all_members(l, &more), Ok(model.contains(other)));
}

#[test]
fn small_sets_by_random_lists() {
    let mut random = Numbers64(1);
    for round in 0..400 {
        let numbers = Numbers { p: 1 + random.below(4), s: 1 + random.below(6), containers: 1 + random.below(6), nodes: random.below(3) };
        let mut l = region(numbers);
        let mut model = Model::new(numbers);
        for _ in 0..20 {
            let n = random.below(30) as usize;
            let top = 1u64 << (numbers.p + numbers.s);
            // now and then a word, a code or a length is wrong, or several are
            let words: Vec<u64> = (0..n).map(|_| if random.below(90) == 0 { top + random.below(3) } else { random.below(top) }).collect();
            let mut codes: Vec<u8> = (0..n).map(|_| if random.below(90) == 0 { 3 + random.below(253) as u8 } else { random.below(3) as u8 }).collect();
            if random.below(12) == 0 {
                codes.push(1);
            }
            let room = if random.below(12) == 0 { n.saturating_sub(1) } else { n + random.below(3) as usize };
            let _ = both(&mut l, &mut model, &codes, &words, room);
            hold(&l, &model, MARK);
        }
        if round % 10 == 0 {
            ask(&l, &model, &mut random);
        }
    }
}

#[test]
fn across_the_threshold_at_every_width() {
    let mut random = Numbers64(2);
    for s in 11..=40 {
        let numbers = Numbers { p: 2, s, containers: 3, nodes: 4000 };
        let mut l = region(numbers);
        let mut model = Model::new(numbers);
        let base = 2u64 << s;
        let mut words: Vec<u64> = Vec::new();
        while words.len() < 1030 {
            let w = base + random.below(1 << s);
            if !words.contains(&w) {
                words.push(w);
            }
        }
        both(&mut l, &mut model, &[1; 1024], &words[..1024], 1024).unwrap();
        hold(&l, &model, MARK);
        for w in &words[1024..] {
            both(&mut l, &mut model, &[1, 0, 1], &[*w, *w, *w], 3).unwrap();
            hold(&l, &model, MARK);
        }
        ask(&l, &model, &mut random);
        // down again, absent words among them: none of them counts
        for w in words.iter().rev().take(8) {
            both(&mut l, &mut model, &[2, 2, 0], &[*w, *w, *w], 3).unwrap();
            hold(&l, &model, MARK);
        }
        ask(&l, &model, &mut random);
        // to nothing: the slot is the next to be handed out
        both(&mut l, &mut model, &[2; 1030], &words, 1030).unwrap();
        hold(&l, &model, MARK);
        both(&mut l, &mut model, &[1], &[3 << s], 1).unwrap();
        hold(&l, &model, MARK);
    }
}

#[test]
fn room_exact_and_one_short() {
    let mut random = Numbers64(3);
    for s in [11, 16, 17, 28, 33, 40] {
        for _ in 0..3 {
            let mut words: Vec<u64> = Vec::new();
            // clustered, so that strings are shared
            let clusters: Vec<u64> = (0..20).map(|_| random.below(1 << s)).collect();
            while words.len() < 1100 {
                let w = (clusters[random.below(20) as usize] & !0x3ff) % (1 << s) + random.below(1024).min((1 << s) - 1);
                if w < 1 << s && !words.contains(&w) {
                    words.push(w);
                }
            }
            let needs = common::trie_nodes(s, words.iter().copied());
            for nodes in [needs, needs - 1, needs / 2, 0] {
                let numbers = Numbers { p: 1, s, containers: 1, nodes };
                let mut l = region(numbers);
                let mut model = Model::new(numbers);
                let told = both(&mut l, &mut model, &[1; 1100], &words, 1100);
                assert_eq!(told.is_ok(), nodes >= needs);
                hold(&l, &model, MARK);
                let all = words.iter().copied().collect();
                assert_eq!(common::fits(numbers, &all), nodes >= needs);
                // a member is never refused for room
                let first = words[0];
                both(&mut l, &mut model, &[1], &[first], 1).unwrap();
                hold(&l, &model, MARK);
            }
        }
    }
}

#[test]
fn many_tries_share_the_nodes() {
    let mut random = Numbers64(4);
    let numbers = Numbers { p: 3, s: 18, containers: 4, nodes: 700 };
    let mut l = region(numbers);
    let mut model = Model::new(numbers);
    for _ in 0..60 {
        let n = 300;
        let dense = random.below(2) == 0;
        let words: Vec<u64> = (0..n).map(|_| (random.below(5) << 18) + if dense { random.below(3000) } else { random.below(1 << 18) }).collect();
        let codes: Vec<u8> = (0..n).map(|_| [1, 1, 1, 0, 2][random.below(5) as usize]).collect();
        let _ = both(&mut l, &mut model, &codes, &words, n);
        hold(&l, &model, MARK);
        if random.below(4) == 0 {
            let gone: Vec<u64> = model.walk().into_iter().take(1500).collect();
            both(&mut l, &mut model, &vec![2; gone.len()], &gone, gone.len()).unwrap();
            hold(&l, &model, MARK);
        }
    }
    ask(&l, &model, &mut random);
}

/// Blocks of lookups are answered side by side, and slots are guessed: prefixes spread evenly, crowded, or far apart, vectors and
/// tries in one block, absent prefixes and absent suffixes, every length about a block's, and commands that change slots between.
#[test]
fn lookups_side_by_side() {
    let mut random = Numbers64(5);
    for (p, s, crowd) in [(10, 11, 1), (16, 20, 1), (16, 28, 200), (24, 40, 9000), (8, 40, 1)] {
        let numbers = Numbers { p, s, containers: 300, nodes: 6000 };
        let (mut l, mut model) = (region(numbers), Model::new(numbers));
        // crowd 1: prefixes anywhere; else most of them near one place
        let prefix = |random: &mut Numbers64| match random.below(crowd) {
            0 => random.below(1 << p),
            _ => (1 << (p - 1)) + random.below(1 << (p / 2)),
        };
        let held: Vec<u64> = (0..200).map(|_| prefix(&mut random) << s).collect();
        let mut known: Vec<u64> = held.iter().flat_map(|&at| [at, at + 1, at + random.below(1 << s)]).collect();
        // three tries among the vectors
        for &at in &held[..3] {
            known.extend((0..1100).map(|i| at + (i * 7) % (1 << s)));
        }
        for words in known.chunks(4096) {
            both(&mut l, &mut model, &vec![1; words.len()], words, words.len()).unwrap();
        }
        assert!(model.nodes() > 0, "no trie was made");
        for length in (0..20).chain(60..70).chain([127, 128, 129, 256, 4096]) {
            let words: Vec<u64> = (0..length)
                .map(|_| match random.below(4) {
                    0 => random.next() >> (64 - p - s),
                    1 => known[random.below(known.len() as u64) as usize] ^ random.below(2),
                    _ => known[random.below(known.len() as u64) as usize],
                })
                .collect();
            let before = l.clone();
            both(&mut l, &mut model, &vec![0; length], &words, length + 1).unwrap();
            assert!(l == before, "a lookup changed a word");
            // no prefix of them is set; then one is, at any place
            let clear = |w: &u64| !model.containers.contains_key(&(w >> s));
            let mut nowhere: Vec<u64> = (0..4 * length).map(|_| random.next() >> (64 - p - s)).filter(clear).take(length).collect();
            both(&mut l, &mut model, &vec![0; nowhere.len()], &nowhere, nowhere.len() + 1).unwrap();
            if !nowhere.is_empty() {
                let place = random.below(nowhere.len() as u64) as usize;
                nowhere[place] = known[random.below(known.len() as u64) as usize];
                both(&mut l, &mut model, &vec![0; nowhere.len()], &nowhere, nowhere.len()).unwrap();
            }
            // one command that is no lookup, anywhere
            if length > 0 {
                let mut codes = vec![0; length];
                codes[random.below(length as u64) as usize] = 1 + random.below(2) as u8;
                let _ = both(&mut l, &mut model, &codes, &words, length);
            }
            // inserts and removes of one container between lookups: its slot goes and comes back
            let at = prefix(&mut random) << s;
            let mixed: Vec<u64> = words.iter().map(|&w| if w % 3 == 0 { at } else { w }).collect();
            let codes: Vec<u8> = (0..length).map(|_| random.below(3) as u8).collect();
            let _ = both(&mut l, &mut model, &codes, &mixed, length);
            // all members, but for one at any place
            let members: Vec<u64> = model.walk().into_iter().take(length).collect();
            assert_eq!(all_members(&l, &members), Ok(true));
            if let Some(place) = members.len().checked_sub(1).map(|last| random.below(last as u64 + 1) as usize) {
                let mut one_off = members.clone();
                one_off[place] = (held[3]..).find(|w| !model.contains(*w)).unwrap();
                assert_eq!(all_members(&l, &one_off), Ok(false), "absent at place {place}");
            }
        }
        hold(&l, &model, MARK);
    }
}

/// Blocks of inserts none of whose prefixes is set are opened at once: every length about a block's, prefixes in any order, below,
/// between and above the old ones; a prefix twice in a block; slots freed before in no order; room for all of them and for one less.
#[test]
fn new_prefixes_by_blocks() {
    let mut random = Numbers64(11);
    for (p, s) in [(9, 3), (12, 28), (24, 40)] {
        for length in [1, 2, 3, 17, 63, 64, 65, 127, 128, 130, 200] {
            for short in [0, 1, 40] {
                let old = 60 + random.below(40);
                let numbers = Numbers { p, s, containers: old + length as u64 - short.min(length as u64), nodes: 0 };
                let (mut l, mut model) = (region(numbers), Model::new(numbers));
                let mut prefixes: Vec<u64> = Vec::new();
                while prefixes.len() < (old + length as u64) as usize {
                    let prefix = random.below(1 << p);
                    if !prefixes.contains(&prefix) {
                        prefixes.push(prefix);
                    }
                }
                let word = |prefix: u64, random: &mut Numbers64| (prefix << s) + random.below(1 << s);
                let held: Vec<u64> = prefixes[..old as usize].iter().map(|&prefix| word(prefix, &mut random)).collect();
                both(&mut l, &mut model, &vec![1; held.len()], &held, held.len()).unwrap();
                // some go, so that the free slots stand in no order
                both(&mut l, &mut model, &[2; 20], &held[..20], 20).unwrap();
                let back: Vec<u64> = (0..20).rev().map(|i| held[(i * 7) % 20]).collect();
                both(&mut l, &mut model, &[1; 13], &back[..13], 13).unwrap();
                both(&mut l, &mut model, &[1; 7], &back[13..], 7).unwrap();
                let new: Vec<u64> = prefixes[old as usize..].iter().map(|&prefix| word(prefix, &mut random)).collect();
                let mut twice = new.clone();
                twice.insert(random.below(length as u64) as usize, new[random.below(length as u64) as usize] ^ 1);
                // each on a copy: all new; one prefix twice; one code that is no insert
                for words in [&new, &twice] {
                    for other in [None, Some(0), Some(2)] {
                        let (mut l, mut model) = (l.clone(), model.clone());
                        let mut codes = vec![1; words.len()];
                        if let Some(code) = other {
                            codes[random.below(words.len() as u64) as usize] = code;
                        }
                        let told = both(&mut l, &mut model, &codes, words, words.len() + 1);
                        if other.is_none() {
                            assert_eq!(told.is_err(), short > 0);
                        }
                        hold(&l, &model, MARK);
                    }
                }
            }
        }
    }
}

#[test]
fn the_longest_list_and_one_more() {
    let numbers = Numbers { p: 1, s: 40, containers: 2, nodes: 0 };
    let mut l = region(numbers);
    let mut model = Model::new(numbers);
    both(&mut l, &mut model, &[0; 4096], &[0; 4096], 4096).unwrap();
    assert_eq!(both(&mut l, &mut model, &[0; 4097], &[0; 4097], 4097), Err(Refusal::BadLengths));
    assert_eq!(all_members(&l, &[0; 4097]), Err(Refusal::BadLengths));
    assert_eq!(all_members(&l, &[1 << 41]), Err(Refusal::WordTooLarge { place: 0 }));
    assert_eq!(all_members(&l, &[]), Ok(true));
    both(&mut l, &mut model, &[], &[], 0).unwrap();
}

#[test]
fn a_word_of_64_bits_is_a_word() {
    let numbers = Numbers { p: 24, s: 40, containers: 2, nodes: 0 };
    let mut l = region(numbers);
    let mut model = Model::new(numbers);
    both(&mut l, &mut model, &[1, 0, 2], &[u64::MAX; 3], 3).unwrap();
    assert_eq!(l[7], 0);
    assert_eq!(Model::read(&l), Some(model));
}
