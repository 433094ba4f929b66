//! Make against the fresh image of document 01, word for word, at the corners of every range; slices one short, exact and longer.
use brothowl::{make, Numbers, Refusal};

/// The fresh image, area by area, written from the document.
fn image(x: Numbers) -> Vec<u64> {
    let (c, n) = (x.containers, x.nodes);
    let bitmap = ((1u64 << x.p) / 64).max(1);
    let mut offset = 16;
    let mut offsets = vec![offset];
    for words in [bitmap, c, c, 4 * c, 1024 * c, n, 264 * n] {
        offset += words;
        offsets.push(offset);
    }
    let mut image = vec![1, x.p, x.s, c, n, 0, 0, 0];
    image.extend(&offsets);
    image.resize(offsets[2] as usize, 0);
    image.extend((0..c).rev());
    for slot in 0..c {
        image.extend([0, 0, 0, c - 1 - slot]);
    }
    image.resize(offsets[5] as usize, 0);
    image.extend((0..n).rev());
    for slot in 0..n {
        let mut node = [0u64; 264];
        node[5] = n - 1 - slot;
        image.extend(node);
    }
    assert_eq!(image.len() as u64, offsets[7]);
    image
}

const MARK: u64 = 0xDEAD_BEEF_0BAD_CAFE;

#[test]
fn word_for_word_at_the_corners() {
    for p in [1, 2, 5, 6, 7, 12, 24] {
        for s in [1, 8, 28, 40] {
            for containers in [1, 2, 3, 64] {
                for nodes in [0, 1, 2, 37] {
                    if p == 24 && (s != 28 || containers != 3) {
                        continue;
                    }
                    let x = Numbers { p, s, containers, nodes };
                    let want = image(x);
                    assert_eq!(x.words(), Some(want.len()));
                    let mut words = vec![MARK; want.len() + 3];
                    assert_eq!(make(&mut words[..want.len() - 1], x), Err(Refusal::TooShort));
                    assert!(words.iter().all(|w| *w == MARK), "a refusal changed a word: {x:?}");
                    assert_eq!(make(&mut words[..want.len()], x), Ok(()));
                    assert_eq!(words[..want.len()], want[..], "{x:?}");
                    words.fill(MARK);
                    assert_eq!(make(&mut words, x), Ok(()));
                    assert_eq!(words[..want.len()], want[..], "{x:?}");
                    assert!(words[want.len()..].iter().all(|w| *w == MARK));
                }
            }
        }
    }
}

#[test]
fn numbers_outside_their_range_come_before_a_short_slice() {
    let good = Numbers { p: 12, s: 28, containers: 4, nodes: 8 };
    let bad = [
        Numbers { p: 0, ..good },
        Numbers { p: 25, ..good },
        Numbers { p: 64, ..good },
        Numbers { p: u64::MAX, ..good },
        Numbers { s: 0, ..good },
        Numbers { s: 41, ..good },
        Numbers { s: u64::MAX, ..good },
        Numbers { containers: 0, ..good },
        Numbers { containers: 65_537, ..good },
        Numbers { containers: u64::MAX, ..good },
        Numbers { nodes: 1_048_577, ..good },
        Numbers { nodes: u64::MAX, ..good },
    ];
    for x in bad {
        assert_eq!(x.words(), None, "{x:?}");
        for len in [0, 1, 15, 16, 6320, 7000] {
            let mut words = vec![MARK; len];
            assert_eq!(make(&mut words, x), Err(Refusal::OutOfRange), "{x:?}");
            assert!(words.iter().all(|w| *w == MARK));
        }
    }
    for len in [0, 1, 15, 16, 6319] {
        let mut words = vec![MARK; len];
        assert_eq!(make(&mut words, good), Err(Refusal::TooShort));
        assert!(words.iter().all(|w| *w == MARK));
    }
}
