//! The Rust's recorded combinations (answers/combine.txt, its form in answers/README.md), through the exported entry: the
//! members, with the least room that is not refused, and refused with one container or one node less.
use brothowl::{Numbers, Operation, Refusal, Set};

/// The words of so many runs: start, step, many.
fn words_of_runs(runs: &[u64]) -> Vec<u64> {
    runs.chunks(3).flat_map(|run| (0..run[2]).map(move |i| run[0] + i * run[1])).collect()
}

fn set(numbers: Numbers, words: &[u64]) -> Set {
    let mut set = Set::new(numbers).unwrap();
    set.insert_all(words.iter().copied()).unwrap();
    set
}

#[test]
fn combinations_as_recorded() {
    let path = concat!(env!("CARGO_MANIFEST_DIR"), "/../answers/combine.txt");
    let text = std::fs::read_to_string(path).expect("answers/combine.txt is there");
    let operations = [Operation::Or, Operation::And, Operation::Minus, Operation::Xor];
    let (mut p, mut s, mut room) = (0, 0, [[0; 2]; 2]);
    let (mut a, mut b, mut least) = (Vec::new(), Vec::new(), [0; 2]);
    let (mut lines, mut compared) = (0, 0);
    for line in text.lines().filter(|line| !line.starts_with('#')) {
        let n: Vec<u64> = line.split(' ').map(|word| word.parse().expect("a number")).collect();
        match n[0] {
            0 => {
                (p, s, room) = (n[1], n[2], [[n[3], n[4]], [n[5], n[6]]]);
                (a, b) = (Vec::new(), Vec::new());
            }
            31 => a.extend(&n[2..]),
            32 => b.extend(&n[2..]),
            41 => a.extend(words_of_runs(&n[1..])),
            42 => b.extend(words_of_runs(&n[1..])),
            70..=73 => least = [n[1], n[2]],
            50..=53 | 60..=63 => {
                let members = if n[0] < 60 { n[2..].to_vec() } else { words_of_runs(&n[2..]) };
                let of = |[containers, nodes]: [u64; 2]| Numbers { p, s, containers: containers.max(1), nodes };
                let (left, right) = (set(of(room[0]), &a), set(of(room[1]), &b));
                let operation = operations[(n[0] % 10) as usize];
                let mut result = Set::new(of(least)).unwrap();
                assert_eq!(result.combine(operation, &left, &right), Ok(()), "line {lines}");
                let mut walked: Vec<u64> = result.iter().collect();
                walked.sort_unstable();
                assert!(walked == members, "line {lines}: other members");
                for (less, some) in [([least[0].wrapping_sub(1), least[1]], least[0] > 1), ([least[0], least[1].wrapping_sub(1)], least[1] > 0)] {
                    if some {
                        let mut small = Set::new(of(less)).unwrap();
                        assert_eq!(small.combine(operation, &left, &right), Err(Refusal::NoRoom { place: 0 }), "line {lines}");
                        assert!(small.is_empty());
                    }
                }
                compared += 1;
            }
            99 => assert_eq!(n[1], lines, "the file was cut"),
            other => panic!("line {lines}: operation {other}"),
        }
        lines += 1;
    }
    assert_eq!(compared, 168);
}
