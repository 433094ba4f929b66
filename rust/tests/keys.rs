//! Pack and unpack against document 01's own formula, at every bound of every field and on every small field.
use brothowl::{Card, Field, Fields, Folder, Frame, Key, Kind, Refusal, Rollover};

const FIELDS: [(Field, u64, u64); 5] = [
    (Field::Card, 0, 4095),
    (Field::Rollover, 0, 7),
    (Field::Folder, 100, 999),
    (Field::Frame, 0, 9999),
    (Field::Kind, 0, 1),
];

/// What document 01 says of five numbers.
fn expected(f: [u64; 5]) -> Result<u64, Refusal> {
    for (x, (field, low, high)) in f.into_iter().zip(FIELDS) {
        if x < low || x > high {
            return Err(Refusal::FieldOutOfRange { field });
        }
    }
    Ok((f[0] << 28) + (f[1] << 25) + (f[2] << 15) + (f[3] << 1) + f[4])
}

fn kind(k: u64) -> Kind {
    if k == 0 { Kind::Raw } else { Kind::Sidecar }
}

fn pack(f: [u64; 5]) -> Result<u64, Refusal> {
    Key::pack(Fields { card: Card(f[0]), rollover: Rollover(f[1]), folder: Folder(f[2]), frame: Frame(f[3]), kind: kind(f[4]) }).map(Key::word)
}

#[test]
fn pack_at_every_bound() {
    let edges = |low: u64, high: u64| {
        let mut v = vec![0, low.saturating_sub(1), low, low + 1, high - 1, high, high + 1, 1 << 32, u64::MAX];
        v.dedup();
        v
    };
    for card in edges(0, 4095) {
        for rollover in edges(0, 7) {
            for folder in edges(100, 999) {
                for frame in edges(0, 9999) {
                    for kind in [0, 1] {
                        let f = [card, rollover, folder, frame, kind];
                        assert_eq!(pack(f), expected(f), "{f:?}");
                    }
                }
            }
        }
    }
}

#[test]
fn every_folder_and_every_frame_comes_back() {
    for folder in 100..=999 {
        for frame in (0..=9999).step_by(if folder == 100 { 1 } else { 97 }) {
            let fields = Fields { card: Card(4095), rollover: Rollover(7), folder: Folder(folder), frame: Frame(frame), kind: Kind::Sidecar };
            let key = Key::pack(fields).unwrap();
            assert_eq!(Key::try_from(key.word()), Ok(key));
            assert_eq!(key.fields(), fields);
        }
    }
}

#[test]
fn unpack_at_the_edges_of_every_field() {
    for folder in 0..1024u64 {
        for frame in [0, 1, 9999, 10_000, 16_383] {
            for low in [0, 1] {
                let word = (1 << 28) + (3 << 25) + (folder << 15) + (frame << 1) + low;
                let expected = if !(100..=999).contains(&folder) {
                    Err(Refusal::FieldOutOfRange { field: Field::Folder })
                } else if frame > 9999 {
                    Err(Refusal::FieldOutOfRange { field: Field::Frame })
                } else {
                    Ok(word)
                };
                assert_eq!(Key::try_from(word).map(Key::word), expected, "{word}");
            }
        }
    }
    for word in [1 << 40, (1 << 40) + 1, 1 << 63, u64::MAX] {
        assert_eq!(Key::try_from(word), Err(Refusal::WordTooLarge { place: 0 }));
    }
    assert_eq!(Key::try_from((1 << 40) - 1), Err(Refusal::FieldOutOfRange { field: Field::Folder }));
}
