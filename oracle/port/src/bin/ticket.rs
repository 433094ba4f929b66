//! The support desk's ticket, on the Rust as published, on the corrected copy and on the port.

use driver::{fresh, grouped, key, Build, Set};
use port::Ported;

const FIRST_CARD: u64 = 5;
const NEXT_CARD: u64 = 6;
const FRAMES: u64 = 2000;

/// What one build says, row by row.
struct Column {
    set: Box<dyn Set>,
    cells: Vec<String>,
}

impl Column {
    fn number(&mut self, number: usize) {
        self.cells.push(grouped(number));
    }

    fn yes(&mut self, yes: bool) {
        self.cells.push(if yes { "yes" } else { "no" }.into());
    }

    /// The keys that a card shows when it is opened.
    fn shown(&self, card: u64) -> Vec<u64> {
        self.set.walk().into_iter().filter(|word| word >> 28 == card).collect()
    }
}

fn raw(card: u64, frame: u64) -> u64 {
    key(card, 0, 100, frame, 0)
}

fn sidecar(card: u64, frame: u64) -> u64 {
    key(card, 0, 100, frame, 1)
}

/// Folder and frame, as a camera names a file.
fn name(word: u64) -> String {
    format!("{}-{:04}", word >> 15 & 1023, word >> 1 & 16383)
}

fn replay(set: Box<dyn Set>) -> Vec<String> {
    let mut it = Column { set, cells: Vec::new() };
    let raws: Vec<u64> = (1..=FRAMES).map(|frame| raw(FIRST_CARD, frame)).collect();
    let sidecars: Vec<u64> = (1..=FRAMES).map(|frame| sidecar(FIRST_CARD, frame)).collect();

    it.set.insert_batch(&raws);
    it.number(it.set.count());
    it.number(it.shown(FIRST_CARD).len());
    it.number(sidecars.iter().filter(|&&word| it.set.contains(word)).count());

    it.set.remove_batch(&sidecars);
    it.yes(it.set.is_empty());
    it.number(it.set.count());
    it.number(it.shown(FIRST_CARD).len());
    it.yes(it.set.contains(raw(FIRST_CARD, 1)));
    it.number(it.set.freed().iter().map(|freed| freed.2).sum());

    it.set.insert(key(NEXT_CARD, 0, 101, 1, 0));
    let shown = it.shown(NEXT_CARD);
    it.number(it.shown(FIRST_CARD).len());
    it.number(shown.len());
    // The same folder and frame as a key of the first card: never cached for the next card.
    it.number(shown.iter().filter(|&&word| raws.contains(&(word - (1 << 28)))).count());
    it.cells.push(name(shown[0]));
    it.cells.push(name(shown[shown.len() - 1]));
    it.cells
}

fn main() {
    let published = replay(fresh(Build::Published, 12, 28));
    let corrected = replay(fresh(Build::Corrected, 12, 28));
    let ported = replay(Box::new(Ported::new()));
    let mut cells = published.iter().zip(&corrected).zip(&ported);
    let mut row = |text: &str| {
        let ((published, corrected), ported) = cells.next().expect("a cell for every row");
        println!("  {text:<52} | {published:>17} | {corrected:>14} | {ported:>8}");
    };

    println!("The ticket, replayed on the Rust and on the port");
    println!();
    println!("A set of preview keys, 12 bits of card and 28 of the rest. Card 5 is Tuesday's");
    println!("shoot, card 6 the next card. Frames are named folder-frame.");
    println!();
    println!("  {:<52} | {:>17} | {:>14} | {:>8}", "", "Rust as published", "corrected line", "the port");
    println!();
    println!("1. Ingest caches 2,000 raw keys of card 5, 100-0001 to 100-2000.");
    row("keys counted");
    row("keys that card 5 shows");
    row("sidecars of card 5 among the cached keys");
    println!();
    println!("2. A delete batch names the 2,000 sidecars of card 5. None was ever cached.");
    row("the set says that it is empty");
    row("keys counted");
    row("keys that card 5 shows");
    row("raw key 100-0001 of card 5 still found");
    row("keys left behind in a freed container");
    println!();
    println!("3. Card 6 is opened. One key is cached for it: 101-0001.");
    row("keys that card 5 shows");
    row("keys that card 6 shows");
    row("keys of card 5 that card 6 shows as its own");
    row("first frame that card 6 shows");
    row("last frame that card 6 shows");
    println!();
    let inherited = published[published.len() - 3].clone();
    println!("As published, card 6 opens with {inherited} frames of card 5. With the corrected line");
    println!("nothing is deleted that was not cached, and card 6 shows its own frame only. So it is with the port.");
    assert_eq!(corrected[corrected.len() - 3], "0", "the corrected copy inherits keys");
    assert_eq!(ported, corrected, "the port differs from the corrected copy");
    assert!(cells.next().is_none(), "a row for every cell");
}
