//! The archive's book and the model's, which run the same batches.

use claggyfoot::ffi::{self, BatchEnded};
use model::batch::{records, run, Answer};
use model::book::Book;
use model::term::{read, Term};

use crate::lent::Lent;
use crate::memory;

/// The two books, of which one stands in lent memory.
#[derive(Clone)]
pub struct Both {
    /// The archive's.
    pub lent: Lent<u64>,
    /// The model's.
    pub model: Book,
}

/// What stands in the output before a batch.
fn filler(place: usize) -> u16 {
    (place as u16).wrapping_mul(0x9e37) ^ 0x5bd1
}

impl Both {
    /// Two empty books.
    pub fn empty() -> Both {
        Both {
            lent: Lent::empty(),
            model: Book::empty(),
        }
    }

    /// Two empty books, on which these commands were run.
    pub fn after(cells: &[u16]) -> Both {
        let mut both = Both::empty();
        both.run(cells, 40_000);
        both
    }

    /// Memory that passes, and the model's book with the rules that docs/BOOK.md says it holds.
    pub fn of(words: &[u64]) -> Both {
        let mut model = Book::empty();
        for (number, cells) in memory::rules(words) {
            let term = Term::read(&cells, 0).expect("a passing record");
            model.add(number, term).expect("within the limits");
        }
        let lent = Lent::of(words);
        Both { lent, model }
    }

    /// Both run the batch alike: stop, used, written, every output cell, the commands as they were, guards around each. Where
    /// no add or remove took effect, the book's words are the same.
    pub fn run(&mut self, cells: &[u16], room: usize) -> Answer {
        let before = self.lent.words().to_vec();
        let (ended, out) = lent_batch(&mut self.lent, cells, room);
        let wanted = run(&mut self.model, cells, room);
        let numbers = BatchEnded {
            stop: u64::from(wanted.stop.number()),
            used: wanted.used as u64,
            written: wanted.out.len() as u64,
        };
        assert_eq!(ended, numbers, "room {room}, {cells:x?}");
        let written = wanted.out.len();
        assert_eq!(out[..written], wanted.out, "room {room}, {cells:x?}");
        assert!((written..room).all(|place| out[place] == filler(place)));
        if !took_effect(cells, &wanted) {
            assert!(self.lent.words() == before, "room {room}, {cells:x?}");
        }
        wanted
    }

    /// Both hold the same rules: every number is shown alike, and the room is the same.
    pub fn rules_alike(&mut self) {
        let mut cells: Vec<u16> = (0..4_096).map(|number| 0x6000 | number).collect();
        cells.push(0x7000);
        let mut wanted = vec![];
        for number in 0..4_096 {
            match self.model.show(number) {
                Ok(term) => wanted.extend([&[term.len() as u16], term].concat()),
                Err(refusal) => wanted.push(refusal.number() << 12),
            }
        }
        let (rules, nodes) = self.model.room();
        wanted.extend([2, rules as u16, nodes as u16]);
        let before = self.lent.words().to_vec();
        let (ended, out) = lent_batch(&mut self.lent, &cells, wanted.len());
        assert_eq!((ended.stop, ended.used), (0, 4_097));
        assert_eq!(out, wanted);
        assert!(self.lent.words() == before);
    }

    /// The memory passes by both checks.
    pub fn passes(&self) {
        assert_eq!(ffi::book_passes(self.lent.words()), 0);
        assert_eq!(memory::broken(self.lent.words()), []);
    }
}

/// Runs a batch with guards around book, commands and output; the commands stay as they were.
fn lent_batch(book: &mut Lent<u64>, cells: &[u16], room: usize) -> (BatchEnded, Vec<u16>) {
    let mut commands = Lent::of(cells);
    let before: Vec<u16> = (0..room).map(filler).collect();
    let mut out = Lent::of(&before);
    let ended =
        book.call(|book| commands.call(|commands| out.call(|out| ffi::batch(book, commands, out))));
    assert_eq!(commands.items(), cells);
    (ended, out.items().to_vec())
}

/// Did an add or a remove of the batch take effect?
fn took_effect(cells: &[u16], answer: &Answer) -> bool {
    let mut place = 0;
    for (refusal, _) in records(&answer.out) {
        if place == answer.used {
            return false;
        }
        let kind = cells[place] >> 12;
        if kind < 2 && refusal == 0 {
            return true;
        }
        place += 1;
        if matches!(kind, 0 | 2..=5) {
            place += read(cells, place).expect("it was used");
        }
    }
    false
}

/// Memory that doesn't pass answers 1 to any batch, and all stays as it is.
pub fn refuses_memory(words: &[u64], cells: &[u16], room: usize) {
    let mut lent = Lent::of(words);
    let (ended, out) = lent_batch(&mut lent, cells, room);
    let wanted = BatchEnded {
        stop: 1,
        used: 0,
        written: 0,
    };
    assert_eq!(ended, wanted, "room {room}, {cells:x?}");
    assert!(lent.words() == words);
    assert!((0..room).all(|place| out[place] == filler(place)));
}
