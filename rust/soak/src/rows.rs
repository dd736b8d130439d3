//! All command cells, and all short rows over cells that are good as commands, as terms, as both or as neither.

use beside::both::Both;
use model::random::Random;

use crate::counts::Counts;
use crate::Part;

/// A book with a few rules.
fn small_book() -> Both {
    Both::after(&[
        0x0005, 0x2001, 0x0002, 0x8000, 0x0009, 0x2001, 0x8000, 0x8000, 0x0002, 0x2001, 0x1004,
        0x0003, 0x0003, 0x0007, 0x8000,
    ])
}

/// Every command cell, with what may be its term.
pub struct Heads {
    book: Both,
    next: u16,
}

impl Heads {
    /// From cell 0 on.
    pub fn new() -> Heads {
        Heads {
            book: small_book(),
            next: 0,
        }
    }
}

impl Default for Heads {
    fn default() -> Heads {
        Heads::new()
    }
}

impl Part for Heads {
    fn turn(&mut self, random: &mut Random, counts: &mut Counts) {
        let tails = [&[][..], &[0x2001, 0x8000, 0x0002], &[0x8001], &[0x1005]];
        for _ in 0..128 {
            let cells = [&[self.next][..], random.pick(&tails)].concat();
            let room = random.below(8);
            self.book.clone().run(&cells, room);
            // 40,503 is odd, so every cell has its turn, and near turns are far apart.
            self.next = self.next.wrapping_add(40_503);
        }
        counts.add("command cells", 128);
    }
}

/// All rows of four cells over an alphabet, and so all shorter beginnings too.
pub struct Rows {
    book: Both,
    next: usize,
}

const ALPHABET: [u16; 17] = [
    0x0002, 0x0005, 0x0011, 0x1004, 0x1005, 0x2001, 0x2000, 0x3000, 0x4000, 0x5000, 0x6009, 0x6001,
    0x7000, 0x8000, 0x8001, 0x9000, 0xffff,
];

impl Rows {
    /// From the first row on.
    pub fn new() -> Rows {
        Rows {
            book: small_book(),
            next: 0,
        }
    }

    /// The row with a number.
    fn row(number: usize) -> [u16; 4] {
        let digit = |place: u32| number / ALPHABET.len().pow(place) % ALPHABET.len();
        [0, 1, 2, 3].map(|place| ALPHABET[digit(place)])
    }
}

impl Default for Rows {
    fn default() -> Rows {
        Rows::new()
    }
}

impl Part for Rows {
    fn turn(&mut self, random: &mut Random, counts: &mut Counts) {
        for _ in 0..100 {
            let row = Rows::row(self.next);
            // 30,011 is prime, so every row has its turn.
            self.next = (self.next + 30_011) % ALPHABET.len().pow(4);
            let length = if random.one_in(4) { random.below(4) } else { 4 };
            let room = random.pick(&[0, 1, 2, 3, 5, 40]);
            self.book.clone().run(&row[..length], room);
        }
        counts.add("rows of up to four cells", 100);
    }
}
