//! Long random histories of one book.

use beside::both::Both;
use beside::shapes::rewrite;
use model::batch::records;
use model::random::{command, commands, damaged_command, row, Random};

use crate::counts::Counts;
use crate::Part;

/// The commands of one history.
const COMMANDS: usize = 100_000;

/// The commands of a batch.
const BATCH: usize = 50;

/// A book with its past.
pub struct Histories {
    both: Both,
    /// Rule numbers are below this.
    numbers: usize,
    /// Commands answered so far.
    done: usize,
}

impl Histories {
    /// An empty book.
    pub fn new() -> Histories {
        Histories {
            both: Both::empty(),
            numbers: 24,
            done: 0,
        }
    }

    /// A good command on one of the numbers.
    fn command(&self, random: &mut Random) -> Vec<u16> {
        let mut cells = command(random);
        if matches!(cells[0] >> 12, 0 | 1 | 6) {
            cells[0] = cells[0] & 0xf000 | random.below(self.numbers) as u16;
        }
        cells
    }

    /// A batch, now and then damaged at its end.
    fn batch(&self, random: &mut Random) -> Vec<u16> {
        let mut cells: Vec<u16> = (0..BATCH).flat_map(|_| self.command(random)).collect();
        match random.below(12) {
            0 => cells.extend(damaged_command(random)),
            1 => cells.extend(row(random, 9)),
            2 => cells = commands(random, BATCH, 9),
            _ => (),
        }
        cells
    }

    /// The end of a history: both hold the same; the next one begins.
    fn next(&mut self, random: &mut Random, counts: &mut Counts) {
        self.both.rules_alike();
        self.both.passes();
        *self = Histories::new();
        self.numbers = random.pick(&[3, 24, 24, 150, 900]);
        counts.add("whole histories", 1);
    }
}

impl Default for Histories {
    fn default() -> Histories {
        Histories::new()
    }
}

impl Part for Histories {
    fn turn(&mut self, random: &mut Random, counts: &mut Counts) {
        let cells = self.batch(random);
        let room = if random.one_in(9) {
            random.below(80)
        } else {
            40_000
        };
        let answer = self.both.run(&cells, room);
        let answered = records(&answer.out).len();
        self.done += answered;
        counts.add("commands in histories", answered);
        if random.one_in(200) {
            self.both.lent.call(|words| rewrite(random, words));
            self.both.passes();
            self.both.rules_alike();
            counts.add("books written in another way", 1);
        }
        if self.done >= COMMANDS {
            self.next(random, counts);
        }
    }
}
