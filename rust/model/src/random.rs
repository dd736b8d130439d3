//! A small deterministic generator, and what tests draw from it: terms, damaged cells, commands.
//!
//! Draws lean towards few names, small terms and few rule numbers, so that rules and questions meet often.

use crate::term::Term;

/// Cells that sit on a border: symbols of several arities, good and bad variables, set fields, all bits.
pub const HOSTILE: [u16; 18] = [
    0x0000, 0x0002, 0x1004, 0x2001, 0x3001, 0x7001, 0x7fff, 0x8000, 0x8001, 0x8002, 0x800f, 0x8010,
    0x8100, 0x8fff, 0x9000, 0xa000, 0xc001, 0xffff,
];

/// A splitmix generator: one seed, one sequence, on every machine.
#[derive(Clone, Debug)]
pub struct Random {
    state: u64,
}

impl Random {
    /// The generator with a seed.
    pub fn new(seed: u64) -> Random {
        Random { state: seed }
    }

    /// 64 bits.
    pub fn bits(&mut self) -> u64 {
        self.state = self.state.wrapping_add(0x9e37_79b9_7f4a_7c15);
        let mut mixed = self.state;
        mixed = (mixed ^ (mixed >> 30)).wrapping_mul(0xbf58_476d_1ce4_e5b9);
        mixed = (mixed ^ (mixed >> 27)).wrapping_mul(0x94d0_49bb_1331_11eb);
        mixed ^ (mixed >> 31)
    }

    /// A number from 0 to one below `end`, which isn't 0.
    pub fn below(&mut self, end: usize) -> usize {
        (self.bits() % end as u64) as usize
    }

    /// A number from `first` to `last`, both possible.
    pub fn between(&mut self, first: usize, last: usize) -> usize {
        first + self.below(last - first + 1)
    }

    /// True once in so many draws.
    pub fn one_in(&mut self, count: usize) -> bool {
        self.below(count) == 0
    }

    /// One of the choices.
    pub fn pick<T: Copy>(&mut self, choices: &[T]) -> T {
        choices[self.below(choices.len())]
    }

    /// Any 16 bits.
    pub fn cell(&mut self) -> u16 {
        self.bits() as u16
    }
}

/// The cells of a term of exactly `length` cells, 1 to 32.
pub fn term_cells(random: &mut Random, length: usize) -> Vec<u16> {
    let (mut cells, mut wanted, mut variables) = (vec![], 1, 0);
    while cells.len() < length {
        let left = length - cells.len();
        let arity = arity(random, wanted, left);
        wanted = wanted - 1 + arity;
        cells.push(if arity == 0 && random.one_in(2) {
            variable(random, &mut variables)
        } else {
            (arity as u16) << 12 | name(random)
        });
    }
    cells
}

/// An arity with which a term with so many subterms wanted can still end after exactly so many cells.
fn arity(random: &mut Random, wanted: usize, left: usize) -> usize {
    let least = usize::from(wanted == 1 && left > 1);
    let most = (left - wanted).min(7);
    let one = random.between(least, most);
    one.min(random.between(least, most))
}

/// Mostly one of three names, now and then any.
fn name(random: &mut Random) -> u16 {
    if random.one_in(40) {
        random.cell() & 0x0fff
    } else {
        random.between(1, 3) as u16
    }
}

/// A variable met before or the next new one, as long as there is a sixteenth.
fn variable(random: &mut Random, variables: &mut u16) -> u16 {
    let number = random.between(0, usize::from(*variables).min(15)) as u16;
    *variables = (*variables).max(number + 1);
    0x8000 | number
}

/// A length of a term: mostly short, now and then up to 32, and 32 itself.
pub(crate) fn length(random: &mut Random) -> usize {
    match random.below(20) {
        0 => 32,
        1 => random.between(1, 32),
        2..=5 => random.between(1, 10),
        _ => random.between(1, 4),
    }
}

/// A term.
pub fn term(random: &mut Random) -> Term {
    let length = length(random);
    let cells = term_cells(random, length);
    Term::read(&cells, 0).expect("the generator makes terms")
}

/// Cells that were a term until one to three things were done to them; now and then they still are.
pub fn damaged(random: &mut Random) -> Vec<u16> {
    let length = length(random);
    let mut cells = term_cells(random, length);
    for _ in 0..random.between(1, 3) {
        damage(random, &mut cells);
    }
    cells
}

/// Cuts, appends, inserts or changes.
fn damage(random: &mut Random, cells: &mut Vec<u16>) {
    let place = random.between(0, cells.len());
    let cell = if random.one_in(4) {
        random.cell()
    } else {
        random.pick(&HOSTILE)
    };
    match random.below(4) {
        0 => cells.truncate(place),
        1 => cells.push(cell),
        2 => cells.insert(place, cell),
        _ if place < cells.len() => cells[place] = cell,
        _ => cells.push(cell),
    }
}

/// A row of so many cells without any plan, half of them hostile.
pub fn row(random: &mut Random, length: usize) -> Vec<u16> {
    let cell = |_| {
        if random.one_in(2) {
            random.cell()
        } else {
            random.pick(&HOSTILE)
        }
    };
    (0..length).map(cell).collect()
}

/// A rule number: mostly one of twenty-four, now and then any.
fn rule_number(random: &mut Random) -> u16 {
    if random.one_in(20) {
        random.cell() & 0x0fff
    } else {
        random.below(24) as u16
    }
}

/// The cells of a good command, adds being the most frequent.
pub fn command(random: &mut Random) -> Vec<u16> {
    let kind = random.pick(&[0, 0, 0, 0, 1, 1, 2, 3, 4, 5, 6, 7]);
    let number = match kind {
        0 | 1 | 6 => rule_number(random),
        _ => 0,
    };
    let mut cells = vec![kind << 12 | number];
    if matches!(kind, 0 | 2..=5) {
        cells.extend(term(random).cells());
    }
    cells
}

/// A command with a fault: an unknown kind, a number that must be 0 and mostly isn't, or damaged cells for a term.
pub fn damaged_command(random: &mut Random) -> Vec<u16> {
    match random.below(3) {
        0 => vec![(random.between(8, 15) as u16) << 12 | rule_number(random)],
        1 => vec![random.pick(&[2, 3, 4, 5, 7]) << 12 | rule_number(random)],
        _ => {
            let head = random.pick(&[0x0003, 0x2000, 0x3000, 0x4000, 0x5000]);
            [vec![head], damaged(random)].concat()
        }
    }
}

/// So many commands in a row, one in `harm` of them damaged; with `harm` 0 none is.
pub fn commands(random: &mut Random, count: usize, harm: usize) -> Vec<u16> {
    let one = |_| {
        if harm > 0 && random.one_in(harm) {
            damaged_command(random)
        } else {
            command(random)
        }
    };
    (0..count).flat_map(one).collect()
}

#[cfg(test)]
mod tests {
    use super::*;
    use crate::batch::{run, Stop};
    use crate::book::Book;
    use crate::term::{read, Cause};
    use std::collections::HashSet;

    #[test]
    fn one_seed_gives_one_sequence() {
        let mut random = Random::new(0);
        assert_eq!(random.bits(), 0xe220_a839_7b1d_cdaf);
        let draws = |seed| commands(&mut Random::new(seed), 20, 5);
        assert_eq!(draws(7), draws(7));
        assert_ne!(draws(7), draws(8));
    }

    #[test]
    fn terms_have_the_length_asked_for() {
        let mut random = Random::new(1);
        for length in 1..=32 {
            for _ in 0..200 {
                let cells = term_cells(&mut random, length);
                assert_eq!(read(&cells, 0), Ok(length));
            }
        }
    }

    #[test]
    fn damaged_cells_meet_every_fault() {
        let mut random = Random::new(2);
        let mut met = HashSet::new();
        for _ in 0..5_000 {
            if let Err(fault) = read(&damaged(&mut random), 0) {
                met.insert(fault.cause);
            }
        }
        let causes = [
            Cause::TooLong,
            Cause::CutShort,
            Cause::FieldSet,
            Cause::NumberAboveLast,
            Cause::NumberAboveCount,
        ];
        assert_eq!(met, HashSet::from(causes));
    }

    #[test]
    fn good_commands_are_all_used() {
        let mut random = Random::new(3);
        for _ in 0..100 {
            let cells = commands(&mut random, 50, 0);
            let answer = run(&mut Book::empty(), &cells, 4096);
            assert_eq!((answer.stop, answer.used), (Stop::Done, cells.len()));
        }
    }

    #[test]
    fn damaged_commands_meet_every_stop() {
        let mut random = Random::new(4);
        let mut met = HashSet::new();
        for _ in 0..5_000 {
            let cells = damaged_command(&mut random);
            met.insert(run(&mut Book::empty(), &cells, 9).stop.number());
        }
        assert!([2, 3, 4, 5].iter().all(|stop| met.contains(stop)));
    }
}
