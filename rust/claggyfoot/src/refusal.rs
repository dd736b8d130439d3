//! The refusals, by number and in words.

use std::error::Error;
use std::fmt::{self, Display, Formatter};

/// Why something was refused. Its `Display` says what a person can do about it.
///
/// ```
/// use claggyfoot::Refusal;
///
/// assert_eq!(Refusal::of(9), Some(Refusal::NodesFull));
/// assert_eq!(Refusal::NodesFull.number(), 9);
/// assert!(Refusal::NodesFull.to_string().contains("remove"));
/// ```
#[derive(Clone, Copy, PartialEq, Eq, Hash, Debug)]
pub enum Refusal {
    /// 1: the memory has a wrong length or isn't a book, or isn't a name table.
    Memory,
    /// 2: no such kind of command, or a number that isn't 0 where it must be.
    Command,
    /// 3: the cells end while a subterm is wanted.
    CutShort,
    /// 4: a variable cell with a wrong field or a wrong number.
    Variable,
    /// 5: 32 cells read, a subterm still wanted.
    TooLong,
    /// 6: add, the number is already held.
    Held,
    /// 7: remove or show, the number isn't held.
    NotHeld,
    /// 8: add, 512 rules are held.
    RulesFull,
    /// 9: add, there would be more than 4,096 nodes.
    NodesFull,
    /// 10: the record doesn't fit in the output left.
    NoRoom,
    /// 11: the bytes are no name.
    NoName,
    /// 12: the name isn't held and there is no free slot.
    NoSlot,
    /// 13: no name has this number.
    NoSuchName,
    /// 20: no term can go on at a byte of the text, or at its end.
    NoTerm,
    /// 21: an eighth argument in a text.
    EighthArgument,
    /// Any other number: the archive is newer than this crate.
    Unknown(u16),
}

impl Refusal {
    /// 0 as nothing, and any other number as the refusal.
    pub fn of(number: u64) -> Option<Refusal> {
        if number == 0 {
            return None;
        }
        let number = u16::try_from(number).unwrap_or(u16::MAX);
        let row = ROWS.iter().find(|row| row.1 == number);
        Some(row.map_or(Refusal::Unknown(number), |row| row.0))
    }

    /// Its number.
    pub fn number(self) -> u16 {
        self.row().1
    }

    /// Its row; an unknown number has one of its own.
    fn row(self) -> Row {
        let number = match self {
            Refusal::Unknown(number) => number,
            _ => 0,
        };
        let unknown = (
            self,
            number,
            "the archive gives a refusal that this crate doesn't know",
            "take crate and archive from one version",
        );
        let own = ROWS.into_iter().find(|row| row.0 == self);
        own.unwrap_or(unknown)
    }
}

/// A refusal, its number, what happened and what to do.
type Row = (Refusal, u16, &'static str, &'static str);

/// All that this crate knows.
const ROWS: [Row; 15] = [
    (
        Refusal::Memory,
        1,
        "the memory isn't a book or a name table, or has a wrong length",
        "make an empty one and enter everything again",
    ),
    (
        Refusal::Command,
        2,
        "no such command",
        "use kinds 0 to 7, with number 0 for questions and room",
    ),
    (
        Refusal::CutShort,
        3,
        "the term is cut short",
        "give each symbol as many arguments as its arity says",
    ),
    (
        Refusal::Variable,
        4,
        "a variable is wrong",
        "number variables by first appearance, 8000, 8001, .., 800f",
    ),
    (
        Refusal::TooLong,
        5,
        "the term has more than 32 cells",
        "split the rule or make its pattern shorter",
    ),
    (
        Refusal::Held,
        6,
        "a rule with this number is held",
        "take another number or remove that rule first",
    ),
    (
        Refusal::NotHeld,
        7,
        "no rule with this number is held",
        "ask for the instances of 8000 to see which are",
    ),
    (
        Refusal::RulesFull,
        8,
        "the book holds 512 rules, which is all it can",
        "remove one first",
    ),
    (
        Refusal::NodesFull,
        9,
        "the book's 4,096 nodes don't suffice for this rule",
        "remove rules, or let the rule begin as others do",
    ),
    (
        Refusal::NoRoom,
        10,
        "the record doesn't fit in the output left",
        "lend more output cells and go on from the command not used",
    ),
    (
        Refusal::NoName,
        11,
        "these bytes are no name",
        "use 1 to 31 printable ASCII characters, no space first or last",
    ),
    (
        Refusal::NoSlot,
        12,
        "a new name finds no free slot",
        "make a table with more slots, up to 1,024",
    ),
    (
        Refusal::NoSuchName,
        13,
        "no name has this number",
        "use a number that entering gave",
    ),
    (
        Refusal::NoTerm,
        20,
        "no term can go on here",
        "write lamp, 'dark cave' or X, and a comma or a bracket after an argument",
    ),
    (
        Refusal::EighthArgument,
        21,
        "a name has an eighth argument",
        "give at most seven, or put some into a term of their own",
    ),
];

impl Display for Refusal {
    fn fmt(&self, formatter: &mut Formatter) -> fmt::Result {
        let (_, _, what, remedy) = self.row();
        write!(formatter, "{what} (refusal {}): {remedy}", self.number())
    }
}

impl Error for Refusal {}

/// How a batch ended.
#[derive(Clone, Copy, PartialEq, Eq, Hash, Debug)]
pub enum Stop {
    /// All cells are used.
    Done,
    /// It stopped at a command, for this reason; earlier commands keep their effect.
    At(Refusal),
}

impl Stop {
    /// 0, or the refusal's number.
    pub fn number(self) -> u16 {
        match self {
            Stop::Done => 0,
            Stop::At(refusal) => refusal.number(),
        }
    }
}

impl Display for Stop {
    fn fmt(&self, formatter: &mut Formatter) -> fmt::Result {
        match self {
            Stop::Done => write!(formatter, "all commands are done"),
            Stop::At(refusal) => write!(formatter, "stopped: {refusal}"),
        }
    }
}

#[cfg(test)]
mod tests {
    use super::*;
    use std::collections::HashSet;

    #[test]
    fn numbers_and_refusals_are_one_to_one() {
        for (number, refusal) in (1..=13).chain([20, 21]).zip(ROWS.map(|row| row.0)) {
            assert_eq!(Refusal::of(number), Some(refusal));
            assert_eq!(u64::from(refusal.number()), number);
        }
        assert_eq!(Refusal::of(0), None);
    }

    #[test]
    fn unknown_numbers_are_refusals_too() {
        for number in [14, 15, 19, 22, 65_535] {
            let refusal = Refusal::of(number).expect("it isn't 0");
            assert_eq!(refusal, Refusal::Unknown(number as u16));
            assert_eq!(u64::from(refusal.number()), number);
            assert!(refusal.to_string().contains(&number.to_string()));
        }
        for number in [1 << 16, 1 << 32, u64::MAX] {
            assert_eq!(Refusal::of(number), Some(Refusal::Unknown(u16::MAX)));
        }
    }

    #[test]
    fn each_says_something_of_its_own() {
        let words: HashSet<String> = ROWS.iter().map(|row| row.0.to_string()).collect();
        assert_eq!(words.len(), ROWS.len());
        let stop = Stop::At(Refusal::NoRoom);
        assert_eq!((stop.number(), Stop::Done.number()), (10, 0));
        assert!(stop.to_string().contains("output"));
    }
}
