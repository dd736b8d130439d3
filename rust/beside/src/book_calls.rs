//! The book's commands one by one: each is a batch of one command. The memory is any slice of words.

use claggyfoot::ffi;

pub use claggyfoot::ffi::{book_empty as empty, book_passes as passes, book_words as words};

/// What showing a rule answers.
#[derive(Clone, Copy, PartialEq, Eq, Debug)]
pub struct RuleShown {
    /// 0, 1 (memory), 7 or 10.
    pub refusal: u64,
    /// The length of the term; 0 when refused.
    pub size: u64,
}

/// What asking a question answers.
#[derive(Clone, Copy, PartialEq, Eq, Debug)]
pub struct RulesListed {
    /// 0, 1 (memory), 2, 3, 4, 5 or 10.
    pub refusal: u64,
    /// How many numbers were written; 0 when refused.
    pub count: u64,
}

/// What asking for the room answers.
#[derive(Clone, Copy, PartialEq, Eq, Debug)]
pub struct RoomLeft {
    /// 0, or 1 (memory).
    pub refusal: u64,
    /// The rules held; 0 when refused.
    pub rules: u64,
    /// The node count; 0 when refused.
    pub nodes: u64,
}

/// Runs one command: the refusal or 0, and how many cells come after the record's first. Stop, used, written and the record
/// agree with each other.
fn one(book: &mut [u64], command: &[u16], out: &mut [u16]) -> (u64, u64) {
    let ended = ffi::batch(book, command, out);
    let used = if ended.stop == 0 { command.len() } else { 0 };
    assert_eq!(ended.used, used as u64, "{command:x?}");
    if ended.written == 0 {
        assert!(matches!(ended.stop, 1 | 10), "{command:x?}");
        return (ended.stop, 0);
    }
    let (refusal, count) = (u64::from(out[0] >> 12), u64::from(out[0] & 0x0fff));
    assert_eq!(ended.written, 1 + count, "{command:x?}");
    assert_eq!(ended.stop != 0, matches!(refusal, 1..=5), "{command:x?}");
    assert!(ended.stop == 0 || ended.stop == refusal, "{command:x?}");
    (refusal, count)
}

/// A command cell.
fn head(kind: u64, number: u64) -> u16 {
    assert!(kind < 16 && number < 4_096, "no cell says {kind} {number}");
    (kind << 12 | number) as u16
}

/// Adds a rule: 0, 1, 3, 4, 5, 6, 8 or 9. The cells end where the term ends, if they are one.
pub fn add(book: &mut [u64], number: u64, term: &[u16]) -> u64 {
    one(book, &[&[head(0, number)], term].concat(), &mut [0]).0
}

/// Removes a rule: 0, 1 or 7.
pub fn remove(book: &mut [u64], number: u64) -> u64 {
    one(book, &[head(1, number)], &mut [0]).0
}

/// Shows a rule: where it is held, its cells stand in `out`, from the second on.
pub fn show(book: &mut [u64], number: u64, out: &mut [u16]) -> RuleShown {
    let (refusal, size) = one(book, &[head(6, number)], out);
    RuleShown { refusal, size }
}

/// Rules held and node count.
pub fn room(book: &mut [u64]) -> RoomLeft {
    let mut out = [0; 3];
    let (refusal, _) = one(book, &[head(7, 0)], &mut out);
    let [rules, nodes] = [out[1], out[2]].map(u64::from);
    RoomLeft {
        refusal,
        rules,
        nodes,
    }
}

/// Asks a question of the reference's kind 2, 3, 4 or 5; the numbers of the rules that answer stand in `out`, from the second
/// cell on.
pub fn ask(book: &mut [u64], kind: u64, question: &[u16], out: &mut [u16]) -> RulesListed {
    let (refusal, count) = one(book, &[&[head(kind, 0)], question].concat(), out);
    RulesListed { refusal, count }
}
