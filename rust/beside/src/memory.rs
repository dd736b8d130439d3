//! The check of a book's memory, said again from docs/BOOK.md in the most direct way, line by line. Only what a term is
//! comes from the model.

use std::collections::{BTreeMap, BTreeSet};

use model::term::read;

/// The words of a book.
pub const WORDS: usize = 12_618;

/// Links of nodes: 1 to this. The links of rules follow.
pub const LAST_NODE: u16 = 4_096;

/// The last link of a rule.
pub const LAST_RULE: u16 = 4_608;

/// The lines of the page's check.
#[derive(Clone, Copy, PartialEq, Eq, PartialOrd, Ord, Debug)]
pub enum Line {
    /// It has 11,466 words.
    Length,
    /// Links go well.
    LinksGo,
    /// Links come.
    LinksCome,
    /// Records.
    Records,
    /// Ways.
    Ways,
    /// Covered.
    Covered,
}

/// The four fields of a link's word.
#[derive(Clone, Copy, PartialEq, Eq, Debug)]
pub struct Link {
    /// A node's cell of a blank form, or a rule's number.
    pub cell: u16,
    /// The link above, 0 for the root.
    pub parent: u16,
    /// The link of the first child, or 0.
    pub first: u16,
    /// The link of the next sibling, or 0.
    pub next: u16,
}

impl Link {
    /// Takes a word apart.
    pub fn of(word: u64) -> Link {
        Link {
            cell: field(word, 0),
            parent: field(word, 1),
            first: field(word, 2),
            next: field(word, 3),
        }
    }

    /// The word with these fields.
    pub fn word(self) -> u64 {
        let fields = [self.cell, self.parent, self.first, self.next];
        fields
            .iter()
            .fold(0, |word, field| word << 16 | u64::from(*field))
    }
}

/// One of the four fields of 16 bits, the most significant first.
pub fn field(word: u64, index: usize) -> u16 {
    (word >> (48 - 16 * index)) as u16
}

/// Bit `index` of words, the most significant of each first.
fn bit(words: &[u64], index: usize) -> bool {
    words[index / 64] >> (63 - index % 64) & 1 == 1
}

/// The links in use, ascending; the root isn't one.
pub fn in_use(words: &[u64]) -> Vec<u16> {
    (1..=LAST_RULE).filter(|l| is_used(words, *l)).collect()
}

/// Is it the link of a node or of a rule in use?
pub fn is_used(words: &[u64], link: u16) -> bool {
    match link {
        0 => false,
        1..=LAST_NODE => bit(&words[0..64], usize::from(link - 1)),
        4_097..=LAST_RULE => bit(&words[64..72], usize::from(link - LAST_NODE - 1)),
        _ => false,
    }
}

/// What stands at a link, which is at most the last.
pub fn link(words: &[u64], link: u16) -> Link {
    Link::of(words[72 + usize::from(link)])
}

/// The place of a rule number.
pub fn place(words: &[u64], number: u16) -> u16 {
    let number = usize::from(number);
    field(words[6_986 + number / 4], number % 4)
}

/// The length that the record at a place says.
pub fn length(words: &[u64], place: u16) -> u64 {
    words[8_010 + 9 * usize::from(place)]
}

/// The 32 cells of the record at a place.
pub fn cells(words: &[u64], place: u16) -> Vec<u16> {
    let start = 8_011 + 9 * usize::from(place);
    let cell = |index: usize| field(words[start + index / 4], index % 4);
    (0..32).map(cell).collect()
}

/// The cell as a blank form has it.
pub fn blank(cell: u16) -> u16 {
    if cell < 0x8000 {
        cell
    } else {
        0x8000
    }
}

/// The places of rules in use.
fn places(words: &[u64]) -> Vec<u16> {
    (0..512)
        .filter(|r| bit(&words[64..72], *r as usize))
        .collect()
}

/// A link down: where it leads, for whose children it stands, and the cell before it in case of a sibling.
struct Down {
    to: u16,
    parent: u16,
    before: Option<u16>,
}

/// All links down that lead somewhere: the first child of the root and of what is in use, the next sibling of what is
/// in use.
fn downs(words: &[u64]) -> Vec<Down> {
    let first = |parent: u16| Down {
        to: link(words, parent).first,
        parent,
        before: None,
    };
    let next = |sibling: u16| {
        let link = link(words, sibling);
        Down {
            to: link.next,
            parent: link.parent,
            before: Some(link.cell),
        }
    };
    let mut downs = vec![first(0)];
    for used in in_use(words) {
        downs.extend([first(used), next(used)]);
    }
    downs.retain(|down| down.to != 0);
    downs
}

/// Does a link down lead to something in use with the right parent and a greater cell than the one before?
fn goes(words: &[u64], down: &Down) -> bool {
    if !is_used(words, down.to) {
        return false;
    }
    let there = link(words, down.to);
    there.parent == down.parent && down.before.is_none_or(|cell| there.cell > cell)
}

/// The whole term with which the cells of the record at a place begin.
fn term(words: &[u64], place: u16) -> Option<Vec<u16>> {
    let cells = cells(words, place);
    let size = read(&cells, 0).ok()?;
    Some(cells[..size].to_vec())
}

/// Is the record at a place right: a number below 4,096 that leads back here, one whole term of the length that stands
/// there, and then zeros?
fn recorded(words: &[u64], here: u16) -> bool {
    let number = link(words, 4_097 + here).cell;
    let Some(term) = term(words, here) else {
        return false;
    };
    let mut rest = cells(words, here).split_off(term.len()).into_iter();
    number < 4_096
        && place(words, number) == here
        && length(words, here) == term.len() as u64
        && rest.all(|cell| cell == 0)
}

/// The links in use that are met in going up from a rule by parents, and where that ends: 0 at the root.
fn upwards(words: &[u64], place: u16) -> (Vec<u16>, u16) {
    let (mut met, mut above) = (vec![], 4_097 + place);
    while is_used(words, above) && !met.contains(&above) {
        met.push(above);
        above = link(words, above).parent;
    }
    (met, above)
}

/// Does going up from the rule at a place, through nodes, read its number and then its blank form backwards, and end at
/// the root?
fn way(words: &[u64], place: u16) -> bool {
    let Some(term) = term(words, place) else {
        return false;
    };
    let (met, end) = upwards(words, place);
    let read: Vec<u16> = met[1..].iter().map(|l| link(words, *l).cell).collect();
    let form: Vec<u16> = term.iter().rev().map(|cell| blank(*cell)).collect();
    end == 0 && met[1..].iter().all(|l| *l <= LAST_NODE) && read == form
}

/// The lines of the check that don't hold.
pub fn broken(words: &[u64]) -> Vec<Line> {
    if words.len() != WORDS {
        return vec![Line::Length];
    }
    let used = in_use(words);
    let places = places(words);
    let downs = downs(words);
    let led: BTreeSet<u16> = downs.iter().map(|down| down.to).collect();
    let met = places.iter().flat_map(|r| upwards(words, *r).0);
    let on_ways: BTreeSet<u16> = met.collect();
    let lines = [
        (Line::LinksGo, downs.iter().all(|down| goes(words, down))),
        (Line::LinksCome, used.iter().all(|link| led.contains(link))),
        (Line::Records, places.iter().all(|r| recorded(words, *r))),
        (Line::Ways, places.iter().all(|r| way(words, *r))),
        (
            Line::Covered,
            used.iter().all(|link| on_ways.contains(link)),
        ),
    ];
    let fails = |(line, holds): &(Line, bool)| (!holds).then_some(*line);
    lines.iter().filter_map(fails).collect()
}

/// Does memory pass?
pub fn passes(words: &[u64]) -> bool {
    broken(words).is_empty()
}

/// The set of rules that memory of the right length says: number k has a rule when the place of k is below 512, in use,
/// and the rule there has the number k.
pub fn rules(words: &[u64]) -> BTreeMap<u16, Vec<u16>> {
    let mut rules = BTreeMap::new();
    for number in 0..4_096 {
        let place = place(words, number);
        if place < 512 && is_used(words, 4_097 + place) && link(words, 4_097 + place).cell == number
        {
            let size = length(words, place).min(32) as usize;
            rules.insert(number, cells(words, place)[..size].to_vec());
        }
    }
    rules
}
