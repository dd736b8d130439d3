//! What the tests of the book draw: terms of few symbols, and other ways to write a book.

use std::collections::BTreeSet;

use crate::memory::{self, Link};
use model::random::{term_cells, Random};

/// So many turns, or as many times more as the environment variable `BESIDE_TIMES` says.
pub fn times(turns: usize) -> usize {
    let times = std::env::var("BESIDE_TIMES").ok();
    turns * times.map_or(1, |times| times.parse().expect("a number of times"))
}

/// A term of few symbols, so that forms overlap and repeat: small, deep, wide or any.
pub fn few(random: &mut Random) -> Vec<u16> {
    match random.below(10) {
        0 => deep(random),
        1 => wide(random),
        2 => model::random::term(random).cells().to_vec(),
        _ => {
            let length = random.between(1, 6);
            let cells = term_cells(random, length);
            cells.iter().map(|cell| narrow(*cell)).collect()
        }
    }
}

/// The same kind of cell with one of two names.
fn narrow(cell: u16) -> u16 {
    if cell < 0x8000 {
        cell & 0xf001
    } else {
        cell
    }
}

/// A chain of up to 32 cells, mostly of one symbol.
fn deep(random: &mut Random) -> Vec<u16> {
    let length = random.between(1, 31);
    let mut cells = vec![0x1000; length];
    if random.one_in(2) {
        cells[random.below(length)] = 0x1001;
    }
    cells.push(random.pick(&[0x0000, 0x0001, 0x8000]));
    cells
}

/// Seven arguments, the last of which may have seven again: 8, 15, 22 or 29 cells.
fn wide(random: &mut Random) -> Vec<u16> {
    let mut cells = vec![];
    for level in (0..random.between(1, 4)).rev() {
        cells.push(0x7000);
        let arguments = if level == 0 { 7 } else { 6 };
        cells.extend((0..arguments).map(|_| random.pick(&[0x0000, 0x8000, 0x8000])));
    }
    cells
}

/// The words that a change can matter in: maps, root, links in use, places and records of rules.
pub fn words_that_matter(words: &[u64]) -> BTreeSet<usize> {
    let mut matter: BTreeSet<usize> = (0..73).collect();
    for link in memory::in_use(words) {
        matter.insert(72 + usize::from(link));
        if link > memory::LAST_NODE {
            let (place, number) = (link - 4_097, memory::link(words, link).cell);
            matter.insert(6_986 + usize::from(number) / 4);
            let record = 8_010 + 9 * usize::from(place);
            matter.extend(record..record + 9);
        }
    }
    matter
}

/// Changes fields of a link.
pub fn put(words: &mut [u64], link: u16, change: impl FnOnce(&mut Link)) {
    let mut there = memory::link(words, link);
    change(&mut there);
    words[72 + usize::from(link)] = there.word();
}

/// Sets or clears the bit of a link.
pub fn set_used(words: &mut [u64], link: u16, used: bool) {
    let index = usize::from(link - 1);
    let bit = 1 << (63 - index % 64);
    words[index / 64] = if used {
        words[index / 64] | bit
    } else {
        words[index / 64] & !bit
    };
}

/// Writes a field of 16 bits, counted from the first of the word `start`.
pub fn put_field(words: &mut [u64], start: usize, index: usize, value: u16) {
    let shift = 48 - 16 * (index % 4);
    let word = &mut words[start + index / 4];
    *word = *word & !(0xffff << shift) | u64::from(value) << shift;
}

/// The word of the first signs.
pub const SIGNS: usize = 4_681;

/// Signs and last children that may be wrong, mostly links in use: hints may hold anything.
pub fn any_signs(random: &mut Random, words: &mut [u64]) {
    let used = memory::in_use(words);
    for field in 0..4 * (6_986 - SIGNS) {
        let sign = match random.below(8) {
            0 => random.cell(),
            1 => 0,
            _ if used.is_empty() => field as u16,
            _ => random.pick(&used),
        };
        put_field(words, SIGNS, field, sign);
    }
}

/// Two links change their numbers, with all that leads to them: the same book, written in another way.
pub fn renumber(words: &mut [u64], one: u16, other: u16) {
    let swap = |link: u16| match link {
        _ if link == one => other,
        _ if link == other => one,
        _ => link,
    };
    let used = [one, other].map(|link| memory::is_used(words, link));
    set_used(words, other, used[0]);
    set_used(words, one, used[1]);
    words.swap(72 + usize::from(one), 72 + usize::from(other));
    for link in memory::in_use(words).into_iter().chain([0]) {
        put(words, link, |there| {
            there.first = swap(there.first);
            if link != 0 {
                there.parent = swap(there.parent);
                there.next = swap(there.next);
            }
        });
    }
    if one > memory::LAST_NODE {
        let start = |link: u16| 8_010 + 9 * usize::from(link - 4_097);
        (0..9).for_each(|index| words.swap(start(one) + index, start(other) + index));
        for link in [one, other] {
            if memory::is_used(words, link) {
                let number = usize::from(memory::link(words, link).cell);
                put_field(words, 6_986, number, link - 4_097);
            }
        }
    }
}

/// The same book in another way: nodes and places change their numbers, and what the check doesn't speak of is anything.
pub fn rewrite(random: &mut Random, words: &mut [u64]) {
    for _ in 0..random.below(6) {
        let (first, last) = random.pick(&[(1, 4_096), (4_097, 4_608)]);
        let near = random.pick(&[last, first + 40]);
        let one = random.between(first, near) as u16;
        renumber(words, one, random.between(first, near) as u16);
    }
    let held = memory::rules(words);
    for number in (0..4_096).filter(|number| !held.contains_key(number)) {
        let any = random.below(512) as u16;
        let place = random.pick(&[0, 1, 2, 511, 512, 0xffff, any]);
        put_field(words, 6_986, usize::from(number), place);
    }
    let matter = words_that_matter(words);
    for place in (73..SIGNS).chain(8_010..memory::WORDS) {
        if !matter.contains(&place) {
            words[place] = random.bits();
        }
    }
    any_signs(random, words);
    put(words, 0, |root| {
        (root.cell, root.parent, root.next) = (random.cell(), random.cell(), random.cell());
    });
}
