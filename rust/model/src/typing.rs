//! Texts that tests draw: a term typed in one of its many ways, terms past the limits, damaged texts.

use crate::random::{length, term_cells, Random};
use crate::term::Cell;

/// Names that tests type, bare where they can be: some are lower words, some only stand between quotes.
pub const NAMES: [&[u8]; 12] = [
    b"a",
    b"f",
    b"lamp",
    b"dark cave",
    b"it's",
    b"a\\b",
    b"X",
    b"aB_9",
    b"7",
    b"f(a, X)",
    b"'",
    b"a_name_of_just_thirty_one_bytes",
];

/// Bytes that matter to a reader: of every token, of blanks, and some that belong to none.
pub const BYTES: &[u8] = b"aXf(),'\\% \t\n\r70_$\"/*.\x00\x7f\x80\xff";

/// The text of a term, typed in one of its many ways; name number n is name n modulo 12.
pub fn typed(random: &mut Random, cells: &[u16]) -> Vec<u8> {
    let mut text = vec![];
    put_term(random, &mut cells.iter(), &mut text);
    text
}

/// A term typed.
pub fn text(random: &mut Random) -> Vec<u8> {
    let length = length(random);
    let cells = term_cells(random, length);
    typed(random, &cells)
}

/// A term that is deep, wide, or has many variables, so that it may pass a limit.
pub fn overgrown(random: &mut Random) -> Vec<u8> {
    let (mut cells, mut wanted) = (vec![], 1);
    let (most, leaves) = (random.between(1, 40), random.between(1, 3));
    while wanted > 0 {
        let arity = match cells.len() < most {
            true => random.pick(&[0, 1, 1, 2, 3, 7]),
            false => 0,
        };
        wanted = wanted - 1 + usize::from(arity);
        // A variable has the number of its place, so no other is like it.
        cells.push(match arity {
            0 if random.one_in(leaves) => 0x8000 | cells.len() as u16,
            _ => arity << 12 | random.below(NAMES.len()) as u16,
        });
    }
    let mut text = typed(random, &cells);
    let last_bracket = text.iter().rposition(|byte| *byte == b')');
    if let Some(place) = last_bracket.filter(|_| random.one_in(3)) {
        text.splice(place..place, b",a".repeat(random.between(1, 7)));
    }
    text
}

/// A text to which one to three things were done; now and then it is still a term's.
pub fn damaged(random: &mut Random) -> Vec<u8> {
    let mut text = match random.one_in(2) {
        true => text(random),
        false => overgrown(random),
    };
    for _ in 0..random.between(1, 3) {
        let place = random.below(text.len() + 1);
        let byte = random.pick(BYTES);
        match random.below(4) {
            0 => text.truncate(place),
            1 => text.insert(place, byte),
            2 if place < text.len() => text[place] = byte,
            _ if place < text.len() => drop(text.remove(place)),
            _ => text.push(byte),
        }
    }
    text
}

/// Mostly nothing; else spaces, tabs, newlines and comments.
fn put_blanks(random: &mut Random, text: &mut Vec<u8>) {
    while random.one_in(4) {
        text.extend(random.pick(&[&b" "[..], b" ", b"\t", b"\n", b"%\n", b"% f(',\\\xff\n"]));
    }
}

fn put_term<'a>(
    random: &mut Random,
    cells: &mut impl Iterator<Item = &'a u16>,
    text: &mut Vec<u8>,
) {
    put_blanks(random, text);
    match Cell::of(*cells.next().expect("the cells are a term")) {
        Cell::Variable { number, .. } => text.extend(format!("V{number}").bytes()),
        Cell::Symbol(symbol) => {
            put_name(random, NAMES[usize::from(symbol.name) % NAMES.len()], text);
            for argument in 0..symbol.arity {
                put_blanks(random, text);
                text.push(if argument == 0 { b'(' } else { b',' });
                put_term(random, cells, text);
            }
            if symbol.arity > 0 {
                put_blanks(random, text);
                text.push(b')');
            }
        }
    }
}

/// A name, between quotes where it has to be or as luck will have it.
fn put_name(random: &mut Random, name: &[u8], text: &mut Vec<u8>) {
    let in_word = |byte: &u8| byte.is_ascii_alphanumeric() || *byte == b'_';
    if name[0].is_ascii_lowercase() && name.iter().all(in_word) && !random.one_in(3) {
        text.extend(name);
        return;
    }
    text.push(b'\'');
    for byte in name {
        if matches!(byte, b'\'' | b'\\') {
            text.push(b'\\');
        }
        text.push(*byte);
    }
    text.push(b'\'');
}

#[cfg(test)]
mod tests {
    use super::*;
    use crate::names;
    use crate::text::{answered, read};
    use std::collections::HashSet;

    /// A table with so many slots of which the first hold the names.
    fn table(slots: usize) -> Vec<u8> {
        let mut table = vec![0; 32 * slots];
        for (number, name) in NAMES.iter().enumerate() {
            assert_eq!(names::enter(&mut table, name), Ok(number));
        }
        table
    }

    #[test]
    fn what_is_typed_is_read() {
        let mut random = Random::new(20);
        let (mut full, before) = (table(12), table(12));
        for _ in 0..5_000 {
            let length = length(&mut random);
            let mut cells = term_cells(&mut random, length);
            for cell in cells.iter_mut().filter(|cell| **cell < 0x8000) {
                *cell = (*cell & 0x7000) | (*cell & 0x0fff) % 12;
            }
            let mut text = typed(&mut random, &cells);
            let end = text.len();
            put_blanks(&mut random, &mut text);
            let read = read(&mut full, &text).expect("it is typed well");
            assert_eq!((&read.cells, read.place), (&cells, end), "{text:?}");
        }
        assert_eq!(full, before);
    }

    #[test]
    fn damaged_and_overgrown_texts_meet_every_refusal() {
        let mut random = Random::new(21);
        let mut met = HashSet::new();
        for turn in 0..20_000 {
            let text = match turn % 2 {
                0 => damaged(&mut random),
                _ => overgrown(&mut random),
            };
            let mut table = vec![0; 32 * random.between(1, 12)];
            met.insert(answered(&read(&mut table, &text)).refusal);
        }
        assert_eq!(met, HashSet::from([0, 4, 5, 11, 12, 20, 21]));
    }
}
