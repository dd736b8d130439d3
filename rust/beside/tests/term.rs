//! The proved reading of a term beside the model's, by a question on an empty book: its refusal, or how many cells were
//! the term's.

use claggyfoot::ffi;
use claggyfoot::Book;
use model::random::{damaged, row, term_cells, Random};
use model::term::read;

/// A small alphabet that reaches every fault within four cells: symbols of arity 0, 1, 2, 3 and 7, variables 0, 1, 2,
/// 15 and 16, variable cells with a bit of the field or of the number's upper part set, and all bits.
const ALPHABET: [u16; 15] = [
    0x0002, 0x1004, 0x2001, 0x3fff, 0x7001, 0x8000, 0x8001, 0x8002, 0x800f, 0x8010, 0x8800, 0x9000,
    0xa001, 0xc000, 0xffff,
];

/// The refusal, or 0 and the term's length.
type Read = (u64, usize);

/// What the model answers.
fn wanted(cells: &[u16]) -> Read {
    match read(cells, 0) {
        Ok(length) => (0, length),
        Err(fault) => (u64::from(fault.number()), 0),
    }
}

thread_local! {
    /// An empty book, which no question changes.
    static WORDS: std::cell::RefCell<Vec<u64>> = Book::empty().words().to_vec().into();
}

/// What the archive answers: the term's instances are asked for, with room for one record, so that the batch ends behind
/// the term.
fn term_read(cells: &[u16]) -> Read {
    let commands = [&[0x3000], cells].concat();
    let ended = WORDS.with_borrow_mut(|words| ffi::batch(words, &commands, &mut [0]));
    match ended.stop {
        0 | 10 => (0, ended.used as usize - 1),
        refusal => (refusal, ended.used as usize),
    }
}

/// Both answer the same.
fn agree_on(cells: &[u16]) {
    assert_eq!(term_read(cells), wanted(cells), "{cells:04x?}");
}

/// Both answer the same from every start, the end included.
fn agree(cells: &[u16]) {
    (0..=cells.len()).for_each(|start| agree_on(&cells[start..]));
}

/// Both answer the same, and this.
fn both_say(cells: &[u16], refusal: u64, length: usize) {
    agree(cells);
    assert_eq!(term_read(cells), (refusal, length), "{cells:04x?}");
}

/// All rows of so many cells over the alphabet.
fn rows(length: usize) -> Vec<Vec<u16>> {
    (0..length).fold(vec![vec![]], |shorter, _| {
        let longer = |row: &Vec<u16>| ALPHABET.map(|cell| [&row[..], &[cell]].concat());
        shorter.iter().flat_map(longer).collect()
    })
}

#[test]
fn all_short_rows_over_a_hostile_alphabet() {
    for length in 0..=4 {
        rows(length).iter().for_each(|row| agree(row));
    }
}

#[test]
fn every_single_cell() {
    (0..=u16::MAX).for_each(|cell| agree(&[cell]));
}

/// Every cell as the second of a term, where variables 0 and 1 are both good.
#[test]
fn every_cell_after_a_variable() {
    (0..=u16::MAX).for_each(|cell| agree(&[0x2001, 0x8000, cell]));
}

#[test]
fn rows_without_a_plan() {
    let mut random = Random::new(101);
    for _ in 0..20_000 {
        let length = random.between(0, 40);
        agree(&row(&mut random, length));
    }
}

#[test]
fn terms_of_every_length() {
    let mut random = Random::new(102);
    for length in 1..=32 {
        for _ in 0..300 {
            let mut cells = term_cells(&mut random, length);
            both_say(&cells, 0, length);
            let more = random.below(9);
            cells.extend(row(&mut random, more));
            both_say(&cells, 0, length);
        }
    }
}

#[test]
fn damaged_terms() {
    let mut random = Random::new(103);
    (0..50_000).for_each(|_| agree(&damaged(&mut random)));
}

/// Terms that stand behind other cells.
#[test]
fn terms_behind_other_cells() {
    let mut random = Random::new(104);
    for _ in 0..5_000 {
        let (before, length) = (random.below(20), random.between(1, 32));
        let front = row(&mut random, before);
        let cells = [front, term_cells(&mut random, length), damaged(&mut random)].concat();
        agree(&cells);
    }
}

#[test]
fn cases_of_the_reference() {
    both_say(&[0x2001, 0x0002], 3, 0);
    both_say(&[0x8001], 4, 0);
    both_say(&[0x2001, 0x8000, 0x8000], 0, 3);
    both_say(&[], 3, 0);
}

/// A chain of so many cells of arity 1 and what comes after.
fn chain(links: usize, after: &[u16]) -> Vec<u16> {
    [&vec![0x1004; links][..], after].concat()
}

#[test]
fn thirty_two_cells_and_one_more_wanted() {
    both_say(&chain(31, &[0x0002]), 0, 32);
    both_say(&chain(31, &[0x8000]), 0, 32);
    both_say(&chain(31, &[]), 3, 0);
    both_say(&chain(31, &[0xffff]), 4, 0);
    // At one place 5 goes before 3 and 4.
    both_say(&chain(32, &[]), 5, 0);
    both_say(&chain(32, &[0x0002]), 5, 0);
    both_say(&chain(32, &[0xffff]), 5, 0);
    both_say(&chain(40, &[]), 5, 0);
    // The most that can be wanted.
    both_say(&[0x7fff; 32], 5, 0);
    both_say(&[0x7fff; 31], 3, 0);
}

/// Three symbols that want so many variables, 12 to 19, and the variables in turn.
fn wide(variables: u16) -> Vec<u16> {
    let mut cells = vec![0x7001, 0x7001, (variables - 12) << 12 | 1];
    cells.extend((0..variables).map(|number| 0x8000 | number));
    cells
}

#[test]
fn sixteen_variables_and_the_seventeenth() {
    both_say(&wide(16), 0, 19);
    both_say(&wide(17), 4, 0);
    let mut again = wide(17);
    again[19] = 0x800f;
    both_say(&again, 0, 20);
}

/// One variable of many changed to every number near the line, with and without a set field.
#[test]
fn many_variables_with_one_changed() {
    for variables in 12..=19 {
        let good = wide(variables);
        for place in 3..good.len() {
            for cell in (0x8000..0x8014).chain(0x9000..0x9014) {
                let mut cells = good.clone();
                cells[place] = cell;
                agree_on(&cells);
            }
        }
    }
}

#[test]
fn causes_of_4() {
    both_say(&[0x9000], 4, 0);
    both_say(&[0xa000], 4, 0);
    both_say(&[0xc000], 4, 0);
    both_say(&[0x8010], 4, 0);
    both_say(&[0x8fff], 4, 0);
    both_say(&[0x3001, 0x8000, 0x8000, 0x8002], 4, 0);
    both_say(&[0x3001, 0x8000, 0x8001, 0x8002], 0, 4);
}
