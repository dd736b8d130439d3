//! Typed terms: grown, past the limits, damaged and without a plan, into tables that grow by them and are damaged, too.

use beside::texts::read_alike;
use model::names;
use model::random::Random;
use model::typing::{damaged, overgrown, text, BYTES};

use crate::counts::Counts;
use crate::Part;

/// How many texts one table is tried with.
const A_TABLE: usize = 30;

/// Any text.
fn any_text(random: &mut Random) -> Vec<u8> {
    match random.below(5) {
        0 => text(random),
        1 => overgrown(random),
        2 | 3 => damaged(random),
        _ => {
            let length = random.between(0, 12);
            (0..length).map(|_| random.pick(BYTES)).collect()
        }
    }
}

/// Both read alike; the table afterwards.
fn alike(table: &[u8], text: &[u8], counts: &mut Counts) -> Vec<u8> {
    let (found, after) = read_alike(table, text);
    let kind = match found.refusal {
        0 => "texts read",
        1 => "texts for tables that don't pass",
        12 => "texts with too many new names",
        20 => "texts in which no term can go on",
        _ => "texts refused by 4, 5, 11 or 21",
    };
    counts.add(kind, 1);
    after
}

/// Texts one after another into one table.
pub struct Texts;

impl Part for Texts {
    fn turn(&mut self, random: &mut Random, counts: &mut Counts) {
        let mut table = vec![0; 32 * random.between(1, 20)];
        for _ in 0..A_TABLE {
            table = alike(&table, &any_text(random), counts);
        }
        assert!(names::passes(&table));
        let place = random.below(table.len());
        table[place] ^= 1 << random.below(8);
        alike(&table, &any_text(random), counts);
    }
}
