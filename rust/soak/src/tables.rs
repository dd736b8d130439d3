//! Name tables: each bit of small ones flipped, and bytes without a plan.

use beside::tables::{enter_alike, name_alike};
use model::names;
use model::random::Random;

use crate::counts::Counts;
use crate::Part;

/// Both answer alike on this table.
fn alike(table: &[u8], counts: &mut Counts) {
    for name in [&b"cave"[..], b"lamp", b"a new one", b"cave ", b""] {
        enter_alike(table, name);
    }
    for number in [0, 1, 2, table.len() as u64 / 32, u64::MAX] {
        name_alike(table, number);
    }
    let kind = match names::passes(table) {
        true => "name tables that pass",
        false => "name tables that don't pass",
    };
    counts.add(kind, 1);
}

/// Each bit of small tables flipped in turn.
pub struct Flips {
    tables: Vec<Vec<u8>>,
    next: usize,
}

impl Flips {
    /// Tables of three slots with none to three names.
    pub fn new() -> Flips {
        let names = [&b"cave"[..], b"lamp", b"cavf"];
        let filled = |count: usize| {
            let enter = |table: Vec<u8>, name: &&[u8]| enter_alike(&table, name).1;
            names[..count].iter().fold(vec![0; 96], enter)
        };
        Flips {
            tables: (0..=3).map(filled).collect(),
            next: 0,
        }
    }
}

impl Default for Flips {
    fn default() -> Flips {
        Flips::new()
    }
}

impl Part for Flips {
    fn turn(&mut self, _: &mut Random, counts: &mut Counts) {
        let place = self.next % 96;
        self.next += 1;
        for table in &self.tables {
            for bit in 0..8 {
                let mut table = table.clone();
                table[place] ^= 1 << bit;
                alike(&table, counts);
            }
        }
        counts.add("bits of small name tables flipped", 8 * self.tables.len());
    }
}

/// Bytes without a plan, and tables that grow by entering.
pub struct Plain;

/// A name of few letters and spaces, mostly good.
fn name(random: &mut Random) -> Vec<u8> {
    let length = match random.below(8) {
        0 => random.between(28, 33),
        _ => random.between(0, 4),
    };
    (0..length).map(|_| random.pick(b"ab  c\x7e\x7f")).collect()
}

impl Part for Plain {
    fn turn(&mut self, random: &mut Random, counts: &mut Counts) {
        let length = random.between(0, 200);
        let any: Vec<u8> = (0..length).map(|_| random.bits() as u8).collect();
        alike(&any, counts);
        let mut table = vec![0; 32 * random.between(1, 30)];
        for _ in 0..40 {
            let name = name(random);
            table = enter_alike(&table, &name).1;
            name_alike(&table, random.below(32) as u64);
        }
        counts.add("names entered", 40);
        let place = random.below(table.len());
        table[place] ^= 1 << random.below(8);
        alike(&table, counts);
    }
}
