//! Full books: 4,096 nodes, 512 rules, and to and fro across both borders.

use beside::both::Both;
use beside::shapes::few;
use model::batch::records;
use model::random::Random;

use crate::counts::Counts;
use crate::Part;

/// A chain of 32 cells that begins with its own symbol.
fn chain(first: u16) -> Vec<u16> {
    [vec![0x1000 | (first + 100)], vec![0x1004; 30], vec![0x8000]].concat()
}

/// A book full of nodes and one full of rules, by turns.
pub struct Borders {
    books: [Both; 2],
    next: usize,
}

impl Borders {
    /// Both full.
    pub fn new() -> Borders {
        let chains = (0..128).flat_map(|n| [vec![n], chain(n)].concat());
        let rules = (0..512).flat_map(|n| vec![n, 0x1001, n % 40]);
        let books = [chains.collect::<Vec<u16>>(), rules.collect()];
        Borders {
            books: books.map(|cells| Both::after(&cells)),
            next: 0,
        }
    }

    /// A command that fills, empties or looks; mostly it fills.
    fn command(random: &mut Random, full_of_nodes: bool) -> Vec<u16> {
        let number = random.below(if full_of_nodes { 400 } else { 800 }) as u16;
        match random.below(12) {
            0 => vec![0x1000 | number],
            1 => vec![random.pick(&[0x3000, 0x5000]), 0x8000],
            2 => vec![0x7000],
            3 => [vec![number], few(random)].concat(),
            _ if full_of_nodes => [vec![number], chain(random.below(200) as u16)].concat(),
            _ => vec![number, 0x1001, random.below(60) as u16],
        }
    }
}

/// Which borders the records show.
fn count(out: &[u16], counts: &mut Counts) {
    for (refusal, cells) in records(out) {
        match (refusal, cells) {
            (8, _) => counts.add("adds to 512 rules", 1),
            (9, _) => counts.add("adds past 4,096 nodes", 1),
            (0, [_, 4_096]) => counts.add("rooms with 4,096 nodes", 1),
            (0, [512, _]) => counts.add("rooms with 512 rules", 1),
            (0, listed) if listed.len() == 512 => counts.add("lists of 512 rules", 1),
            _ => (),
        }
    }
}

impl Default for Borders {
    fn default() -> Borders {
        Borders::new()
    }
}

impl Part for Borders {
    fn turn(&mut self, random: &mut Random, counts: &mut Counts) {
        let full_of_nodes = self.next.is_multiple_of(2);
        let both = &mut self.books[self.next % 2];
        self.next += 1;
        let looks = vec![0x3000, 0x8000, 0x7000];
        let commands = (0..8).map(|_| Borders::command(random, full_of_nodes));
        let cells: Vec<u16> = commands.chain([looks]).flatten().collect();
        let room = random.pick(&[0, 3, 513, 520, 9_999, 9_999]);
        let answer = both.run(&cells, room);
        counts.add("batches on full books", 1);
        count(&answer.out, counts);
        if random.one_in(40) {
            both.rules_alike();
            both.passes();
        }
    }
}
