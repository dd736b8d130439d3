//! All terms of up to four cells over a small alphabet: all pairs, all four questions.

use beside::both::Both;
use model::random::Random;
use model::term::read;

use crate::counts::Counts;
use crate::Part;

/// Two constants, symbols of one, two and three arguments, three variables.
const ALPHABET: [u16; 8] = [
    0x0002, 0x0003, 0x1004, 0x2001, 0x3005, 0x8000, 0x8001, 0x8002,
];

/// How many terms there are, which is how many turns all pairs take.
pub const PASS: usize = 89;

/// All terms of up to four cells.
fn terms() -> Vec<Vec<u16>> {
    let (mut rows, mut terms) = (vec![vec![]], vec![]);
    for length in 1..=4 {
        let longer = |row: &Vec<u16>| ALPHABET.map(|cell| [&row[..], &[cell]].concat());
        rows = rows.iter().flat_map(longer).collect();
        let whole = |row: &&Vec<u16>| read(row, 0) == Ok(length);
        terms.extend(rows.iter().filter(whole).cloned());
    }
    assert_eq!(terms.len(), PASS);
    terms
}

/// The four questions about each term.
fn questions(terms: &[Vec<u16>]) -> Vec<u16> {
    let four =
        |term: &Vec<u16>| [0x2000, 0x3000, 0x4000, 0x5000].map(|q| [&[q], &term[..]].concat());
    terms.iter().flat_map(four).flatten().collect()
}

/// Each term as the only rule, asked about with each term.
pub struct Pairs {
    terms: Vec<Vec<u16>>,
    next: usize,
}

impl Pairs {
    /// From the first term on.
    pub fn new() -> Pairs {
        Pairs {
            terms: terms(),
            next: 0,
        }
    }
}

impl Default for Pairs {
    fn default() -> Pairs {
        Pairs::new()
    }
}

impl Part for Pairs {
    fn turn(&mut self, random: &mut Random, counts: &mut Counts) {
        let rule = &self.terms[self.next];
        self.next = (self.next + 1) % self.terms.len();
        let number = random.below(4_096) as u16;
        let mut both = Both::after(&[&[number], &rule[..]].concat());
        let answer = both.run(&questions(&self.terms), 9_999);
        assert_eq!(answer.stop.number(), 0);
        counts.add(
            "pairs of small terms, each with four questions",
            self.terms.len(),
        );
    }
}

/// All terms as rules of one book, under numbers in any order, asked about with each term.
pub struct Together {
    terms: Vec<Vec<u16>>,
}

impl Together {
    /// With all terms.
    pub fn new() -> Together {
        Together { terms: terms() }
    }
}

impl Default for Together {
    fn default() -> Together {
        Together::new()
    }
}

impl Part for Together {
    fn turn(&mut self, random: &mut Random, counts: &mut Counts) {
        let mut left = self.terms.clone();
        let mut adds = vec![];
        while !left.is_empty() {
            let term = left.swap_remove(random.below(left.len()));
            // An odd factor gives each term a number of its own.
            adds.push((adds.len() * 45 % 4_096) as u16);
            adds.extend(term);
        }
        let mut both = Both::after(&adds);
        both.run(&questions(&self.terms), 40_000);
        counts.add(
            "questions to a book of all small terms",
            4 * self.terms.len(),
        );
    }
}
