//! The proved search beside the model, which tests every rule one by one.

use beside::book_calls::{self, RulesListed};
use beside::lent::Lent;
use beside::shapes::{any_signs, few, rewrite, times};
use model::book::Book;
use model::questions::Question;
use model::random::{damaged, term_cells, Random};
use model::term::Term;

/// The reference's kinds and their questions.
const KINDS: [(u64, Question); 4] = [
    (2, Question::Variants),
    (3, Question::Instances),
    (4, Question::Generalisations),
    (5, Question::Unifiables),
];

/// The archive's book and the model's.
struct Pair {
    lent: Lent<u64>,
    model: Book,
}

impl Pair {
    fn of(rules: &[(u16, &[u16])]) -> Pair {
        let mut pair = Pair {
            lent: Lent::empty(),
            model: Book::empty(),
        };
        for (number, cells) in rules {
            assert!(pair.add(*number, cells));
        }
        pair
    }

    /// Both add the rule, or neither.
    fn add(&mut self, number: u16, cells: &[u16]) -> bool {
        let term = Term::read(cells, 0).expect("a term");
        let wanted = self.model.add(number, term).is_ok();
        let number = u64::from(number);
        let found = self
            .lent
            .call(|words| book_calls::add(words, number, cells));
        assert_eq!(found == 0, wanted);
        wanted
    }

    fn remove(&mut self, number: u16) {
        let wanted = self.model.remove(number).is_ok();
        let number = u64::from(number);
        let found = self.lent.call(|words| book_calls::remove(words, number));
        assert_eq!(found == 0, wanted);
    }

    /// Both list the same, and cells past the list stay as they are; the words do too.
    fn ask(&mut self, kind: u64, question: Question, cells: &[u16]) -> Vec<u16> {
        let term = Term::read(cells, 0).expect("a term");
        let wanted = self.model.ask(question, &term);
        for room in [1 + wanted.len(), 4 + wanted.len(), 520] {
            let mut out = vec![0xabcd; room];
            let before = self.lent.words().to_vec();
            let found = self
                .lent
                .call(|words| book_calls::ask(words, kind, cells, &mut out));
            assert!(self.lent.words() == before);
            let count = wanted.len() as u64;
            assert_eq!(found, RulesListed { refusal: 0, count });
            assert_eq!(out[0], count as u16, "kind {kind}, {cells:x?}");
            let (list, past) = out[1..].split_at(wanted.len());
            assert_eq!(list, wanted, "kind {kind}, {cells:x?}");
            assert!(past.iter().all(|cell| *cell == 0xabcd));
        }
        wanted
    }

    fn all_four(&mut self, cells: &[u16]) -> [Vec<u16>; 4] {
        KINDS.map(|(kind, question)| self.ask(kind, question, cells))
    }
}

#[test]
fn a_blank_skips_a_whole_subterm() {
    let mut pair = Pair::of(&[(1, &[0x2001, 0x1004, 0x0003, 0x0003])]);
    let found = pair.all_four(&[0x2001, 0x8000, 0x0003]);
    assert_eq!(found, [vec![], vec![1], vec![], vec![1]]);
    let mut pair = Pair::of(&[(1, &[0x2001, 0x8000, 0x0003])]);
    let found = pair.all_four(&[0x2001, 0x1004, 0x0003, 0x0003]);
    assert_eq!(found, [vec![], vec![], vec![1], vec![1]]);
}

#[test]
fn a_blank_against_a_blank_goes_one_way() {
    let mut pair = Pair::of(&[(7, &[0x1004, 0x8000]), (8, &[0x1004, 0x0002])]);
    let found = pair.all_four(&[0x1004, 0x8000]);
    assert_eq!(found, [vec![7], vec![7, 8], vec![7], vec![7, 8]]);
    let found = pair.all_four(&[0x1004, 0x0002]);
    assert_eq!(found, [vec![8], vec![8], vec![7, 8], vec![7, 8]]);
}

#[test]
fn one_variable_twice_is_two_blanks() {
    let mut pair = Pair::of(&[(0, &[0x2001, 0x8000, 0x8000])]);
    let found = pair.all_four(&[0x2001, 0x0002, 0x0003]);
    assert_eq!(found, [vec![], vec![], vec![0], vec![0]]);
}

#[test]
fn a_bare_variable_asks_for_all() {
    let mut random = Random::new(600);
    let mut pair = Pair::of(&[(4_095, &[0x8000]), (3, &[0x8000])]);
    for number in 10..60 {
        pair.add(number, &few(&mut random));
    }
    let bare: Vec<u16> = pair.model.rules().iter().filter_map(bare_number).collect();
    let all: Vec<u16> = pair.model.rules().keys().copied().collect();
    let found = pair.all_four(&[0x8000]);
    assert_eq!(found, [bare.clone(), all.clone(), bare, all]);
}

fn bare_number((number, term): (&u16, &Term)) -> Option<u16> {
    (term.cells() == [0x8000]).then_some(*number)
}

#[test]
fn the_deepest_and_the_fullest_book() {
    let chain = |first: u16| [vec![0x1000 | first], vec![0x1004; 30], vec![0x0002]].concat();
    let mut pair = Pair::of(&[]);
    for first in 0..128 {
        assert!(pair.add(4_095 - first, &chain(first)));
    }
    for number in 0..384 {
        assert!(pair.add(number, &chain(number % 128)));
    }
    assert_eq!(pair.all_four(&[0x8000])[1].len(), 512);
    assert_eq!(pair.all_four(&[0x1007, 0x8000])[1], [7, 135, 263, 4_088]);
    assert_eq!(pair.all_four(&chain(9))[0], [9, 137, 265, 4_086]);
    let mut end = chain(9);
    end[31] = 0x8000;
    assert_eq!(pair.all_four(&end)[1], [9, 137, 265, 4_086]);
}

/// Books of few symbols, so that much overlaps, with adds and removes between the questions.
#[test]
fn random_books_and_questions() {
    let mut random = Random::new(601);
    for _ in 0..times(40) {
        let mut pair = Pair::of(&[]);
        let rules = random.between(1, 120);
        for _ in 0..rules {
            let number = random.below(4_096) as u16;
            pair.add(number, &few(&mut random));
        }
        for _ in 0..25 {
            pair.all_four(&few(&mut random));
            let held: Vec<Vec<u16>> = pair.model.rules().values().map(cells_of).collect();
            if !held.is_empty() {
                pair.all_four(&held[random.below(held.len())]);
            }
            let numbers: Vec<u16> = pair.model.rules().keys().copied().collect();
            if random.one_in(3) && !numbers.is_empty() {
                pair.remove(random.pick(&numbers));
            }
            pair.add(random.below(4_096) as u16, &few(&mut random));
        }
    }
}

fn cells_of(term: &Term) -> Vec<u16> {
    term.cells().to_vec()
}

/// Terms of any length and any symbols, asked about with parts made blank.
#[test]
fn long_terms_with_parts_made_blank() {
    let mut random = Random::new(602);
    for _ in 0..times(60) {
        let mut pair = Pair::of(&[]);
        for number in 0..random.between(1, 40) as u16 {
            let length = random.between(1, 32);
            let cells = term_cells(&mut random, length);
            pair.add(number, &cells);
        }
        let held: Vec<Vec<u16>> = pair.model.rules().values().map(cells_of).collect();
        for cells in &held {
            pair.all_four(&blanked(&mut random, cells));
        }
    }
}

/// The term with some subterms replaced by new variables, the old ones numbered anew.
fn blanked(random: &mut Random, cells: &[u16]) -> Vec<u16> {
    let (mut out, mut names, mut at) = (vec![], vec![], 0);
    while at < cells.len() {
        if random.one_in(6) && names.len() < 15 {
            names.push(None);
            out.push(0x8000 | (names.len() as u16 - 1));
            at = past(cells, at);
        } else if cells[at] < 0x8000 {
            out.push(cells[at]);
            at += 1;
        } else {
            let known = names.iter().position(|name| *name == Some(cells[at]));
            let number = known.unwrap_or(names.len().min(15));
            if number == names.len() {
                names.push(Some(cells[at]));
            }
            out.push(0x8000 | number as u16);
            at += 1;
        }
    }
    out
}

/// The place past the subterm at a place.
fn past(cells: &[u16], at: usize) -> usize {
    let (mut at, mut wanted) = (at, 1);
    while wanted > 0 {
        let arity = if cells[at] < 0x8000 {
            cells[at] >> 12
        } else {
            0
        };
        wanted = wanted - 1 + usize::from(arity);
        at += 1;
    }
    at
}

/// The same rules in other words: nodes renumbered, junk wherever the check doesn't look.
#[test]
fn the_inside_makes_no_difference() {
    let mut random = Random::new(603);
    for _ in 0..times(20) {
        let mut pair = Pair::of(&[]);
        for _ in 0..30 {
            pair.add(random.below(4_096) as u16, &few(&mut random));
        }
        pair.lent.call(|words| rewrite(&mut random, words));
        assert_eq!(pair.lent.call(|words| book_calls::passes(words)), 0);
        for _ in 0..20 {
            pair.all_four(&few(&mut random));
        }
    }
}

/// A verb with one noun of many: long lists of siblings, in some of them a blank.
fn sibling(random: &mut Random) -> Vec<u16> {
    let (near, far) = (random.below(400) as u16, random.below(4_096) as u16);
    let noun = random.pick(&[0x8000, near, near, far]);
    let last = random.pick(&[0x0007, 0x8000, noun.max(0x7fff) + 1]);
    vec![0x2000 | random.below(2) as u16, noun, last]
}

/// Signs are hints: with those that adding and removing leave, and with any others, the answers are the same.
#[test]
fn signs_make_no_difference() {
    let mut random = Random::new(604);
    for _ in 0..times(6) {
        let mut pair = Pair::of(&[]);
        for _ in 0..random.between(100, 400) {
            pair.add(random.below(4_096) as u16, &sibling(&mut random));
        }
        let held: Vec<u16> = pair.model.rules().keys().copied().collect();
        for number in held.iter().filter(|number| *number % 3 == 0) {
            pair.remove(*number);
        }
        for turn in 0..40 {
            if turn % 4 == 3 {
                pair.lent.call(|words| any_signs(&mut random, words));
            }
            pair.all_four(&sibling(&mut random));
            pair.add(random.below(4_096) as u16, &sibling(&mut random));
        }
        assert_eq!(pair.lent.call(|words| book_calls::passes(words)), 0);
    }
}

/// Asks, and gives the refusal; book and output past the record stay as they are.
fn refusal(words: &[u64], kind: u64, cells: &[u16], room: usize) -> u64 {
    let mut lent = Lent::of(words);
    let mut out = vec![0xabcd; room];
    let found = lent.call(|words| book_calls::ask(words, kind, cells, &mut out));
    assert!(lent.words() == words);
    let record = usize::from(!matches!(found.refusal, 1 | 10));
    assert!(out[record..].iter().all(|cell| *cell == 0xabcd));
    assert_eq!(found.count, 0);
    found.refusal
}

#[test]
fn what_is_refused() {
    let mut pair = Pair::of(&[(1, &[0x0002]), (2, &[0x8000])]);
    let words = pair.lent.words().to_vec();
    for kind in 8..16 {
        assert_eq!(refusal(&words, kind, &[0x8000], 600), 2);
    }
    for (cells, wanted) in [
        (&[][..], 3),
        (&[0x1004], 3),
        (&[0x8001], 4),
        (&[0x1004; 33], 5),
    ] {
        assert_eq!(refusal(&words, 3, cells, 600), wanted);
    }
    for room in 0..3 {
        assert_eq!(refusal(&words, 3, &[0x8000], room), 10);
    }
    assert_eq!(refusal(&words[1..], 3, &[0x8000], 600), 1);
    let mut broken = words.clone();
    broken[0] ^= 1;
    assert_eq!(refusal(&broken, 3, &[0x8000], 600), 1);
    let mut random = Random::new(604);
    for _ in 0..times(300) {
        let cells = damaged(&mut random);
        match Term::read(&cells, 0) {
            Ok(term) => _ = pair.all_four(term.cells()),
            Err(fault) => {
                let number = u64::from(fault.number());
                assert_eq!(refusal(&words, 5, &cells, 600), number);
            }
        }
    }
}
