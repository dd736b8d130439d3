//! The book: a set of rules, each a number with a term, and what can be asked of it.
//!
//! The reference leaves the book's inside open and fixes the set, so here the set is all there is. The lent memory, its
//! check and refusal 1 have no part in the model: this book is one that passes.

use std::collections::{BTreeMap, HashSet};

use crate::questions::{Form, Question};
use crate::term::{Mark, Term};

/// Why a command on the book is refused; the book is then unchanged.
#[derive(Clone, Copy, PartialEq, Eq, Hash, Debug)]
pub enum Refusal {
    /// Add: number already held.
    Held,
    /// Remove, show: number not held.
    NotHeld,
    /// Add: 512 rules held.
    RulesFull,
    /// Add: node count with the rule would pass 4,096.
    NodesFull,
}

impl Refusal {
    /// The reference's refusal number.
    pub fn number(self) -> u16 {
        match self {
            Refusal::Held => 6,
            Refusal::NotHeld => 7,
            Refusal::RulesFull => 8,
            Refusal::NodesFull => 9,
        }
    }
}

/// Numbered rules, no number twice. Two numbers may have the same term.
#[derive(Clone, PartialEq, Eq, Debug)]
pub struct Book {
    rules: BTreeMap<u16, Term>,
}

impl Book {
    /// The most rules a book holds.
    pub const RULES: usize = 512;
    /// The most nodes; the root isn't counted.
    pub const NODES: usize = 4_096;
    /// Rules are numbered from 0 to this.
    pub const LAST_NUMBER: u16 = 4_095;
    /// The mark that stands for each variable in a blank form.
    pub const BLANK: Mark = Mark::Blank;

    /// The empty book.
    pub fn empty() -> Book {
        Book {
            rules: BTreeMap::new(),
        }
    }

    /// The rules held, ascending by number.
    pub fn rules(&self) -> &BTreeMap<u16, Term> {
        &self.rules
    }

    /// The node count: the number of different non-empty beginnings of the rules' blank forms.
    pub fn nodes(&self) -> usize {
        let mut beginnings: HashSet<Vec<Mark>> = HashSet::new();
        for term in self.rules.values() {
            let form = term.blank_form();
            beginnings.extend((1..=form.len()).map(|length| form[..length].to_vec()));
        }
        beginnings.len()
    }

    /// Adds a rule. Where several conditions hold, the order is 6, 8, 9.
    ///
    /// # Panics
    /// When the number is above 4,095, which no command cell can say.
    pub fn add(&mut self, number: u16, term: Term) -> Result<(), Refusal> {
        assert!(number <= Book::LAST_NUMBER, "a number has 12 bits");
        if self.rules.contains_key(&number) {
            return Err(Refusal::Held);
        }
        if self.rules.len() == Book::RULES {
            return Err(Refusal::RulesFull);
        }
        let mut with = self.clone();
        with.rules.insert(number, term);
        if with.nodes() > Book::NODES {
            return Err(Refusal::NodesFull);
        }
        *self = with;
        Ok(())
    }

    /// Removes a rule.
    pub fn remove(&mut self, number: u16) -> Result<(), Refusal> {
        self.rules
            .remove(&number)
            .map(|_| ())
            .ok_or(Refusal::NotHeld)
    }

    /// A rule's cells, variables kept.
    pub fn show(&self, number: u16) -> Result<&[u16], Refusal> {
        self.rules
            .get(&number)
            .map(Term::cells)
            .ok_or(Refusal::NotHeld)
    }

    /// Rules held and node count.
    pub fn room(&self) -> (usize, usize) {
        (self.rules.len(), self.nodes())
    }

    /// The numbers of the rules that the question lists, ascending, each once. Every rule is tested on its own.
    pub fn ask(&self, question: Question, term: &Term) -> Vec<u16> {
        let asked = Form::of(term);
        let listed = |rule: &Term| question.lists(&Form::of(rule), &asked);
        let rules = self.rules.iter();
        rules
            .filter(|(_, rule)| listed(rule))
            .map(|(number, _)| *number)
            .collect()
    }
}

#[cfg(test)]
mod tests {
    use super::*;
    use crate::random::{term as any_term, Random};

    fn term(cells: &[u16]) -> Term {
        let term = Term::read(cells, 0).expect("a term");
        assert_eq!(term.cells(), cells);
        term
    }

    #[test]
    fn an_empty_book_holds_nothing() {
        let book = Book::empty();
        assert_eq!(book.room(), (0, 0));
        assert_eq!(book.show(0), Err(Refusal::NotHeld));
        for question in Question::ALL {
            assert_eq!(book.ask(question, &term(&[0x8000])), []);
        }
    }

    #[test]
    fn refused_commands_leave_the_book_unchanged() {
        let mut book = Book::empty();
        assert_eq!(book.add(5, term(&[0x0002])), Ok(()));
        let before = book.clone();
        assert_eq!(book.add(5, term(&[0x0003])), Err(Refusal::Held));
        assert_eq!(book.remove(4), Err(Refusal::NotHeld));
        assert_eq!(book.show(4), Err(Refusal::NotHeld));
        assert_eq!(book, before);
        assert_eq!(book.show(5), Ok(&[0x0002][..]));
    }

    #[test]
    fn beginnings_are_counted_by_form_and_not_by_term() {
        let mut book = Book::empty();
        book.add(0, term(&[0x2001, 0x8000, 0x8000])).expect("taken");
        book.add(1, term(&[0x2001, 0x8000, 0x8001])).expect("taken");
        assert_eq!(book.room(), (2, 3));
        book.add(2, term(&[0x8000])).expect("taken");
        book.add(3, term(&[0x0001])).expect("taken");
        book.add(4, term(&[0x1001, 0x0001])).expect("taken");
        assert_eq!(book.room(), (5, 7));
    }

    /// Demand 3: rules come and go; what is left answers as if it had been added afresh.
    #[test]
    fn the_past_does_not_show() {
        let mut random = Random::new(21);
        for _ in 0..200 {
            let mut book = Book::empty();
            for _ in 0..60 {
                let number = random.below(24) as u16;
                if random.one_in(3) {
                    let _ = book.remove(number);
                } else {
                    let _ = book.add(number, any_term(&mut random));
                }
            }
            let mut afresh = Book::empty();
            for (number, rule) in book.rules().iter().rev() {
                afresh.add(*number, rule.clone()).expect("it was held");
            }
            assert_eq!(afresh.room(), book.room());
            let asked = any_term(&mut random);
            for question in Question::ALL {
                assert_eq!(afresh.ask(question, &asked), book.ask(question, &asked));
            }
        }
    }
}
