//! "Slips that look right", a test each.

use model::book::{Book, Refusal};
use model::names;
use model::questions::Question;
use model::term::Term;

const F: u16 = 0x2001;
const A: u16 = 0x0002;
const B: u16 = 0x0003;
const G: u16 = 0x1004;
const X: u16 = 0x8000;
const Y: u16 = 0x8001;

fn term(cells: &[u16]) -> Term {
    Term::read(cells, 0).expect("a term")
}

fn book(rules: &[(u16, &[u16])]) -> Book {
    let mut book = Book::empty();
    for (number, cells) in rules {
        book.add(*number, term(cells)).expect("taken");
    }
    book
}

#[test]
fn a_blank_skips_one_subterm_and_not_one_cell() {
    let held = book(&[(1, &[F, G, B, B]), (2, &[F, A, B]), (3, &[F, X, B])]);
    assert_eq!(held.ask(Question::Instances, &term(&[F, X, B])), [1, 2, 3]);
    assert_eq!(held.ask(Question::Unifiables, &term(&[F, X, B])), [1, 2, 3]);
    let asked = term(&[F, G, B, B]);
    assert_eq!(held.ask(Question::Generalisations, &asked), [1, 3]);
}

#[test]
fn a_repeated_variable_is_not_dropped_in_the_index() {
    let held = book(&[(9, &[F, X, X])]);
    let asked = term(&[F, A, B]);
    assert_eq!(held.ask(Question::Generalisations, &asked), [9]);
    assert_eq!(held.ask(Question::Unifiables, &asked), [9]);
    assert_eq!(held.ask(Question::Variants, &term(&[F, X, Y])), [9]);
}

#[test]
fn blank_meets_blank_and_the_rule_is_listed_once() {
    let held = book(&[(4, &[F, X, Y]), (2, &[X]), (7, &[F, X, G, X])]);
    for asked in [&[X][..], &[F, X, Y], &[F, X, G, Y]] {
        assert_eq!(held.ask(Question::Unifiables, &term(asked)), [2, 4, 7]);
    }
    assert_eq!(held.ask(Question::Instances, &term(&[X])), [2, 4, 7]);
    let asked = term(&[F, X, Y]);
    assert_eq!(held.ask(Question::Generalisations, &asked), [2, 4]);
}

#[test]
fn removing_one_of_two_rules_of_the_same_form_keeps_the_nodes() {
    let mut held = book(&[(1, &[F, X, X]), (2, &[F, X, Y])]);
    assert_eq!(held.remove(1), Ok(()));
    assert_eq!(held.room(), (1, 3));
    assert_eq!(held.show(2), Ok(&[F, X, Y][..]));
    assert_eq!(held.ask(Question::Variants, &term(&[F, X, X])), [2]);
}

#[test]
fn no_node_is_lost_by_removal() {
    let mut held = Book::empty();
    for round in 0..300 {
        let cells = [0x1000 | round, 0x1000 | (round + 7), 0x0001];
        assert_eq!(held.add(5, term(&cells)), Ok(()));
        assert_eq!(held.room(), (1, 3));
        assert_eq!(held.remove(5), Ok(()));
        assert_eq!(held.room(), (0, 0));
    }
    // Nine chains of 32 come and go, and 128 still find room, no matter the past.
    let chain = |first: u16| {
        let mut cells = vec![G; 32];
        (cells[0], cells[31]) = (0x1000 | first, A);
        term(&cells)
    };
    for first in 0..9 {
        assert_eq!(held.add(first, chain(200 + first)), Ok(()));
    }
    for first in 0..9 {
        assert_eq!(held.remove(first), Ok(()));
    }
    for first in 0..128 {
        assert_eq!(held.add(first, chain(first)), Ok(()));
    }
    assert_eq!(held.add(128, chain(128)), Err(Refusal::NodesFull));
}

#[test]
fn no_call_trims() {
    let mut table = vec![0; 96];
    assert_eq!(names::enter(&mut table, b"dark  cave"), Ok(0));
    assert_eq!(names::enter(&mut table, b"dark cave"), Ok(1));
    for blank in [&b"cave "[..], b" cave", b" ", b"  "] {
        let refused = names::enter(&mut table, blank);
        assert_eq!(refused, Err(names::Refusal::NoName));
    }
    assert_eq!(names::name_of(&table, 0), b"dark  cave");
    assert_eq!(names::name_of(&table, 1), b"dark cave");
    // The check is as strict as entering: a table with a blank at a name's end doesn't pass.
    table[64..70].copy_from_slice(b"\x05cave ");
    assert!(!names::passes(&table));
    assert_eq!(names::name_of(&table, 2), b"");
    assert_eq!(names::name_refusal(&table, 2), 1);
}
