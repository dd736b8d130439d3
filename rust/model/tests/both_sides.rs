//! "Both sides of the line", case by case.

use model::batch::{records, run};
use model::book::{Book, Refusal};
use model::questions::{Form, Question};
use model::term::{read, Term};

const F: u16 = 0x2001;
const A: u16 = 0x0002;
const B: u16 = 0x0003;
const G: u16 = 0x1004;
const X: u16 = 0x8000;
const Y: u16 = 0x8001;

fn term(cells: &[u16]) -> Term {
    let term = Term::read(cells, 0).expect("a term");
    assert_eq!(term.cells(), cells, "nothing after the term");
    term
}

/// Whether the question lists the rule.
fn lists(which: Question, rule: &[u16], question: &[u16]) -> bool {
    which.lists(&Form::of(&term(rule)), &Form::of(&term(question)))
}

fn refusal(cells: &[u16]) -> u16 {
    read(cells, 0).err().map_or(0, |fault| fault.number())
}

#[test]
fn blanks_generalise() {
    let general = Question::Generalisations;
    assert!(lists(general, &[F, X, Y], &[F, A, B]));
    assert!(lists(general, &[F, X, B], &[F, G, B, B]));
}

#[test]
fn unifiable_and_neither_an_instance() {
    let (one, other) = ([F, X, B], [F, A, X]);
    assert!(lists(Question::Unifiables, &one, &other));
    assert!(lists(Question::Unifiables, &other, &one));
    assert!(!lists(Question::Instances, &one, &other));
    assert!(!lists(Question::Instances, &other, &one));
}

#[test]
fn a_blank_and_a_wider_form_are_unifiable_but_not_variants() {
    assert!(lists(Question::Unifiables, &[X], &[F, X, Y]));
    assert!(!lists(Question::Variants, &[X], &[F, X, Y]));
}

#[test]
fn arity_is_part_of_the_symbol() {
    assert!(!lists(Question::Instances, &[F, A, B], &[0x1001, X]));
    assert!(!lists(Question::Unifiables, &[F, A, B], &[0x1001, X]));
}

#[test]
fn six_nodes() {
    let mut book = Book::empty();
    book.add(0, term(&[F, X, Y])).expect("taken");
    book.add(1, term(&[F, G, B, B])).expect("taken");
    assert_eq!(book.nodes(), 6);
}

#[test]
fn term_cases() {
    assert_eq!(refusal(&[F, A]), 3);
    assert_eq!(refusal(&[Y]), 4);
    assert_eq!(refusal(&[F, X, X]), 0);
}

#[test]
fn thirty_two_cells() {
    assert_eq!(read(&chain(0), 0), Ok(32));
    let mut longer = chain(0);
    longer[31] = G;
    longer.push(A);
    assert_eq!(refusal(&longer), 5);
}

#[test]
fn sixteen_variables() {
    let wide = |variables: u16| {
        let mut cells = vec![0x7001, 0x7001, (variables - 12) << 12];
        cells.extend((0..variables).map(|number| X | number));
        cells
    };
    assert_eq!(refusal(&wide(16)), 0);
    assert_eq!(refusal(&wide(17)), 4);
}

/// A chain of 32 cells that begins with its own symbol.
fn chain(first: u16) -> Vec<u16> {
    let mut cells = vec![0x1000 | (first + 100)];
    cells.extend([G; 30]);
    cells.push(X);
    cells
}

/// The book that 128 chains fill, rule n being chain n.
fn full_of_chains() -> Book {
    let mut book = Book::empty();
    for first in 0..128 {
        book.add(first, term(&chain(first))).expect("taken");
    }
    assert_eq!(book.room(), (128, 4096));
    book
}

#[test]
fn chains_fill_the_nodes() {
    let mut book = full_of_chains();
    // A new first symbol, whatever comes after it, gives 9; the same blank form is taken.
    let new = term(&chain(128));
    assert_eq!(book.add(200, new.clone()), Err(Refusal::NodesFull));
    assert_eq!(book.add(200, term(&[A])), Err(Refusal::NodesFull));
    assert_eq!(book.add(200, term(&[X])), Err(Refusal::NodesFull));
    assert_eq!(book.add(200, term(&chain(7))), Ok(()));
    // Chain 7 is held under two numbers; only without both there is room for a new chain of 32, and for no more.
    assert_eq!(book.remove(7), Ok(()));
    assert_eq!(book.add(201, new.clone()), Err(Refusal::NodesFull));
    assert_eq!(book.remove(200), Ok(()));
    assert_eq!(book.nodes(), 4064);
    assert_eq!(book.add(201, new), Ok(()));
    assert_eq!(book.nodes(), 4096);
    assert_eq!(book.add(7, term(&[A])), Err(Refusal::NodesFull));
}

#[test]
fn a_full_tree_in_records() {
    let mut book = full_of_chains();
    let cells = [0x00c8, A, 0x0007, A, 0x7000];
    let answer = run(&mut book, &cells, 99);
    assert_eq!(answer.stop.number(), 0);
    let wanted = vec![(9, &[][..]), (6, &[]), (0, &[128, 4096])];
    assert_eq!(records(&answer.out), wanted);
}

#[test]
fn five_hundred_and_twelve_rules() {
    let mut book = Book::empty();
    for number in 0..512 {
        assert_eq!(book.add(number * 8, term(&[F, A, X])), Ok(()));
    }
    assert_eq!(book.room(), (512, 3));
    assert_eq!(book.add(8, term(&[B])), Err(Refusal::Held));
    assert_eq!(book.add(9, term(&[B])), Err(Refusal::RulesFull));
    let numbers: Vec<u16> = (0..512).map(|number| number * 8).collect();
    assert_eq!(book.ask(Question::Instances, &term(&[X])), numbers);
    assert_eq!(book.remove(8), Ok(()));
    assert_eq!(book.add(9, term(&[B])), Ok(()));
}

#[test]
fn full_of_rules_and_nodes_gives_8() {
    let mut book = full_of_chains();
    for number in 128..512 {
        let same = term(&chain(number % 128));
        assert_eq!(book.add(number, same), Ok(()));
    }
    assert_eq!(book.room(), (512, 4096));
    assert_eq!(book.add(0, term(&[A])), Err(Refusal::Held));
    assert_eq!(book.add(512, term(&[A])), Err(Refusal::RulesFull));
}

#[test]
fn no_commands_and_no_room() {
    let numbers = |cells: &[u16]| {
        let answer = run(&mut Book::empty(), cells, 0);
        (answer.stop.number(), answer.used, answer.out.len())
    };
    assert_eq!(numbers(&[]), (0, 0, 0));
    assert_eq!(numbers(&[0x7000]), (10, 0, 0));
}

#[test]
fn a_bare_variable_asked() {
    let mut book = Book::empty();
    for (number, cells) in [(3, &[F, X, X][..]), (1, &[X]), (4, &[A]), (2, &[X])] {
        book.add(number, term(cells)).expect("taken");
    }
    let ask = |question| book.ask(question, &term(&[X]));
    assert_eq!(ask(Question::Instances), [1, 2, 3, 4]);
    assert_eq!(ask(Question::Unifiables), [1, 2, 3, 4]);
    assert_eq!(ask(Question::Generalisations), [1, 2]);
    assert_eq!(ask(Question::Variants), [1, 2]);
}

#[test]
fn names() {
    let mut table = vec![0; 64];
    let mut enter = |name: &[u8]| model::names::entered(model::names::enter(&mut table, name));
    assert_eq!(enter(b"cave "), (11, 0));
    assert_eq!(enter(b" "), (11, 0));
    assert_eq!(enter(&[b'n'; 32]), (11, 0));
    assert_eq!(enter(&[b'n'; 31]), (0, 0));
}
