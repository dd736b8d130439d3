//! The batch call: commands out of cells, records into cells.

use crate::book::{Book, Refusal};
use crate::questions::Question;
use crate::term::{Fault, Term};

/// A command cell, 4 bits kind and 12 bits number, with what comes after it.
#[derive(Clone, PartialEq, Eq, Debug)]
pub enum Command {
    /// Kind 0: add rule.
    Add(u16, Term),
    /// Kind 1: remove rule.
    Remove(u16),
    /// Kinds 2, 3, 4, 5: one of the four questions.
    Ask(Question, Term),
    /// Kind 6: show rule.
    Show(u16),
    /// Kind 7: room.
    Room,
}

impl Command {
    /// Reads the command that begins at `start` and answers it with the number of its cells. What the command cell
    /// says is looked at before its term.
    fn read(cells: &[u16], start: usize) -> Result<(Command, usize), Stop> {
        let (kind, number) = (cells[start] >> 12, cells[start] & 0x0fff);
        match (kind, number) {
            (0, _) => {
                let term = Term::read(cells, start + 1).map_err(Stop::Term)?;
                let length = 1 + term.cells().len();
                Ok((Command::Add(number, term), length))
            }
            (1, _) => Ok((Command::Remove(number), 1)),
            (2..=5, 0) => {
                let term = Term::read(cells, start + 1).map_err(Stop::Term)?;
                let length = 1 + term.cells().len();
                let question = Question::ALL[usize::from(kind - 2)];
                Ok((Command::Ask(question, term), length))
            }
            (6, _) => Ok((Command::Show(number), 1)),
            (7, 0) => Ok((Command::Room, 1)),
            _ => Err(Stop::Command),
        }
    }

    /// Carries the command out on a book and gives the cells of a good record.
    fn carry_out(self, book: &mut Book) -> Result<Vec<u16>, Refusal> {
        match self {
            Command::Add(number, term) => book.add(number, term).map(|()| vec![]),
            Command::Remove(number) => book.remove(number).map(|()| vec![]),
            Command::Ask(question, term) => Ok(book.ask(question, &term)),
            Command::Show(number) => book.show(number).map(<[u16]>::to_vec),
            Command::Room => {
                let (rules, nodes) = book.room();
                Ok(vec![rules as u16, nodes as u16])
            }
        }
    }
}

/// Why a batch ended. Stop number 1 speaks of lent memory, which a model book isn't.
#[derive(Clone, Copy, PartialEq, Eq, Debug)]
pub enum Stop {
    /// All cells are used.
    Done,
    /// Kind 8 to 15, or number not 0 where it must be.
    Command,
    /// A term fault, with its place counted from the term's start.
    Term(Fault),
    /// The record doesn't fit in the output left.
    NoRoom,
}

impl Stop {
    /// The reference's stop number.
    pub fn number(self) -> u16 {
        match self {
            Stop::Done => 0,
            Stop::Command => 2,
            Stop::Term(fault) => fault.number(),
            Stop::NoRoom => 10,
        }
    }
}

/// What a batch answers; the cells written are the length of `out`.
#[derive(Clone, PartialEq, Eq, Debug)]
pub struct Answer {
    /// Why it ended.
    pub stop: Stop,
    /// Cells of the commands before the one at which it stopped.
    pub used: usize,
    /// The records, one after the other.
    pub out: Vec<u16>,
}

/// A record: one cell (4 bits refusal, 12 bits count) and then that many cells.
fn record(refusal: u16, cells: &[u16]) -> Vec<u16> {
    let head = refusal << 12 | cells.len() as u16;
    [&[head], cells].concat()
}

/// The record of a command that was read.
fn record_of(answer: Result<Vec<u16>, Refusal>) -> Vec<u16> {
    match answer {
        Ok(cells) => record(0, &cells),
        Err(refusal) => record(refusal.number(), &[]),
    }
}

/// Runs the commands in turn on the book, with room for so many output cells.
pub fn run(book: &mut Book, cells: &[u16], room: usize) -> Answer {
    let (mut used, mut out) = (0, vec![]);
    while used < cells.len() {
        // The command works on a copy, which becomes the book only once its record is known to fit.
        let mut after = book.clone();
        let (record, read) = match Command::read(cells, used) {
            Ok((command, length)) => (record_of(command.carry_out(&mut after)), Ok(length)),
            Err(stop) => (record(stop.number(), &[]), Err(stop)),
        };
        if record.len() > room - out.len() {
            let stop = Stop::NoRoom;
            return Answer { stop, used, out };
        }
        out.extend(record);
        match read {
            Ok(length) => used += length,
            Err(stop) => return Answer { stop, used, out },
        }
        *book = after;
    }
    let stop = Stop::Done;
    Answer { stop, used, out }
}

/// Takes the output of a batch apart again: refusal and cells of each record.
///
/// # Panics
/// When the cells aren't whole records.
pub fn records(out: &[u16]) -> Vec<(u16, &[u16])> {
    let mut records = vec![];
    let mut left = out;
    while let Some((head, rest)) = left.split_first() {
        let (cells, after) = rest.split_at(usize::from(head & 0x0fff));
        records.push((head >> 12, cells));
        left = after;
    }
    records
}

#[cfg(test)]
mod tests {
    use super::*;
    use crate::random::{commands, Random};

    /// Runs on a book and gives the reference's numbers.
    fn numbers(book: &mut Book, cells: &[u16], room: usize) -> (u16, usize, Vec<u16>) {
        let answer = run(book, cells, room);
        (answer.stop.number(), answer.used, answer.out)
    }

    /// A book with rule 5, the constant a.
    fn book_with_5() -> Book {
        let mut book = Book::empty();
        let answer = numbers(&mut book, &[0x0005, 0x0002], 1);
        assert_eq!(answer, (0, 2, vec![0]));
        book
    }

    #[test]
    fn no_commands() {
        assert_eq!(numbers(&mut Book::empty(), &[], 0), (0, 0, vec![]));
        assert_eq!(numbers(&mut Book::empty(), &[], 9), (0, 0, vec![]));
    }

    #[test]
    fn no_output_room() {
        for cells in [&[0x7000][..], &[0x0005, 0x0002], &[0x1005], &[0xffff], &[0]] {
            let mut book = book_with_5();
            assert_eq!(numbers(&mut book, cells, 0), (10, 0, vec![]));
            assert_eq!(book, book_with_5());
        }
    }

    #[test]
    fn kinds_8_to_15_and_numbers_that_must_be_0() {
        for kind in 0..16 {
            for number in [0, 1, 4095] {
                let cells = [kind << 12 | number, 0x8000];
                let (stop, used, out) = numbers(&mut book_with_5(), &cells, 99);
                let refused = kind > 7 || number != 0 && matches!(kind, 2..=5 | 7);
                assert_eq!(stop == 2 && used == 0, refused, "{cells:x?}");
                assert_eq!(out == [0x2000], refused, "{cells:x?}");
            }
        }
    }

    #[test]
    fn number_faults_go_before_term_faults() {
        let answer = numbers(&mut Book::empty(), &[0x3001, 0xffff], 1);
        assert_eq!(answer, (2, 0, vec![0x2000]));
    }

    #[test]
    fn term_faults_go_before_6_and_stop() {
        for (cells, stop) in [
            (vec![0x0005], 3),
            (vec![0x0005, 0x8001], 4),
            ([vec![0x0005], vec![0x1001; 32]].concat(), 5),
        ] {
            let mut book = book_with_5();
            let answer = numbers(&mut book, &cells, 9);
            assert_eq!(answer, (stop, 0, vec![stop << 12]));
            assert_eq!(book, book_with_5());
        }
    }

    #[test]
    fn refusals_6_and_7_go_on() {
        let cells = [0x0005, 0x0003, 0x1004, 0x6004, 0x6005];
        let answer = numbers(&mut book_with_5(), &cells, 9);
        assert_eq!(answer, (0, 5, vec![0x6000, 0x7000, 0x7000, 1, 2]));
    }

    #[test]
    fn what_does_not_fit_has_no_effect_and_earlier_commands_keep_theirs() {
        let mut book = book_with_5();
        let cells = [0x0006, 0x8000, 0x1005];
        assert_eq!(numbers(&mut book, &cells, 1), (10, 2, vec![0]));
        assert_eq!(book.rules().keys().collect::<Vec<_>>(), [&5, &6]);
        // A refused record, go on or stop, is replaced by 10 too.
        let cells = [0x1005, 0x1005];
        assert_eq!(numbers(&mut book, &cells, 1), (10, 1, vec![0]));
        let cells = [0x1006, 0xf000];
        assert_eq!(numbers(&mut book, &cells, 1), (10, 1, vec![0]));
        assert_eq!(book, Book::empty());
    }

    #[test]
    fn a_record_of_several_cells_fits_whole_or_not_at_all() {
        let cells = [0x7000];
        for room in 0..3 {
            let answer = numbers(&mut book_with_5(), &cells, room);
            assert_eq!(answer, (10, 0, vec![]));
        }
        let answer = numbers(&mut book_with_5(), &cells, 3);
        assert_eq!(answer, (0, 1, vec![2, 1, 1]));
        let cells = [0x3000, 0x8000];
        assert_eq!(numbers(&mut book_with_5(), &cells, 1).0, 10);
        assert_eq!(numbers(&mut book_with_5(), &cells, 2).2, [1, 5]);
    }

    #[test]
    fn a_list_of_none_has_refusal_0() {
        let answer = numbers(&mut book_with_5(), &[0x2000, 0x0003], 1);
        assert_eq!(answer, (0, 2, vec![0]));
    }

    /// Cutting a batch in two at a command's start changes nothing but where the answers stand.
    #[test]
    fn a_batch_is_its_commands_in_turn() {
        let mut random = Random::new(31);
        for _ in 0..300 {
            let cells = commands(&mut random, 40, 60);
            let mut whole_book = Book::empty();
            let whole = run(&mut whole_book, &cells, 4096);
            let mut book = Book::empty();
            let mut out = vec![];
            let mut used = 0;
            let stop = loop {
                let room = whole.out.len() - out.len();
                let end = (used + 33).min(cells.len());
                let answer = one_command(&mut book, &cells[used..end], room);
                out.extend(answer.out);
                used += answer.used;
                if answer.stop != Stop::Done || used == cells.len() {
                    break answer.stop;
                }
            };
            assert_eq!(Answer { stop, used, out }, whole);
            assert_eq!(book, whole_book);
        }
    }

    /// Runs the first command of a row alone.
    fn one_command(book: &mut Book, cells: &[u16], room: usize) -> Answer {
        let first = match Command::read(cells, 0) {
            Ok((_, length)) => &cells[..length],
            Err(_) => cells,
        };
        run(book, first, room)
    }

    #[test]
    fn records_come_apart() {
        let out = [0, 0x7000, 2, 9, 10];
        let wanted = vec![(0, &[][..]), (7, &[]), (0, &[9, 10])];
        assert_eq!(records(&out), wanted);
    }
}
