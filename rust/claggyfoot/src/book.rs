//! The rule book.

use crate::ffi;
use crate::refusal::{Refusal, Stop};

/// Numbered rules, at most 512, in one piece of memory that the proved calls read and write.
///
/// ```
/// use claggyfoot::{records, Batch, Book, Refusal};
///
/// # fn main() -> Result<(), Box<dyn std::error::Error>> {
/// let mut batch = Batch::new();
/// batch.add(5, &[0x2001, 0x0002, 0x8000])?.add(5, &[0x0002])?;
///
/// let mut book = Book::empty();
/// let mut out = [0; 16];
/// let ended = book.run(batch.cells(), &mut out);
/// let refusals: Vec<_> = records(&out[..ended.written]).map(|record| record.refusal).collect();
/// assert_eq!(refusals, [None, Some(Refusal::Held)]);
///
/// // A book's words can be kept and taken up again.
/// let again = Book::from_words(book.words().to_vec())?;
/// assert_eq!(again.words(), book.words());
/// assert_eq!(Book::from_words(vec![0; 3]).err(), Some(Refusal::Memory));
/// # Ok(())
/// # }
/// ```
#[derive(Clone, Debug)]
pub struct Book {
    words: Vec<u64>,
}

/// How a batch ended.
#[derive(Clone, Copy, PartialEq, Eq, Debug)]
pub struct Ended {
    /// Done, or why it stopped.
    pub stop: Stop,
    /// Command cells used; the command at which it stopped isn't counted.
    pub used: usize,
    /// Output cells written.
    pub written: usize,
}

impl Book {
    /// The book without rules.
    pub fn empty() -> Book {
        let mut words = vec![0; ffi::book_words()];
        let refusal = ffi::book_empty(&mut words);
        assert_eq!(refusal, 0, "the length is a book's");
        Book { words }
    }

    /// The book that these words are, or [`Refusal::Memory`] where they aren't one.
    pub fn from_words(words: Vec<u64>) -> Result<Book, Refusal> {
        match ffi::book_passes(&words) {
            0 => Ok(Book { words }),
            _ => Err(Refusal::Memory),
        }
    }

    /// The book's words. Which words stand for a set of rules depends on the past; what the book answers doesn't.
    pub fn words(&self) -> &[u64] {
        &self.words
    }

    /// Runs commands in turn and writes a record for each to the front of `out`. A command whose record doesn't fit has no
    /// effect, and the batch stops there: `commands[used..]` can be run again with more room.
    ///
    /// The commands may be any cells: those of a [`Batch`](crate::Batch), or others.
    pub fn run(&mut self, commands: &[u16], out: &mut [u16]) -> Ended {
        let ended = ffi::batch(&mut self.words, commands, out);
        Ended {
            stop: Refusal::of(ended.stop).map_or(Stop::Done, Stop::At),
            used: ended.used as usize,
            written: ended.written as usize,
        }
    }
}

#[cfg(test)]
mod tests {
    use super::*;
    use crate::{records, Batch};

    #[test]
    fn what_does_not_fit_can_be_run_again() -> Result<(), crate::NoCommand> {
        let mut batch = Batch::new();
        batch.add(3, &[0x8000])?.show(3)?.room();
        let mut book = Book::empty();
        let mut out = [7; 9];
        let ended = book.run(batch.cells(), &mut out[..2]);
        assert_eq!(ended.stop, Stop::At(Refusal::NoRoom));
        assert_eq!((ended.used, ended.written), (2, 1));
        let ended = book.run(&batch.cells()[2..], &mut out);
        assert_eq!((ended.stop, ended.written), (Stop::Done, 5));
        let cells: Vec<&[u16]> = records(&out[..5]).map(|record| record.cells).collect();
        assert_eq!(cells, [&[0x8000][..], &[1, 1]]);
        assert_eq!(out[5..], [7; 4]);
        Ok(())
    }

    #[test]
    fn each_stop_has_its_name() {
        let stop = |cells: &[u16]| Book::empty().run(cells, &mut [0; 4]).stop;
        assert_eq!(stop(&[]), Stop::Done);
        assert_eq!(stop(&[0xf000]), Stop::At(Refusal::Command));
        assert_eq!(stop(&[0x3000]), Stop::At(Refusal::CutShort));
        assert_eq!(stop(&[0x3000, 0x8001]), Stop::At(Refusal::Variable));
        let long = [vec![0x3000], vec![0x1004; 32]].concat();
        assert_eq!(stop(&long), Stop::At(Refusal::TooLong));
        assert_eq!(stop(&[0x7000; 2]), Stop::At(Refusal::NoRoom));
    }

    #[test]
    fn damaged_words_are_no_book() {
        let mut words = Book::empty().words().to_vec();
        words[0] = 1;
        assert_eq!(Book::from_words(words).err(), Some(Refusal::Memory));
        assert_eq!(Book::from_words(vec![]).err(), Some(Refusal::Memory));
    }
}
