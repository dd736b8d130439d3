//! What reading a typed term gives.

use std::error::Error;
use std::fmt::{self, Display, Formatter};

use crate::ffi::TextRead;
use crate::refusal::Refusal;

/// A term that was read by [`Table::read`](crate::Table::read).
#[derive(Clone, Copy, PartialEq, Eq, Debug)]
pub struct Term {
    cells: [u16; 32],
    size: usize,
    place: usize,
}

impl Term {
    /// Its cells, 1 to 32 of them.
    pub fn cells(&self) -> &[u16] {
        &self.cells[..self.size]
    }

    /// The place in the text after its last byte.
    pub fn place(&self) -> usize {
        self.place
    }
}

/// Why no term was read; the table is as it was. Its `Display` says where to look and what a person can do.
#[derive(Clone, Copy, PartialEq, Eq, Debug)]
pub struct Unread {
    /// The refusal.
    pub refusal: Refusal,
    /// Where no term can go on; only [`Refusal::NoTerm`] has a place.
    pub place: Option<Place>,
}

/// A place in a text.
#[derive(Clone, Copy, PartialEq, Eq, Debug)]
pub struct Place {
    /// The byte's index; the text's length at its end.
    pub byte: usize,
    /// The line, counted from 1.
    pub line: usize,
    /// The byte in the line, counted from 1.
    pub column: usize,
}

impl Place {
    /// The place of a byte, or of the end.
    fn of(text: &[u8], byte: usize) -> Place {
        let before = &text[..byte.min(text.len())];
        let line_start = before.iter().rposition(|byte| *byte == b'\n');
        Place {
            byte,
            line: 1 + before.iter().filter(|byte| **byte == b'\n').count(),
            column: 1 + before.len() - line_start.map_or(0, |newline| newline + 1),
        }
    }
}

impl Display for Unread {
    fn fmt(&self, formatter: &mut Formatter) -> fmt::Result {
        if let Some(Place { line, column, .. }) = self.place {
            write!(formatter, "line {line}, column {column}: ")?;
        }
        match self.refusal {
            // In cells it says more.
            Refusal::Variable => write!(
                formatter,
                "the term has a seventeenth variable (refusal 4): use at most 16"
            ),
            refusal => write!(formatter, "{refusal}"),
        }
    }
}

impl Error for Unread {}

/// The answer of the call for this text.
pub(crate) fn term(text: &[u8], read: TextRead) -> Result<Term, Unread> {
    let place = read.place as usize;
    match Refusal::of(read.refusal) {
        None => Ok(Term {
            cells: read.cells,
            size: read.size as usize,
            place,
        }),
        Some(refusal) => Err(Unread {
            refusal,
            place: (refusal == Refusal::NoTerm).then(|| Place::of(text, place)),
        }),
    }
}

#[cfg(test)]
mod tests {
    use super::*;
    use crate::Table;

    /// The error as a person reads it, with a table of two slots.
    fn said(text: &[u8]) -> String {
        let mut names = Table::new(2).expect("a table");
        let unread = names.read(text).expect_err("it is refused");
        assert_eq!(names.bytes(), [0; 64]);
        unread.to_string()
    }

    #[test]
    fn lines_and_columns() {
        let place = |text: &[u8], byte| {
            let place = Place::of(text, byte);
            (place.line, place.column)
        };
        assert_eq!(place(b"", 0), (1, 1));
        assert_eq!(place(b"f(7)", 2), (1, 3));
        assert_eq!(place(b"f(a,\n  7)", 7), (2, 3));
        assert_eq!(place(b"f(\n\n", 4), (3, 1));
        assert_eq!(place(b"f(\n", 2), (1, 3));
        assert_eq!(place(b"f(", 9), (1, 3));
    }

    #[test]
    fn a_person_can_act_on_it() {
        assert!(said(b"put(lamp,\n    7)").starts_with("line 2, column 5: no term can go on here"));
        assert!(said(b"put(lamp").starts_with("line 1, column 9: "));
        assert!(said(b"f(a,b)").contains("no free slot (refusal 12)"));
        assert!(said(b"'cave '").contains("no name (refusal 11)"));
        assert!(said(b"f(a,a,a,a,a,a,a,a)").contains("at most seven"));
        let variables: Vec<String> = (0..17).map(|n| format!("V{n}")).collect();
        let [one, two, three] = [0..7, 7..14, 14..17].map(|part| variables[part].join(","));
        let text = format!("f(f({one}),f({two}),f({three}))");
        assert!(said(text.as_bytes()).contains("seventeenth variable (refusal 4)"));
        let long = "f(".repeat(33) + "a";
        assert!(said(long.as_bytes()).contains("32 cells (refusal 5)"));
    }

    #[test]
    fn one_after_another() -> Result<(), Unread> {
        let mut names = Table::new(4).expect("a table");
        let text = b"put(lamp, X) 'put'(Y, Y)";
        let first = names.read(text)?;
        assert_eq!(first.cells(), [0x2000, 0x0001, 0x8000]);
        let second = names.read(&text[first.place()..])?;
        assert_eq!(second.cells(), [0x2000, 0x8000, 0x8000]);
        assert_eq!(second.place(), 12);
        Ok(())
    }
}
