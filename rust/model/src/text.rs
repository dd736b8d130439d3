//! Typed terms: a term in the TPTP plain term form, read from bytes into cells.
//!
//! Reading goes from the first byte on and stops where the term ends or at the first fault. Names are only gathered on the
//! way; they get their numbers once the whole term stands, so a refused text has touched nothing.

use crate::names;
use crate::term::{LAST_VARIABLE, MOST_CELLS};

/// The most arguments of a name.
const MOST_ARGUMENTS: usize = 7;

/// Why a text is refused.
#[derive(Clone, Copy, PartialEq, Eq, Hash, Debug)]
pub enum Refusal {
    /// The table has a wrong length or doesn't pass.
    Table,
    /// A seventeenth variable.
    Variable,
    /// A thirty-third cell.
    TooLong,
    /// A word or what stands between quotes is no name.
    NoName,
    /// The new names outnumber the free slots.
    NoSlot,
    /// No term can go on at this place, which is a byte's or the text's end.
    NoTerm(usize),
    /// An eighth argument.
    EighthArgument,
}

impl Refusal {
    /// The reference's refusal number.
    pub fn number(self) -> u16 {
        match self {
            Refusal::Table => 1,
            Refusal::Variable => 4,
            Refusal::TooLong => 5,
            Refusal::NoName => 11,
            Refusal::NoSlot => 12,
            Refusal::NoTerm(_) => 20,
            Refusal::EighthArgument => 21,
        }
    }
}

/// A term that was read.
#[derive(Clone, PartialEq, Eq, Debug)]
pub struct Read {
    /// Its cells.
    pub cells: Vec<u16>,
    /// The place after its last byte.
    pub place: usize,
}

/// What reading answers in numbers.
#[derive(Clone, Copy, PartialEq, Eq, Debug)]
pub struct Answer {
    /// 0, or the refusal's number.
    pub refusal: u16,
    /// The place after the term, or with 20 that of the fault; otherwise 0.
    pub place: usize,
    /// The cells of the term; 0 when refused.
    pub size: usize,
    /// The cells, with zeros behind them; all zeros when refused.
    pub cells: [u16; MOST_CELLS],
}

/// What reading answers in numbers.
pub fn answered(outcome: &Result<Read, Refusal>) -> Answer {
    let mut answer = Answer {
        refusal: 0,
        place: 0,
        size: 0,
        cells: [0; MOST_CELLS],
    };
    match outcome {
        Ok(read) => {
            answer.place = read.place;
            answer.size = read.cells.len();
            answer.cells[..read.cells.len()].copy_from_slice(&read.cells);
        }
        Err(refusal) => {
            answer.refusal = refusal.number();
            if let Refusal::NoTerm(place) = refusal {
                answer.place = *place;
            }
        }
    }
    answer
}

/// Reads one term and enters its names. What stands behind the term isn't judged. Refused, the table is unchanged.
pub fn read(table: &mut [u8], text: &[u8]) -> Result<Read, Refusal> {
    if !names::passes(table) {
        return Err(Refusal::Table);
    }
    let mut reader = Reader {
        text,
        place: 0,
        parts: vec![],
        variables: vec![],
    };
    reader.term(0)?;
    let mut after = table.to_vec();
    let mut cells = vec![];
    for part in &reader.parts {
        cells.push(part.cell(&mut after)?);
    }
    table.copy_from_slice(&after);
    Ok(Read {
        cells,
        place: reader.place,
    })
}

/// What becomes a cell.
enum Part {
    /// A name, which may not have a number yet, with its arguments counted.
    Name { name: Vec<u8>, arguments: usize },
    /// A variable by number.
    Variable(usize),
}

impl Part {
    /// Its cell; a new name takes the first free slot of this table, which passes.
    fn cell(&self, table: &mut [u8]) -> Result<u16, Refusal> {
        match self {
            Part::Variable(number) => Ok(0x8000 | *number as u16),
            Part::Name { name, arguments } => {
                let number = names::slot_for(table, name).ok_or(Refusal::NoSlot)?;
                Ok((*arguments as u16) << 12 | number as u16)
            }
        }
    }
}

/// Goes through a text.
struct Reader<'a> {
    text: &'a [u8],
    place: usize,
    parts: Vec<Part>,
    variables: Vec<&'a [u8]>,
}

impl<'a> Reader<'a> {
    /// The byte at the place; nothing at the end.
    fn byte(&self) -> Option<u8> {
        self.text.get(self.place).copied()
    }

    /// No term can go on at the place.
    fn no_term<T>(&self) -> Result<T, Refusal> {
        Err(Refusal::NoTerm(self.place))
    }

    /// Past spaces, tabs, newlines and comments. A comment ends before its newline.
    fn blanks(&mut self) {
        let mut in_comment = false;
        while let Some(byte) = self.byte() {
            in_comment = (in_comment || byte == b'%') && byte != b'\n';
            if !in_comment && !matches!(byte, b' ' | b'\t' | b'\n') {
                return;
            }
            self.place += 1;
        }
    }

    /// A term, which is the argument with this number, counted from 1; the whole term has number 0.
    fn term(&mut self, argument: usize) -> Result<(), Refusal> {
        self.blanks();
        let Some(first @ (b'a'..=b'z' | b'A'..=b'Z' | b'\'')) = self.byte() else {
            return self.no_term();
        };
        if argument > MOST_ARGUMENTS {
            return Err(Refusal::EighthArgument);
        }
        if self.parts.len() == MOST_CELLS {
            return Err(Refusal::TooLong);
        }
        match first {
            b'A'..=b'Z' => self.variable(),
            b'\'' => {
                let name = self.quoted()?;
                self.name(name)
            }
            _ => {
                let name = self.word().to_vec();
                self.name(name)
            }
        }
    }

    /// A word: letters, digits and `_` as far as they go.
    fn word(&mut self) -> &'a [u8] {
        let start = self.place;
        while let Some(b'a'..=b'z' | b'A'..=b'Z' | b'0'..=b'9' | b'_') = self.byte() {
            self.place += 1;
        }
        &self.text[start..self.place]
    }

    /// A variable: the number of its word among the variables so far, or the next one.
    fn variable(&mut self) -> Result<(), Refusal> {
        let word = self.word();
        let known = self.variables.iter().position(|known| *known == word);
        let number = known.unwrap_or_else(|| {
            self.variables.push(word);
            self.variables.len() - 1
        });
        if number > usize::from(LAST_VARIABLE) {
            return Err(Refusal::Variable);
        }
        self.parts.push(Part::Variable(number));
        Ok(())
    }

    /// What stands between quotes; behind it the place is past the closing one.
    fn quoted(&mut self) -> Result<Vec<u8>, Refusal> {
        let mut name = vec![];
        loop {
            self.place += 1;
            match self.byte() {
                None => return self.no_term(),
                Some(b'\'') => break,
                Some(b'\\') => {
                    self.place += 1;
                    match self.byte() {
                        Some(byte @ (b'\'' | b'\\')) => name.push(byte),
                        _ => return self.no_term(),
                    }
                }
                Some(byte) => name.push(byte),
            }
        }
        self.place += 1;
        Ok(name)
    }

    /// A name and, where a bracket follows, its arguments.
    fn name(&mut self, name: Vec<u8>) -> Result<(), Refusal> {
        if !names::is_name(&name) {
            return Err(Refusal::NoName);
        }
        let own = self.parts.len();
        self.parts.push(Part::Name { name, arguments: 0 });
        let end = self.place;
        self.blanks();
        if self.byte() != Some(b'(') {
            self.place = end;
            return Ok(());
        }
        let count = self.arguments()?;
        if let Part::Name { arguments, .. } = &mut self.parts[own] {
            *arguments = count;
        }
        Ok(())
    }

    /// From an opening bracket past the closing one; how many arguments stand between.
    fn arguments(&mut self) -> Result<usize, Refusal> {
        let mut count = 0;
        loop {
            // The bracket, or the comma.
            self.place += 1;
            count += 1;
            self.term(count)?;
            self.blanks();
            match self.byte() {
                Some(b',') => (),
                Some(b')') => break,
                _ => return self.no_term(),
            }
        }
        self.place += 1;
        Ok(count)
    }
}
