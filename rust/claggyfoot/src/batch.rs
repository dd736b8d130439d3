//! Commands written as cells.

use std::error::Error;
use std::fmt::{self, Display, Formatter};

use crate::cell::{arguments, at_most, TooHigh, LAST_NUMBER};

/// Writes the cells of a batch, command after command.
///
/// Each command must be one that can't be taken for two: a number has 12 bits, and its cells end where the term ends. All
/// else is for the book to judge when the batch is run.
///
/// ```
/// use claggyfoot::Batch;
///
/// # fn main() -> Result<(), claggyfoot::NoCommand> {
/// let mut batch = Batch::new();
/// batch.add(5, &[0x2001, 0x0002, 0x8000])?.show(5)?.room();
/// assert_eq!(batch.cells(), [0x0005, 0x2001, 0x0002, 0x8000, 0x6005, 0x7000]);
/// assert!(batch.add(4_096, &[0x0002]).is_err());
/// assert!(batch.instances(&[0x2001, 0x0002]).is_err());
/// # Ok(())
/// # }
/// ```
#[derive(Clone, PartialEq, Eq, Default, Debug)]
pub struct Batch {
    cells: Vec<u16>,
}

/// Why no command was written; the batch is as it was.
#[derive(Clone, Copy, PartialEq, Eq, Debug)]
pub enum NoCommand {
    /// A rule's number is 0 to 4,095.
    Number(TooHigh),
    /// The cells don't end where the term ends.
    Term,
}

impl From<TooHigh> for NoCommand {
    fn from(too_high: TooHigh) -> NoCommand {
        NoCommand::Number(too_high)
    }
}

impl Display for NoCommand {
    fn fmt(&self, formatter: &mut Formatter) -> fmt::Result {
        match self {
            NoCommand::Number(too_high) => write!(formatter, "a rule's number: {too_high}"),
            NoCommand::Term => write!(formatter, "the cells don't end where the term ends"),
        }
    }
}

impl Error for NoCommand {}

impl Batch {
    /// No command yet.
    pub fn new() -> Batch {
        Batch::default()
    }

    /// The cells of all commands so far.
    pub fn cells(&self) -> &[u16] {
        &self.cells
    }

    /// Add a rule. Its record is empty.
    pub fn add(&mut self, number: u16, term: &[u16]) -> Result<&mut Batch, NoCommand> {
        self.with_term(at_most(number, LAST_NUMBER)?, term)
    }

    /// Remove a rule. Its record is empty.
    pub fn remove(&mut self, number: u16) -> Result<&mut Batch, NoCommand> {
        Ok(self.put(0x1000 | at_most(number, LAST_NUMBER)?))
    }

    /// Which rules have the same blank form as this term? The record holds their numbers, ascending.
    pub fn variants(&mut self, term: &[u16]) -> Result<&mut Batch, NoCommand> {
        self.with_term(0x2000, term)
    }

    /// Which rules does this term cover?
    pub fn instances(&mut self, term: &[u16]) -> Result<&mut Batch, NoCommand> {
        self.with_term(0x3000, term)
    }

    /// Which rules cover this term?
    pub fn generalisations(&mut self, term: &[u16]) -> Result<&mut Batch, NoCommand> {
        self.with_term(0x4000, term)
    }

    /// Which rules can meet this term?
    pub fn unifiables(&mut self, term: &[u16]) -> Result<&mut Batch, NoCommand> {
        self.with_term(0x5000, term)
    }

    /// Show a rule. The record holds its cells.
    pub fn show(&mut self, number: u16) -> Result<&mut Batch, NoCommand> {
        Ok(self.put(0x6000 | at_most(number, LAST_NUMBER)?))
    }

    /// The record holds the rules held and the node count.
    pub fn room(&mut self) -> &mut Batch {
        self.put(0x7000)
    }

    fn put(&mut self, cell: u16) -> &mut Batch {
        self.cells.push(cell);
        self
    }

    fn with_term(&mut self, command: u16, term: &[u16]) -> Result<&mut Batch, NoCommand> {
        if !is_whole(term) {
            return Err(NoCommand::Term);
        }
        self.cells.push(command);
        self.cells.extend(term);
        Ok(self)
    }
}

/// Does the one subterm wanted at first end with the last cell, and not before?
fn is_whole(term: &[u16]) -> bool {
    let mut wanted = 1;
    for cell in term {
        if wanted == 0 {
            return false;
        }
        wanted = wanted - 1 + arguments(*cell);
    }
    wanted == 0
}

#[cfg(test)]
mod tests {
    use super::*;

    #[test]
    fn a_refused_command_writes_nothing() {
        let mut batch = Batch::new();
        batch.room();
        for term in [&[][..], &[0x2001, 0x0002], &[0x0002, 0x0002], &[0x1001]] {
            assert_eq!(batch.add(1, term), Err(NoCommand::Term));
            assert_eq!(batch.unifiables(term), Err(NoCommand::Term));
        }
        for number in [4_096, 0xffff] {
            assert!(batch.add(number, &[0x0002]).is_err());
            assert!(batch.remove(number).is_err());
            assert!(batch.show(number).is_err());
        }
        assert_eq!(batch.cells(), [0x7000]);
    }

    #[test]
    fn kinds_are_in_the_upper_bits() -> Result<(), NoCommand> {
        let mut batch = Batch::new();
        let x = [0x8000];
        batch.variants(&x)?.instances(&x)?;
        batch.generalisations(&x)?.unifiables(&x)?;
        batch.remove(9)?.show(4_095)?.add(0, &x)?;
        let wanted = [
            0x2000, 0x8000, 0x3000, 0x8000, 0x4000, 0x8000, 0x5000, 0x8000, 0x1009, 0x6fff, 0x0000,
            0x8000,
        ];
        assert_eq!(batch.cells(), wanted);
        Ok(())
    }
}
