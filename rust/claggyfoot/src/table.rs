//! The name table.

use crate::ffi;
use crate::refusal::Refusal;
use crate::text::{term, Term, Unread};

/// The bytes of a slot.
const SLOT: usize = 32;

/// Names and their numbers. A space is a character, and no call trims.
///
/// ```
/// use claggyfoot::{Refusal, Table};
///
/// # fn main() -> Result<(), Refusal> {
/// let mut names = Table::new(2)?;
/// assert_eq!(names.enter(b"dark cave")?, 0);
/// assert_eq!(names.enter(b"dark  cave")?, 1);
/// assert_eq!(names.enter(b"dark cave")?, 0);
/// assert_eq!(names.name_of(1)?, b"dark  cave");
/// assert_eq!(names.enter(b"cave "), Err(Refusal::NoName));
/// assert_eq!(names.enter(b"lamp"), Err(Refusal::NoSlot));
/// # Ok(())
/// # }
/// ```
#[derive(Clone, Debug)]
pub struct Table {
    bytes: Vec<u8>,
}

impl Table {
    /// The most slots of a table.
    pub const MOST_SLOTS: usize = 1_024;

    /// A table of so many free slots, 1 to 1,024; [`Refusal::Memory`] for any other count.
    pub fn new(slots: usize) -> Result<Table, Refusal> {
        if slots > Table::MOST_SLOTS {
            return Err(Refusal::Memory);
        }
        Table::from_bytes(vec![0; SLOT * slots])
    }

    /// The table that these bytes are, or [`Refusal::Memory`] where they aren't one.
    pub fn from_bytes(bytes: Vec<u8>) -> Result<Table, Refusal> {
        // No table has so high a number, so the answer is 13 for a table and 1 for what is none.
        let refusal = Refusal::of(ffi::name_of(&bytes, u64::MAX).refusal);
        match refusal {
            Some(Refusal::Memory) => Err(Refusal::Memory),
            _ => Ok(Table { bytes }),
        }
    }

    /// The table's bytes.
    pub fn bytes(&self) -> &[u8] {
        &self.bytes
    }

    /// The name's number; a new name takes the first free slot.
    pub fn enter(&mut self, name: &[u8]) -> Result<u16, Refusal> {
        let entered = ffi::name_enter(&mut self.bytes, name);
        match Refusal::of(entered.refusal) {
            None => Ok(entered.number as u16),
            Some(refusal) => Err(refusal),
        }
    }

    /// Reads one typed term from the front of a text, and enters its names. What follows the term isn't judged: the
    /// next one can be read from `text[term.place()..]`.
    ///
    /// ```
    /// use claggyfoot::Table;
    ///
    /// # fn main() -> Result<(), Box<dyn std::error::Error>> {
    /// let mut names = Table::new(8)?;
    /// let rule = names.read(b"put(lamp, X)   % onto anything")?;
    /// assert_eq!(rule.cells(), [0x2000, 0x0001, 0x8000]);
    /// assert_eq!(rule.place(), 12);
    /// assert_eq!(names.name_of(1)?, b"lamp");
    ///
    /// let unread = names.read(b"put(lamp,\n    7)").unwrap_err();
    /// assert!(unread.to_string().starts_with("line 2, column 5: "));
    /// # Ok(())
    /// # }
    /// ```
    pub fn read(&mut self, text: &[u8]) -> Result<Term, Unread> {
        term(text, ffi::text_read(&mut self.bytes, text))
    }

    /// The name with a number.
    pub fn name_of(&self, number: u16) -> Result<&[u8], Refusal> {
        let place = ffi::name_of(&self.bytes, u64::from(number));
        match Refusal::of(place.refusal) {
            None => Ok(&self.bytes[place.start as usize..][..place.length as usize]),
            Some(refusal) => Err(refusal),
        }
    }
}

#[cfg(test)]
mod tests {
    use super::*;

    #[test]
    fn slots_are_1_to_1024() {
        for slots in [0, 1_025, usize::MAX] {
            assert_eq!(Table::new(slots).err(), Some(Refusal::Memory));
        }
        for slots in [1, 1_024] {
            assert_eq!(Table::new(slots).map(|t| t.bytes().len()), Ok(32 * slots));
        }
    }

    #[test]
    fn bytes_are_taken_up_again() -> Result<(), Refusal> {
        let mut table = Table::new(3)?;
        table.enter(b"lamp")?;
        let again = Table::from_bytes(table.bytes().to_vec())?;
        assert_eq!(again.name_of(0)?, b"lamp");
        assert_eq!(again.name_of(1), Err(Refusal::NoSuchName));
        let mut damaged = table.bytes().to_vec();
        damaged[5] = 1;
        assert_eq!(Table::from_bytes(damaged).err(), Some(Refusal::Memory));
        Ok(())
    }
}
