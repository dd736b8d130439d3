//! What a batch writes, taken apart.

use crate::refusal::Refusal;

/// The answer to one command.
#[derive(Clone, Copy, PartialEq, Eq, Debug)]
pub struct Record<'a> {
    /// Why the command was refused, if it was.
    pub refusal: Option<Refusal>,
    /// Rule numbers for a question, a rule's cells for show, two counts for room; nothing when refused.
    pub cells: &'a [u16],
}

/// The records that a batch wrote, in the order of its commands.
///
/// ```
/// use claggyfoot::{records, Refusal};
///
/// let all: Vec<_> = records(&[0x0002, 5, 9, 0x7000]).collect();
/// assert_eq!(all[0].cells, [5, 9]);
/// assert_eq!(all[1].refusal, Some(Refusal::NotHeld));
/// ```
pub fn records(out: &[u16]) -> Records<'_> {
    Records { left: out }
}

/// Goes through records; it ends where the cells aren't a whole record.
#[derive(Clone, Debug)]
pub struct Records<'a> {
    left: &'a [u16],
}

impl<'a> Records<'a> {
    /// The cells not gone through: none, once all records have been, if the cells came from a batch.
    pub fn rest(&self) -> &'a [u16] {
        self.left
    }
}

impl<'a> Iterator for Records<'a> {
    type Item = Record<'a>;

    fn next(&mut self) -> Option<Record<'a>> {
        let (head, after) = self.left.split_first()?;
        let refusal = Refusal::of(u64::from(head >> 12));
        let (cells, left) = after.split_at_checked(usize::from(head & 0x0fff))?;
        self.left = left;
        Some(Record { refusal, cells })
    }
}

#[cfg(test)]
mod tests {
    use super::*;

    #[test]
    fn what_is_no_record_is_left() {
        for out in [&[0x0003, 1, 2][..], &[0x6001]] {
            let mut all = records(out);
            assert_eq!(all.next(), None);
            assert_eq!(all.rest(), out);
        }
        let mut all = records(&[0x6000, 0x0001]);
        assert_eq!(all.by_ref().count(), 1);
        assert_eq!(all.rest(), [0x0001]);
    }
}
