//! Cells: the 16 bits of which terms are made.
//!
//! ```
//! use claggyfoot::cell;
//!
//! assert_eq!(cell::symbol(1, 2), Ok(0x2001));
//! assert_eq!(cell::variable(0), Ok(0x8000));
//! assert!(cell::symbol(4_096, 0).is_err());
//! ```

use std::error::Error;
use std::fmt::{self, Display, Formatter};

/// The highest number of a name or of a rule: both have 12 bits.
pub const LAST_NUMBER: u16 = 4_095;

/// The most arguments of a symbol.
pub const MOST_ARGUMENTS: u16 = 7;

/// The highest number of a variable.
pub const LAST_VARIABLE: u16 = 15;

/// A number that doesn't fit in its field of a cell.
#[derive(Clone, Copy, PartialEq, Eq, Debug)]
pub struct TooHigh {
    /// The number.
    pub number: u16,
    /// The highest that fits.
    pub last: u16,
}

impl Display for TooHigh {
    fn fmt(&self, formatter: &mut Formatter) -> fmt::Result {
        write!(formatter, "{} is above {}", self.number, self.last)
    }
}

impl Error for TooHigh {}

/// The number itself, where it is at most `last`.
pub(crate) fn at_most(number: u16, last: u16) -> Result<u16, TooHigh> {
    if number > last {
        return Err(TooHigh { number, last });
    }
    Ok(number)
}

/// The cell of a symbol: a name's number, 0 to 4,095, with so many arguments, 0 to 7.
pub fn symbol(name: u16, arguments: u16) -> Result<u16, TooHigh> {
    Ok(at_most(arguments, MOST_ARGUMENTS)? << 12 | at_most(name, LAST_NUMBER)?)
}

/// The cell of a variable, 0 to 15. In a term the first new variable is 0, the next new one 1, and so on.
pub fn variable(number: u16) -> Result<u16, TooHigh> {
    Ok(0x8000 | at_most(number, LAST_VARIABLE)?)
}

/// How many arguments a cell calls for; a variable has none.
pub(crate) fn arguments(cell: u16) -> usize {
    if cell < 0x8000 {
        usize::from(cell >> 12)
    } else {
        0
    }
}
