//! A rule book for text adventures that is proved never to miss a rule.
//!
//! A rule is a number with a term. Terms are typed as text, and become rows of 16-bit cells in preorder ([`cell`]). The
//! [`Table`] reads them and gives names their numbers. The [`Book`] holds the rules and runs batches of commands: add,
//! remove, show, room, and the four questions. A [`Batch`] writes commands, and [`records`] reads what came out.
//!
//! ```
//! use claggyfoot::{records, Batch, Book, Stop, Table};
//!
//! # fn main() -> Result<(), Box<dyn std::error::Error>> {
//! let mut names = Table::new(64)?;
//! let rule = names.read(b"put(lamp, X)")?;
//! let typed = names.read(b"put(lamp, 'dark cave')")?;
//!
//! // Which rules could apply to what was typed?
//! let mut batch = Batch::new();
//! batch.add(5, rule.cells())?;
//! batch.generalisations(typed.cells())?;
//!
//! let mut book = Book::empty();
//! let mut out = [0; 100];
//! let ended = book.run(batch.cells(), &mut out);
//! assert_eq!(ended.stop, Stop::Done);
//!
//! let answers: Vec<&[u16]> = records(&out[..ended.written]).map(|record| record.cells).collect();
//! assert_eq!(answers, [&[][..], &[5]]);
//! # Ok(())
//! # }
//! ```
//!
//! The calls themselves are proved; this crate only lends them memory. All `unsafe` stands in [`ffi`].

#![deny(unsafe_code)]

mod batch;
mod book;
pub mod cell;
#[allow(unsafe_code)]
pub mod ffi;
mod records;
mod refusal;
mod table;
mod text;

pub use batch::{Batch, NoCommand};
pub use book::{Book, Ended};
pub use records::{records, Record, Records};
pub use refusal::{Refusal, Stop};
pub use table::Table;
pub use text::{Place, Term, Unread};
