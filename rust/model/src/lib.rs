//! The rule book of the reference, said again in the most direct way.
//!
//! This is the independent second implementation: it is written from the reference alone, so that running it beside the
//! proved one shows a slip in either. Clarity goes before speed everywhere: a rule is tested one by one, the node
//! count is the size of a set of beginnings, and a question is answered by trying to fill blanks.
#![forbid(unsafe_code)]

pub mod batch;
pub mod book;
pub mod names;
pub mod questions;
pub mod random;
pub mod session;
pub mod term;
pub mod text;
pub mod typing;
