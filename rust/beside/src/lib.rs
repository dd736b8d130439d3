//! The proved archive beside the model: what the tests, the soak and the tests of the session program share.

pub mod book_calls;
pub mod both;
pub mod lent;
pub mod memory;
pub mod shapes;
pub mod tables;
pub mod texts;
