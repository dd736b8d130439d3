//! The proved archive beside the model, in small turns: a short run is a test, and the program goes on for as long as told.
//! Every buffer is lent between guards. The first difference panics and says what was tried.

#![forbid(unsafe_code)]

pub mod borders;
pub mod counts;
pub mod histories;
pub mod memories;
pub mod rooms;
pub mod rows;
pub mod tables;
pub mod terms;
pub mod texts;

use counts::Counts;
use model::random::Random;

/// One kind of comparison, done turn by turn.
pub trait Part {
    /// A small piece of it, counted.
    fn turn(&mut self, random: &mut Random, counts: &mut Counts);
}

/// All parts, each with how many turns a short run takes of it.
pub fn parts() -> Vec<(Box<dyn Part>, usize)> {
    vec![
        (Box::new(terms::Pairs::new()), terms::PASS),
        (Box::new(terms::Together::new()), 10),
        (Box::new(rows::Heads::new()), 128),
        (Box::new(rows::Rows::new()), 200),
        (Box::new(histories::Histories::new()), 3_000),
        (Box::new(borders::Borders::new()), 240),
        (Box::new(rooms::Rooms), 400),
        (Box::new(memories::Flips::new()), 220),
        (Box::new(memories::Damage), 600),
        (Box::new(memories::Plain), 60),
        (Box::new(tables::Flips::new()), 3 * 32),
        (Box::new(tables::Plain), 300),
        (Box::new(texts::Texts), 500),
    ]
}
