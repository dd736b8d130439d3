//! Runs all parts in turn for `SECONDS` (60 when nothing is said), from the seed `SEED` (1), and prints what it tried.

#![forbid(unsafe_code)]

use std::env;
use std::time::{Duration, Instant};

use model::random::Random;
use soak::counts::Counts;
use soak::parts;

/// How long one part goes on before the next one's turn.
const SLICE: Duration = Duration::from_millis(250);

/// A number from the environment.
fn number(name: &str, usual: u64) -> u64 {
    let said = env::var(name).ok();
    said.map_or(usual, |said| said.parse().expect("a number"))
}

fn main() {
    let (seconds, seed) = (number("SECONDS", 60), number("SEED", 1));
    println!("for {seconds} s from seed {seed}");
    let (mut random, mut counts) = (Random::new(seed), Counts::default());
    let mut parts = parts();
    let end = Instant::now() + Duration::from_secs(seconds);
    while Instant::now() < end {
        for (part, _) in &mut parts {
            let next = Instant::now() + SLICE;
            while Instant::now() < next {
                part.turn(&mut random, &mut counts);
            }
        }
    }
    print!("{counts}");
    println!("the archive and the model never differed");
}
