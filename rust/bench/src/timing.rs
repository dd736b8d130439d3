//! Times: what is compared is run by turns, and medians are taken.

use std::time::Instant;

/// What is timed: it does its own setting up and answers the nanoseconds of the rest.
pub type Task<'a> = Box<dyn FnMut() -> f64 + 'a>;

/// The nanoseconds of a call.
pub fn time<A>(call: impl FnOnce() -> A) -> f64 {
    let start = Instant::now();
    let answer = std::hint::black_box(call());
    let elapsed = start.elapsed();
    drop(answer);
    elapsed.as_nanos() as f64
}

/// Runs the tasks by turns, so many rounds; for each its times, one a round. A first round isn't counted.
pub fn by_turns(rounds: usize, tasks: &mut [Task]) -> Vec<Vec<f64>> {
    let mut times = vec![vec![]; tasks.len()];
    for round in 0..=rounds {
        for (task, times) in tasks.iter_mut().zip(&mut times) {
            let taken = task();
            if round > 0 {
                times.push(taken);
            }
        }
    }
    times
}

/// The median.
pub fn median(times: &[f64]) -> f64 {
    let mut times = times.to_vec();
    times.sort_by(f64::total_cmp);
    times[times.len() / 2]
}

/// The median of what one takes more than the other, round by round.
pub fn median_more(one: &[f64], other: &[f64]) -> f64 {
    let more: Vec<f64> = one
        .iter()
        .zip(other)
        .map(|(one, other)| one - other)
        .collect();
    median(&more)
}

/// The geometric mean.
pub fn geometric_mean(numbers: impl Iterator<Item = f64>) -> f64 {
    let (sum, count) = numbers.fold((0.0, 0), |(sum, count), n| (sum + n.ln(), count + 1));
    (sum / f64::from(count)).exp()
}
