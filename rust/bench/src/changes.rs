//! Adding and removing rules: ascending and in any order, one command a batch and 64, and all in one. The check beside
//! building the map tree anew.

use crate::archive::Archive;
use crate::arena::Arena;
use crate::index::{run, Index};
use crate::mapped::Mapped;
use crate::one_by_one::OneByOne;
use crate::rules::{adds, removes, shuffled, Rule, Set};
use crate::sheet::{Line, Sheet, WAYS};
use crate::timing::{by_turns, median, time, Task};

/// Rounds of a comparison.
const ROUNDS: usize = 41;

/// Rounds of the check beside building.
const CHECKS: usize = 201;

/// How many commands a batch has, and what that is called.
const BATCHES: [(usize, &str); 3] = [(1, "one a batch"), (64, "64 a batch"), (512, "one batch")];

/// The commands in batches of so many.
fn batches(commands: &[Vec<u16>], size: usize) -> Vec<Vec<u16>> {
    commands.chunks(size).map(<[Vec<u16>]>::concat).collect()
}

/// Times the batches on an index that the first commands made.
fn index_time<I: Index>(before: &[u16], batches: &[Vec<u16>], out: &mut [u16]) -> f64 {
    let mut index = I::default();
    run(&mut index, before, out);
    time(|| {
        batches
            .iter()
            .for_each(|batch| _ = run(&mut index, batch, out))
    })
}

/// The same for the archive.
fn archive_time(before: &Archive, batches: &[Vec<u16>], out: &mut [u16]) -> f64 {
    let mut archive = before.clone();
    time(|| batches.iter().for_each(|batch| _ = archive.run(batch, out)))
}

/// Times the commands in all ways, a command each.
fn times(before: &[u16], commands: &[Vec<u16>], size: usize) -> Vec<f64> {
    let batches = batches(commands, size);
    let [mut a, mut b, mut c, mut d] = [(); 4].map(|()| vec![0; 600]);
    let mut archive = Archive::default();
    archive.run(before, &mut a);
    let mut tasks: Vec<Task> = vec![
        Box::new(|| archive_time(&archive, &batches, &mut a)),
        Box::new(|| index_time::<OneByOne>(before, &batches, &mut b)),
        Box::new(|| index_time::<Mapped>(before, &batches, &mut c)),
        Box::new(|| index_time::<Arena>(before, &batches, &mut d)),
    ];
    let each = commands.len() as f64;
    let times = by_turns(ROUNDS, &mut tasks);
    times.iter().map(|times| median(times) / each).collect()
}

/// Measures adds and removes on a set.
pub fn measure(set: &Set, sheet: &mut Sheet) {
    let in_any_order: Vec<Rule> = shuffled(&set.rules);
    let all = adds(&in_any_order).concat();
    for (size, batch) in BATCHES {
        for (what, before, commands) in [
            ("add ascending", &[][..], adds(&set.rules)),
            ("add in any order", &[], adds(&in_any_order)),
            ("remove in any order", &all, removes(&in_any_order)),
        ] {
            let times = times(before, &commands, size);
            for (who, nanoseconds) in WAYS.iter().zip(times) {
                sheet.put(Line {
                    set: set.name,
                    rules: set.rules.len(),
                    what: format!("{what} {batch}"),
                    who,
                    nanoseconds,
                });
            }
        }
    }
}

/// Measures the check of a full book, by turns with building the map tree from the same rules.
pub fn measure_check(set: &Set, sheet: &mut Sheet) {
    let commands = adds(&shuffled(&set.rules)).concat();
    let mut out = vec![0; 600];
    let mut archive = Archive::default();
    archive.run(&commands, &mut out);
    let mut build = || {
        let mut tree = Mapped::default();
        run(&mut tree, &commands, &mut out);
        tree
    };
    let mut tasks: Vec<Task> = vec![
        Box::new(|| time(|| archive.passes())),
        Box::new(|| time(&mut build)),
    ];
    let times = by_turns(CHECKS, &mut tasks);
    for ((what, who), times) in [("check", WAYS[0]), ("build", WAYS[2])].iter().zip(&times) {
        sheet.put(Line {
            set: set.name,
            rules: set.rules.len(),
            what: String::from(*what),
            who,
            nanoseconds: median(times),
        });
    }
}
