//! The four questions: 64 in a batch, and one a batch.

use crate::archive::Archive;
use crate::arena::Arena;
use crate::index::{run, Index};
use crate::mapped::Mapped;
use crate::one_by_one::OneByOne;
use crate::rules::{adds, asks, Set, QUESTIONS};
use crate::sheet::{Line, Sheet, WAYS};
use crate::timing::{by_turns, median, median_more, time, Task};

/// Rounds of a comparison.
const ROUNDS: usize = 201;

/// Room for every record of a batch.
pub const ROOM: usize = QUESTIONS * 513;

/// The names of the kinds 2 to 5.
pub const NAMES: [&str; 4] = ["variants", "instances", "generalisations", "unifiables"];

/// The same rules, held in four ways.
struct Held {
    archive: Archive,
    list: OneByOne,
    map: Mapped,
    arena: Arena,
}

/// An index with these rules.
fn filled<I: Index>(commands: &[u16], out: &mut [u16]) -> I {
    let mut index = I::default();
    run(&mut index, commands, out);
    index
}

impl Held {
    fn of(set: &Set) -> Held {
        let commands = adds(&set.rules).concat();
        let mut out = vec![0; ROOM];
        let mut archive = Archive::default();
        archive.run(&commands, &mut out);
        assert!(out.iter().all(|cell| *cell == 0), "all rules are taken");
        Held {
            archive,
            list: filled(&commands, &mut out),
            map: filled(&commands, &mut out),
            arena: filled(&commands, &mut out),
        }
    }

    /// Times the check, the archive's batches and the others' with the same commands.
    fn times(&mut self, batches: &[Vec<u16>]) -> Vec<Vec<f64>> {
        let Held {
            archive,
            list,
            map,
            arena,
        } = self;
        let [mut a, mut b, mut c, mut d] = [(); 4].map(|()| vec![0; ROOM]);
        let checked = archive.clone();
        let mut tasks: Vec<Task> = vec![
            Box::new(|| time(|| checked.passes())),
            Box::new(|| time(|| each(batches, |batch| archive.run(batch, &mut a)))),
            Box::new(|| time(|| each(batches, |batch| run(list, batch, &mut b)))),
            Box::new(|| time(|| each(batches, |batch| run(map, batch, &mut c)))),
            Box::new(|| time(|| each(batches, |batch| run(arena, batch, &mut d)))),
        ];
        by_turns(ROUNDS, &mut tasks)
    }
}

/// Runs the batches in turn.
fn each(batches: &[Vec<u16>], mut run: impl FnMut(&[u16]) -> usize) -> usize {
    batches.iter().map(|batch| run(batch)).sum()
}

/// Measures all questions on a set.
pub fn measure(set: &Set, sheet: &mut Sheet) {
    let mut held = Held::of(set);
    let mut put = |what: String, who, nanoseconds| {
        sheet.put(Line {
            set: set.name,
            rules: set.rules.len(),
            what,
            who,
            nanoseconds,
        })
    };
    for (kind, name) in (2..6).zip(NAMES) {
        let commands = asks(kind, &set.questions);
        let times = held.times(&[commands.concat()]);
        let ours = median_more(&times[1], &times[0]) / QUESTIONS as f64;
        put(format!("question {name}"), WAYS[0], ours);
        for (who, times) in WAYS.iter().zip(&times[1..]).skip(1) {
            let theirs = median(times) / QUESTIONS as f64;
            put(format!("question {name}"), who, theirs);
        }
        // One question a batch: the check is included.
        let times = held.times(&commands);
        for (who, times) in WAYS.iter().zip(&times[1..]) {
            put(
                format!("alone {name}"),
                who,
                median(times) / QUESTIONS as f64,
            );
        }
    }
}
