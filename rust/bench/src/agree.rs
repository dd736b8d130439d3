//! Before anything is timed: all ways give the same records.

use crate::archive::Archive;
use crate::arena::Arena;
use crate::index::{run, Index};
use crate::mapped::Mapped;
use crate::one_by_one::OneByOne;
use crate::questions::ROOM;
use crate::rules::{adds, asks, removes, shuffled, Set};

/// The records of these batches from an empty index.
fn records<I: Index>(batches: &[Vec<u16>]) -> Vec<Vec<u16>> {
    let mut index = I::default();
    let mut out = vec![0; ROOM];
    let mut batch = |batch: &Vec<u16>| {
        let written = run(&mut index, batch, &mut out);
        out[..written].to_vec()
    };
    batches.iter().map(&mut batch).collect()
}

/// The archive's.
fn archive_records(batches: &[Vec<u16>]) -> Vec<Vec<u16>> {
    let mut archive = Archive::default();
    let mut out = vec![0; ROOM];
    let mut batch = |batch: &Vec<u16>| {
        let written = archive.run(batch, &mut out);
        out[..written].to_vec()
    };
    batches.iter().map(&mut batch).collect()
}

/// All questions while the book is full, after half of the rules have gone, and after they have come back.
pub fn all_agree(set: &Set) -> usize {
    let rules = shuffled(&set.rules);
    let half = &rules[rules.len() / 2..];
    let questions = (2..6).map(|kind| asks(kind, &set.questions).concat());
    let questions: Vec<Vec<u16>> = questions.collect();
    let mut batches = vec![];
    for change in [adds(&rules), removes(half), adds(half), removes(&rules)] {
        batches.push(change.concat());
        batches.extend(questions.clone());
    }
    let wanted = archive_records(&batches);
    assert!(records::<OneByOne>(&batches) == wanted, "{}", set.name);
    assert!(records::<Mapped>(&batches) == wanted, "{}", set.name);
    assert!(records::<Arena>(&batches) == wanted, "{}", set.name);
    16 * set.questions.len()
}

#[cfg(test)]
mod tests {
    use super::*;
    use crate::rules::{set, sizes, KINDS};

    #[test]
    fn all_ways_agree_on_all_sets() {
        for kind in KINDS {
            for size in sizes(kind) {
                all_agree(&set(kind, *size));
            }
        }
    }
}
