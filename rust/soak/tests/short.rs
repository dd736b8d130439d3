//! A short run of the soak: every part for a fixed number of turns.

use model::random::Random;
use soak::counts::Counts;
use soak::parts;

#[test]
fn every_part_for_a_while() {
    let mut random = Random::new(900);
    let mut counts = Counts::default();
    for (mut part, turns) in parts() {
        for _ in 0..turns {
            part.turn(&mut random, &mut counts);
        }
    }
    println!("{counts}");
    assert_eq!(
        counts.of("pairs of small terms, each with four questions"),
        89 * 89
    );
    assert!(counts.of("commands in histories") >= 100_000);
    assert!(counts.of("whole histories") >= 1);
    for kind in [
        "adds to 512 rules",
        "adds past 4,096 nodes",
        "rooms with 4,096 nodes",
        "rooms with 512 rules",
        "lists of 512 rules",
    ] {
        assert!(counts.of(kind) > 5, "{kind}\n{counts}");
    }
    for kind in [
        "memories that pass",
        "memories that don't pass",
        "name tables that pass",
        "name tables that don't pass",
        "rooms for a batch",
        "texts read",
        "texts with too many new names",
        "texts in which no term can go on",
        "texts refused by 4, 5, 11 or 21",
    ] {
        assert!(counts.of(kind) > 100, "{kind}\n{counts}");
    }
}
