//! Every room from 0 to more than the record's size.

use beside::both::Both;
use beside::shapes::few;
use model::random::{command, commands, damaged_command, Random};

use crate::counts::Counts;
use crate::Part;

/// One command after the other, each with every room.
pub struct Rooms;

/// A command that may be good or not.
fn any_command(random: &mut Random) -> Vec<u16> {
    match random.below(4) {
        0 => damaged_command(random),
        1 => [vec![0x3000], few(random)].concat(),
        2 => vec![random.pick(&[0x3000, 0x5000]), 0x8000],
        _ => command(random),
    }
}

impl Part for Rooms {
    fn turn(&mut self, random: &mut Random, counts: &mut Counts) {
        let before = random.pick(&[0, 5, 30, 90]);
        let book = Both::after(&commands(random, before, 0));
        for _ in 0..4 {
            let cells = any_command(random);
            let size = book.clone().run(&cells, 9_999).out.len();
            for room in 0..=size + 2 {
                let mut both = book.clone();
                let answer = both.run(&cells, room);
                if room == 0 {
                    assert_eq!(answer.stop.number(), 10);
                    assert!(both.lent.words() == book.lent.words());
                }
            }
            counts.add("rooms for a batch", size + 3);
        }
    }
}
