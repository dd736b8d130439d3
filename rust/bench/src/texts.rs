//! Reading typed terms: the proved reader, which checks the table at each call and everything on the way, beside a reader
//! written by hand. All names are held, so that each call does the same.

use std::hint::black_box;

use claggyfoot::ffi;
use model::random::Random;
use model::typing;

use crate::by_hand::ByHand;
use crate::sheet::{Line, Sheet, WAYS};
use crate::timing::{by_turns, median, median_more, time, Task};

/// Rounds of a comparison.
const ROUNDS: usize = 101;

/// How often a text is read in one round.
const TIMES: usize = 32;

/// The numbers of names that are tried.
pub const SIZES: [usize; 2] = [16, 1_024];

/// The cells of the terms that are tried.
pub const CELLS: [usize; 4] = [1, 4, 8, 32];

/// Whose times are kept: the whole call, the table's check alone, the first less the second, the other reader.
pub const WHO: [&str; 4] = [WAYS[0], "check", "above the check", "by hand"];

/// What is done with a term of so many cells.
pub fn what(cells: usize) -> String {
    format!("text of {cells} cells")
}

/// A word for each number, with the letters spread.
fn name(number: usize) -> String {
    let words = ["lamp", "cave", "old_sword", "key", "northGate", "rope"];
    format!("{}{}", words[number % 6], number * 389 % 1_024)
}

/// A text of so many cells; its names are spread over the table.
fn text(cells: usize, size: usize) -> String {
    let mut next = 0;
    let mut name = || {
        next += 389;
        name(next % size)
    };
    let mut eight = || {
        let [f, g, h, a, b] = [(); 5].map(|_| name());
        format!("{f}({g}(X), {h}({a}, Y), {b}, X)")
    };
    match cells {
        1 => name(),
        4 => format!("{}({}, X, {})", name(), name(), name()),
        8 => eight(),
        _ => {
            let eights = [eight(), eight(), eight()].join(", ");
            let [f, g, a, b, c, d] = [(); 6].map(|_| name());
            format!("{f}({eights}, {g}({a}, {b}, X), {c}, {d}, Z)")
        }
    }
}

/// Both readers with the same names.
fn readers(size: usize) -> (Vec<u8>, ByHand) {
    let (mut table, mut hand) = (vec![0; 32_768], ByHand::default());
    for number in 0..size {
        let name = name(number);
        let found = ffi::text_read(&mut table, name.as_bytes());
        assert_eq!((found.refusal, found.cells[0]), (0, number as u16));
        assert_eq!(hand.read(name.as_bytes()).0, [number as u16]);
    }
    (table, hand)
}

/// Both give the same cells and the same place; how many cells.
fn agree(table: &mut [u8], hand: &mut ByHand, text: &[u8]) -> usize {
    let found = ffi::text_read(table, text);
    assert_eq!(found.refusal, 0);
    let (cells, place) = hand.read(text);
    assert_eq!(&found.cells[..found.size as usize], cells);
    assert_eq!(found.place, place as u64);
    cells.len()
}

/// Both agree on texts of all kinds, with quotes, blanks and comments.
fn agree_on_many() {
    let mut random = Random::new(8);
    let (mut table, mut hand) = (vec![0; 1_024], ByHand::default());
    for _ in 0..1_000 {
        agree(&mut table, &mut hand, &typing::text(&mut random));
    }
}

/// The times of one text, as `WHO` has them.
fn times(table: &mut [u8], hand: &mut ByHand, text: &[u8]) -> [f64; 4] {
    let held = table.to_vec();
    let mut tasks: Vec<Task> = vec![
        Box::new(|| {
            let read = |_| ffi::text_read(table, black_box(text)).size;
            time(|| (0..TIMES).map(read).sum::<u64>()) / TIMES as f64
        }),
        Box::new(|| {
            // No table has so high a number: the table is checked, and nothing else is done.
            let check = |_| ffi::name_of(black_box(&held), u64::MAX).refusal;
            time(|| (0..TIMES).map(check).sum::<u64>()) / TIMES as f64
        }),
        Box::new(|| {
            let read = |_| black_box(hand.read(black_box(text))).1;
            time(|| (0..TIMES).map(read).sum::<usize>()) / TIMES as f64
        }),
    ];
    let times = by_turns(ROUNDS, &mut tasks);
    let above = median_more(&times[0], &times[1]);
    [
        median(&times[0]),
        median(&times[1]),
        above,
        median(&times[2]),
    ]
}

/// Measures texts.
pub fn measure(sheet: &mut Sheet) {
    agree_on_many();
    for size in SIZES {
        let (mut table, mut hand) = readers(size);
        for cells in CELLS {
            let text = text(cells, size);
            assert_eq!(agree(&mut table, &mut hand, text.as_bytes()), cells);
            let times = times(&mut table, &mut hand, text.as_bytes());
            for (who, nanoseconds) in WHO.into_iter().zip(times) {
                sheet.put(Line {
                    set: "texts",
                    rules: size,
                    what: what(cells),
                    who,
                    nanoseconds,
                });
            }
        }
    }
}
