//! Entering names: the proved table, which is checked at each call, beside a map of names.

use std::collections::HashMap;
use std::hint::black_box;

use claggyfoot::ffi;

use crate::sheet::{Line, Sheet, WAYS};
use crate::timing::{by_turns, median, time, Task};

/// Rounds of a comparison.
const ROUNDS: usize = 41;

/// How often a held name is entered again in one round.
const TIMES: usize = 32;

/// The numbers of names that are tried.
const SIZES: [usize; 4] = [16, 64, 256, 1_024];

/// Enters all into an empty table.
fn into_table(table: &mut [u8], names: &[Vec<u8>]) {
    for (number, name) in names.iter().enumerate() {
        let entered = ffi::name_enter(table, name);
        assert_eq!((entered.refusal, entered.number), (0, number as u64));
    }
}

/// Enters all into an empty map.
fn into_map(map: &mut HashMap<Vec<u8>, usize>, names: &[Vec<u8>]) {
    for (number, name) in names.iter().enumerate() {
        let next = map.len();
        assert_eq!(*map.entry(name.clone()).or_insert(next), number);
    }
}

/// The times of new names on average, and of the last of them entered once more: the table's and the map's.
fn times(names: &[Vec<u8>]) -> Vec<f64> {
    let mut full = vec![0; 32_768];
    into_table(&mut full, names);
    let mut known = HashMap::new();
    into_map(&mut known, names);
    let last = &names[names.len() - 1];
    let mut tasks: Vec<Task> = vec![
        Box::new(|| {
            let mut table = vec![0; 32_768];
            time(|| into_table(&mut table, names)) / names.len() as f64
        }),
        Box::new(|| {
            let mut map = HashMap::new();
            time(|| into_map(&mut map, names)) / names.len() as f64
        }),
        Box::new(|| {
            let enter = |_| ffi::name_enter(&mut full, black_box(last)).number;
            time(|| (0..TIMES).map(enter).sum::<u64>()) / TIMES as f64
        }),
        Box::new(|| {
            let find = |_| known.get(black_box(last)).copied().unwrap_or(0);
            time(|| (0..TIMES).map(find).sum::<usize>()) / TIMES as f64
        }),
    ];
    let times = by_turns(ROUNDS, &mut tasks);
    times.iter().map(|times| median(times)).collect()
}

/// What the times are of.
const WHAT: [(&str, &str); 4] = [
    ("name new (average)", WAYS[0]),
    ("name new (average)", "hash map"),
    ("name held", WAYS[0]),
    ("name held", "hash map"),
];

/// Measures names.
pub fn measure(sheet: &mut Sheet) {
    for size in SIZES {
        let name = |number| format!("room {number}").into_bytes();
        let names: Vec<Vec<u8>> = (0..size).map(name).collect();
        for ((what, who), nanoseconds) in WHAT.into_iter().zip(times(&names)) {
            sheet.put(Line {
                set: "names",
                rules: size,
                what: String::from(what),
                who,
                nanoseconds,
            });
        }
    }
}
