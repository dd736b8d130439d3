//! Prints how long the calls on a full name table take: the median of many runs, in microseconds.

use std::hint::black_box;
use std::time::Instant;

use claggyfoot::ffi::{name_enter, name_of};

const RUNS: usize = 301;

/// A full table of 1,024 names.
fn full_table(name: impl Fn(usize) -> String) -> Vec<u8> {
    let mut table = vec![0; 32_768];
    for number in 0..1024 {
        let name = name(number);
        assert!((1..32).contains(&name.len()), "{name}");
        let slot = &mut table[32 * number..][..32];
        slot[0] = name.len() as u8;
        slot[1..=name.len()].copy_from_slice(name.as_bytes());
    }
    table
}

/// The median time of a call.
fn median<T>(mut call: impl FnMut() -> T) -> f64 {
    let mut times: Vec<f64> = (0..RUNS)
        .map(|_| {
            let start = Instant::now();
            black_box(call());
            start.elapsed().as_secs_f64() * 1e6
        })
        .collect();
    times.sort_by(f64::total_cmp);
    times[RUNS / 2]
}

fn print_times(title: &str, mut table: Vec<u8>) {
    let last = name_of(&table, 1023);
    assert_eq!(last.refusal, 0, "{title}");
    let start = last.start as usize;
    let held = table[start..start + last.length as usize].to_vec();
    let by_number = median(|| name_of(black_box(&table), 1023));
    let held_last = median(|| name_enter(black_box(&mut table), &held));
    let new_full = median(|| name_enter(black_box(&mut table), b"a name not held"));
    println!("{title}: name of {by_number:.1}, enter held {held_last:.1}, enter new {new_full:.1}");
}

fn main() {
    let words = [
        "lamp",
        "dark cave",
        "sword",
        "old door",
        "north gate",
        "key",
        "rusty iron lantern",
    ];
    let mixed = |number: usize| format!("{} {}", words[number % 7], number / 7 * 7919 % 100_000);
    print_times(
        "room 0 to room 1023",
        full_table(|number| format!("room {number}")),
    );
    print_times("words and numbers", full_table(mixed));
    print_times(
        "31 bytes, the difference first",
        full_table(|number| format!("{number:04} a quite long name of room")[..].to_string() + "s"),
    );
    print_times(
        "31 bytes, the difference last",
        full_table(|number| format!("the long name of a room has {number:03x}")),
    );
    print_times(
        "4 to 31 bytes",
        full_table(|number| format!("{:x}{}", number + 4096, "y".repeat(number % 28))),
    );
}
