//! Times the proved book beside three other ways to hold the rules: no index, an ordinary tree of maps, a tuned tree in an
//! arena. All are first shown to answer alike. Prints tables, and writes `target/bench.csv` and `docs/performance.svg`.
//!
//! Buffers aren't cleared between rounds, and everything stays in the caches as far as it fits.

#![forbid(unsafe_code)]

mod agree;
mod archive;
mod arena;
mod by_hand;
mod changes;
mod index;
mod mapped;
mod names;
mod one_by_one;
mod plot;
mod questions;
mod report;
mod rules;
mod sheet;
mod texts;
mod timing;

use std::path::Path;
use std::{fs, io, process};

use rules::{set, sizes, Set, KINDS};
use sheet::Sheet;

fn main() -> io::Result<()> {
    if cfg!(debug_assertions) {
        eprintln!("times mean something only with --release");
        process::exit(2);
    }
    let all = KINDS
        .iter()
        .flat_map(|kind| sizes(kind).iter().map(|size| set(kind, *size)));
    let sets: Vec<Set> = all.collect();
    let compared: usize = sets.iter().map(agree::all_agree).sum();
    println!("{compared} answers are the same in all ways");
    let mut sheet = Sheet::default();
    for set in &sets {
        eprintln!("{} {}", set.name, set.rules.len());
        questions::measure(set, &mut sheet);
        changes::measure(set, &mut sheet);
        changes::measure_check(set, &mut sheet);
    }
    names::measure(&mut sheet);
    texts::measure(&mut sheet);
    report::print(&sheet);
    let repository = Path::new(env!("CARGO_MANIFEST_DIR")).join("../..");
    fs::create_dir_all(repository.join("target"))?;
    fs::write(repository.join("target/bench.csv"), sheet.csv())?;
    fs::write(
        repository.join("docs/performance.svg"),
        report::picture(&sheet),
    )
}
