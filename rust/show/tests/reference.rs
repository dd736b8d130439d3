//! The reference's session, as examples/session.cells has it.

use std::fs;
use std::path::{Path, PathBuf};

use show::{file, listing, table};

fn repository() -> PathBuf {
    Path::new(env!("CARGO_MANIFEST_DIR")).join("../..")
}

fn text(path: &str) -> String {
    fs::read_to_string(repository().join(path)).expect("the file stands")
}

/// The file of cells has the bytes that the gate gives to the program.
#[test]
fn same_bytes() {
    let session = file::read(&text("examples/session.cells")).expect("cells");
    let bytes: Vec<u8> = session
        .cells
        .iter()
        .flat_map(|cell| cell.to_be_bytes())
        .collect();
    let stdin = fs::read(repository().join("crates/session/stdin")).expect("the file stands");
    assert_eq!(bytes, stdin);
}

/// The words for the listing that the reference prints.
#[test]
fn in_words() {
    let session = file::read(&text("examples/session.cells")).expect("cells");
    let listing = listing::read(&text("crates/session/stdout")).expect("a listing");
    let words = table(&session, &listing).expect("they agree");
    let lines: Vec<&str> = words.lines().collect();
    assert_eq!(lines.len(), 11);
    assert_eq!(lines[1], "   1  add rule 5: f(a, ?0)        done");
    assert_eq!(lines[4], "   4  generalisations of f(a, b)  rules 5, 9");
    assert_eq!(
        lines[8],
        "   8  room                        2 rules, 6 nodes"
    );
    let stop = "stop 3: the cells end while a subterm is wanted; used 24 of 27 cells, 16 written";
    assert_eq!(lines[10], stop);
}

/// A listing of other cells is not put into words.
#[test]
fn another_listing() {
    let mut session = file::read(&text("examples/session.cells")).expect("cells");
    let listing = listing::read(&text("crates/session/stdout")).expect("a listing");
    session.cells.remove(3);
    assert_eq!(table(&session, &listing), None);
}
