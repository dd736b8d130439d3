//! A small adventure: rules are typed as text and go into a book, and the book says which rules could apply to what a
//! player typed. It prints what examples/c/adventure.c prints.

use std::error::Error;

use claggyfoot::{records, Batch, Book, Record, Table};

/// What a command does; it also decides how its record is told.
#[derive(Clone, Copy)]
enum Kind {
    Add(u16),
    Generalisations,
    Unifiables,
    Show(u16),
    Room,
}

/// What each command does, its words for a person, and the term of an add or a question as text.
const COMMANDS: [(Kind, &str, &str); 9] = [
    (Kind::Add(5), "add rule 5: ", "put(lamp, X)"),
    (Kind::Add(9), "add rule 9: ", "put(X, table)"),
    (Kind::Add(12), "add rule 12: ", "put(X, 'dark cave')"),
    (Kind::Add(9), "add rule 9: ", "look"),
    (
        Kind::Generalisations,
        "which rules could apply to ",
        "put(lamp, table)",
    ),
    (Kind::Generalisations, "which rules could apply to ", "look"),
    (
        Kind::Unifiables,
        "which rules collide with ",
        "put(lamp, X)",
    ),
    (Kind::Show(12), "show rule 12", ""),
    (Kind::Room, "rules and nodes", ""),
];

/// A text that is refused: the names are as they were.
fn show_refused(names: &mut Table, text: &str) {
    if let Err(unread) = names.read(text.as_bytes()) {
        let number = unread.refusal.number();
        let place = unread.place.map(|place| format!(" at byte {}", place.byte));
        println!("{text} is refused, {number}{}", place.unwrap_or_default());
    }
}

/// Writes a command; a text that is refused ends the program.
fn put(batch: &mut Batch, names: &mut Table, kind: Kind, text: &str) -> Result<(), Box<dyn Error>> {
    let mut read = || names.read(text.as_bytes());
    match kind {
        Kind::Add(number) => batch.add(number, read()?.cells())?,
        Kind::Generalisations => batch.generalisations(read()?.cells())?,
        Kind::Unifiables => batch.unifiables(read()?.cells())?,
        Kind::Show(number) => batch.show(number)?,
        Kind::Room => batch.room(),
    };
    Ok(())
}

/// A record in words. A rule's cells are written in hex, all else in decimal.
fn words(kind: Kind, record: Record) -> String {
    let cell = |cell: &u16| match kind {
        Kind::Show(_) => format!("{cell:04x}"),
        _ => cell.to_string(),
    };
    match (record.refusal, record.cells, kind) {
        (Some(refusal), _, _) => format!("refused, {}", refusal.number()),
        (None, [], Kind::Add(_)) => "done".to_string(),
        (None, [], _) => "none".to_string(),
        (None, cells, _) => cells.iter().map(cell).collect::<Vec<_>>().join(" "),
    }
}

fn main() -> Result<(), Box<dyn Error>> {
    // A bracket is missing; and a space is a character, so that nothing is trimmed.
    let mut names = Table::new(64)?;
    show_refused(&mut names, "put(lamp, X");
    show_refused(&mut names, "'dark cave '");

    let mut batch = Batch::new();
    for (kind, _, text) in COMMANDS {
        put(&mut batch, &mut names, kind, text)?;
    }
    let mut book = Book::empty();
    let mut out = [0; 1_024];
    let ended = book.run(batch.cells(), &mut out);

    for ((kind, front, text), record) in COMMANDS.into_iter().zip(records(&out[..ended.written])) {
        println!("{front}{text}: {}", words(kind, record));
    }
    let (stop, all) = (ended.stop.number(), batch.cells().len());
    let (used, written) = (ended.used, ended.written);
    println!("stop {stop}: {used} of {all} cells used, {written} written");
    let mut number = 0;
    while let Ok(name) = names.name_of(number) {
        println!("name {number}: {}", String::from_utf8_lossy(name));
        number += 1;
    }
    Ok(())
}
