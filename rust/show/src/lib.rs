//! A session in words: the commands of a file, and beside each its record as the session program answers it.
//!
//! Nothing is decided here. What the words say of records, stop, used and written was printed by the program.

pub mod file;
pub mod listing;
pub mod words;

use file::Session;
use listing::Listing;

/// The table for a person: a line a command, and last how the batch ended. Nothing where the commands as read here
/// don't end where the program says that it has used them.
pub fn table(session: &Session, listing: &Listing) -> Option<String> {
    let rows = rows(session, listing)?;
    let width = rows.iter().map(|row| row.0.chars().count()).max();
    let width = width.unwrap_or(0).max("command".len());
    let mut text = format!("      {:width$}  record\n", "command");
    for (index, (command, record)) in rows.iter().enumerate() {
        text += &format!("{:>4}  {command:width$}  {record}\n", index + 1);
    }
    let (stop, all) = (words::stop(listing.stop), session.cells.len());
    let (used, written) = (listing.used, listing.written);
    Some(text + &format!("stop {stop}; used {used} of {all} cells, {written} written\n"))
}

/// Each command beside its record, both in words.
fn rows(session: &Session, listing: &Listing) -> Option<Vec<(String, String)>> {
    let names = &session.names;
    let next = |place| words::command(session.cells.get(place..)?, names);
    let mut rows = Vec::new();
    let mut place = 0;
    for record in &listing.records {
        let command = next(place)?;
        rows.push((command.words, words::record(command.kind, record, names)));
        // The command at which it stopped isn't counted as used.
        if record.refusal == 0 || record.refusal != listing.stop {
            place += command.size;
        }
    }
    if listing.stop == 10 {
        rows.push((next(place)?.words, "no record: it doesn't fit".to_string()));
    }
    (place == listing.used).then_some(rows)
}
