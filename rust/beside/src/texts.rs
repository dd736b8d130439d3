//! The proved reader of typed terms and the model's, on one table and one text.

use claggyfoot::ffi::{self, TextRead};
use model::text::{answered, read};

use crate::lent::Lent;

/// Both read the text alike: refusal, place, size, all 32 cells and every byte of the table; the text stays as it is.
pub fn read_alike(table: &[u8], text: &[u8]) -> (TextRead, Vec<u8>) {
    let (mut lent, mut lent_text) = (Lent::of(table), Lent::of(text));
    let found = lent.call(|table| lent_text.call(|text| ffi::text_read(table, text)));
    let mut after = table.to_vec();
    let answer = answered(&read(&mut after, text));
    let wanted = TextRead {
        refusal: u64::from(answer.refusal),
        place: answer.place as u64,
        size: answer.size as u64,
        cells: answer.cells,
    };
    assert_eq!(found, wanted, "{}", tried(table, text));
    assert!(lent.items() == after, "{}", tried(table, text));
    assert_eq!(lent_text.items(), text);
    (found, after)
}

/// What was tried: the text, and the table without the zeros at its end.
fn tried(table: &[u8], text: &[u8]) -> String {
    let used = table.iter().rposition(|byte| *byte != 0);
    let front = &table[..used.map_or(0, |last| last + 1)];
    let (text, front) = (text.escape_ascii(), front.escape_ascii());
    format!("\"{text}\" with {} bytes: \"{front}\"", table.len())
}
