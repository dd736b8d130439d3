//! The name table: lent bytes in slots of 32, a name's number being its slot.
//!
//! Names are compared by bytes, and no call trims: a space is a character.

/// The bytes of a slot: length 1 to 31, the name, zeros.
pub const SLOT: usize = 32;

/// The longest table in bytes.
pub const MOST_BYTES: usize = 32_768;

/// Why a call on the table is refused.
#[derive(Clone, Copy, PartialEq, Eq, Hash, Debug)]
pub enum Refusal {
    /// The memory has a wrong length or doesn't pass.
    Table,
    /// Name empty, over 31 bytes, a byte outside 32 to 126, or first or last byte a space.
    NoName,
    /// Name not held, no free slot.
    NoSlot,
    /// Name number not below the names held.
    NoSuchNumber,
}

impl Refusal {
    /// The reference's refusal number.
    pub fn number(self) -> u16 {
        match self {
            Refusal::Table => 1,
            Refusal::NoName => 11,
            Refusal::NoSlot => 12,
            Refusal::NoSuchNumber => 13,
        }
    }
}

/// Whether 11 doesn't refuse the bytes as a name.
pub fn is_name(bytes: &[u8]) -> bool {
    let length_good = (1..SLOT).contains(&bytes.len());
    let bytes_good = bytes.iter().all(|byte| (32..=126).contains(byte));
    let ends_good = bytes.first() != Some(&b' ') && bytes.last() != Some(&b' ');
    length_good && bytes_good && ends_good
}

/// Whether the table passes the check.
pub fn passes(table: &[u8]) -> bool {
    if !has_right_length(table) {
        return false;
    }
    let used: Vec<&[u8]> = table
        .chunks(SLOT)
        .take_while(|slot| !is_free(slot))
        .collect();
    let rest_free = table.chunks(SLOT).skip(used.len()).all(is_free);
    rest_free && used.iter().all(|slot| is_used(slot)) && all_different(&used)
}

/// A multiple of 32 from 32 to 32,768.
fn has_right_length(table: &[u8]) -> bool {
    table.len().is_multiple_of(SLOT) && (SLOT..=MOST_BYTES).contains(&table.len())
}

/// Free slots are all zero.
fn is_free(slot: &[u8]) -> bool {
    slot.iter().all(|byte| *byte == 0)
}

/// A used slot: a length, a name of that length, zeros.
fn is_used(slot: &[u8]) -> bool {
    let length = usize::from(slot[0]);
    length < SLOT && is_name(&slot[1..1 + length]) && is_free(&slot[1 + length..])
}

fn all_different(slots: &[&[u8]]) -> bool {
    let before = |number: usize| &slots[..number];
    (0..slots.len()).all(|number| !before(number).contains(&slots[number]))
}

/// The names that a passing table holds, in the order of their numbers.
fn held(table: &[u8]) -> Vec<&[u8]> {
    let used = table.chunks(SLOT).take_while(|slot| !is_free(slot));
    used.map(|slot| &slot[1..1 + usize::from(slot[0])])
        .collect()
}

/// The first slot that agrees with the name.
fn find(table: &[u8], name: &[u8]) -> Option<usize> {
    held(table).iter().position(|held| *held == name)
}

/// Writes a new name into a free slot.
fn fill(slot: &mut [u8], name: &[u8]) {
    slot[0] = name.len() as u8;
    slot[1..1 + name.len()].copy_from_slice(name);
}

/// The number of a name in a passing table: its slot, or the first free one, which it takes; nothing where none is free.
pub(crate) fn slot_for(table: &mut [u8], name: &[u8]) -> Option<usize> {
    if let Some(number) = find(table, name) {
        return Some(number);
    }
    let number = held(table).len();
    fill(table.chunks_mut(SLOT).nth(number)?, name);
    Some(number)
}

/// Enters a name: the number of its slot, made at the first free slot if it is new. The order is 1, 11, held, 12, so
/// a held name is found in a full table. Refused, the table is unchanged.
pub fn enter(table: &mut [u8], name: &[u8]) -> Result<usize, Refusal> {
    if !passes(table) {
        return Err(Refusal::Table);
    }
    if !is_name(name) {
        return Err(Refusal::NoName);
    }
    slot_for(table, name).ok_or(Refusal::NoSlot)
}

/// What entering answers in numbers: the refusal or 0, and the slot's number, 0 when refused.
pub fn entered(answer: Result<usize, Refusal>) -> (u16, usize) {
    match answer {
        Ok(number) => (0, number),
        Err(refusal) => (refusal.number(), 0),
    }
}

/// The name with a number, or why there is none.
fn name(table: &[u8], number: usize) -> Result<&[u8], Refusal> {
    if !passes(table) {
        return Err(Refusal::Table);
    }
    held(table)
        .get(number)
        .copied()
        .ok_or(Refusal::NoSuchNumber)
}

/// Name of a number: the name as the part of the lent table where it stands; refused, an empty part.
pub fn name_of(table: &[u8], number: usize) -> &[u8] {
    name(table, number).unwrap_or(&[])
}

/// The second call: the refusal that `name_of` meets, or 0.
pub fn name_refusal(table: &[u8], number: usize) -> u16 {
    name(table, number).err().map_or(0, Refusal::number)
}

#[cfg(test)]
mod tests {
    use super::*;

    fn table_of(slots: usize, names: &[&[u8]]) -> Vec<u8> {
        let mut table = vec![0; slots * SLOT];
        for (number, name) in names.iter().enumerate() {
            assert_eq!(enter(&mut table, name), Ok(number));
        }
        table
    }

    /// Enters, and checks that a refusal leaves the table unchanged.
    fn refused(table: &[u8], name: &[u8]) -> u16 {
        let mut after = table.to_vec();
        let answer = entered(enter(&mut after, name));
        assert_eq!(after, table);
        assert_eq!(answer.1, 0);
        answer.0
    }

    #[test]
    fn a_space_is_a_character() {
        let empty = table_of(2, &[]);
        assert_eq!(refused(&empty, b"cave "), 11);
        assert_eq!(refused(&empty, b" cave"), 11);
        assert_eq!(refused(&empty, b" "), 11);
        let table = table_of(2, &[b"dark cave", b"dark  cave"]);
        assert_eq!(name_of(&table, 0), b"dark cave");
        assert_eq!(name_of(&table, 1), b"dark  cave");
    }

    #[test]
    fn names_of_31_bytes_are_taken_and_32_refused() {
        let mut table = table_of(1, &[]);
        assert_eq!(refused(&table, &[b'x'; 32]), 11);
        assert_eq!(enter(&mut table, &[b'x'; 31]), Ok(0));
        assert!(passes(&table));
        assert_eq!(name_of(&table, 0), [b'x'; 31]);
    }

    #[test]
    fn bytes_outside_32_to_126_are_refused() {
        let empty = table_of(1, &[]);
        for byte in 0..=255 {
            let good = (32..=126).contains(&byte);
            assert_eq!(is_name(&[b'a', byte, b'b']), good);
            assert_eq!(is_name(&[byte]), good && byte != b' ');
        }
        assert_eq!(refused(&empty, b""), 11);
        assert_eq!(refused(&empty, b"a\x7fb"), 11);
        assert_eq!(refused(&empty, b"a\tb"), 11);
    }

    #[test]
    fn names_are_compared_by_bytes() {
        let mut table = table_of(4, &[b"Cave", b"cave", b"cav"]);
        assert_eq!(enter(&mut table, b"cave"), Ok(1));
        assert_eq!(enter(&mut table, b"cav"), Ok(2));
        assert_eq!(enter(&mut table, b"CAVE"), Ok(3));
    }

    #[test]
    fn a_held_name_is_found_in_a_full_table() {
        let mut table = table_of(2, &[b"a", b"b"]);
        assert_eq!(refused(&table, b"c"), 12);
        assert_eq!(refused(&table, b"c "), 11);
        assert_eq!(enter(&mut table, b"b"), Ok(1));
    }

    #[test]
    fn a_new_name_changes_its_slot_alone() {
        let mut table = table_of(3, &[b"lamp"]);
        assert_eq!(enter(&mut table, b"cave"), Ok(1));
        let mut wanted = vec![0; 96];
        wanted[..5].copy_from_slice(b"\x04lamp");
        wanted[32..37].copy_from_slice(b"\x04cave");
        assert_eq!(table, wanted);
    }

    #[test]
    fn name_of_a_number_is_a_part_of_the_table() {
        let table = table_of(2, &[b"lamp"]);
        let part = name_of(&table, 0);
        assert!(std::ptr::eq(part, &table[1..5]));
        assert_eq!(name_refusal(&table, 0), 0);
        for number in [1, 2, usize::MAX] {
            assert_eq!(name_of(&table, number), b"");
            assert_eq!(name_refusal(&table, number), 13);
        }
    }

    #[test]
    fn lengths_are_multiples_of_32_from_32_to_32768() {
        for length in [0, 1, 31, 33, 63, 32_767, 32_769, 32_800, 65_536] {
            assert_eq!(refused(&vec![0; length], b"cave"), 1, "{length}");
        }
        for length in [32, 64, 32_768] {
            assert!(passes(&vec![0; length]));
        }
    }

    /// A table with one thing wrong doesn't pass, and 1 goes before 11 and 13.
    fn does_not_pass(table: &[u8]) {
        assert_eq!(refused(table, b"cave"), 1);
        assert_eq!(refused(table, b" "), 1);
        assert_eq!(name_of(table, 0), b"");
        assert_eq!(name_refusal(table, 0), 1);
        assert_eq!(name_refusal(table, 4095), 1);
    }

    #[test]
    fn damaged_tables_do_not_pass() {
        let good = table_of(3, &[b"cave", b"lamp"]);
        // Length 0 before bytes, too short, too long, above 31, a byte after the name, after the last name.
        for (place, byte) in [(0, 0), (0, 3), (0, 5), (0, 32), (0, 255), (5, 1), (31, 1)] {
            let mut table = good.clone();
            table[place] = byte;
            does_not_pass(&table);
        }
        // A bad byte, a space at an end, a byte in the free slot.
        for (place, byte) in [(2, 31), (2, 127), (1, b' '), (4, b' '), (64, 1), (95, 7)] {
            let mut table = good.clone();
            table[place] = byte;
            does_not_pass(&table);
        }
    }

    #[test]
    fn a_gap_or_an_equal_name_does_not_pass() {
        let good = table_of(3, &[b"cave", b"lamp"]);
        let mut gap = good.clone();
        gap[..32].fill(0);
        does_not_pass(&gap);
        let mut twice = good.clone();
        twice.copy_within(..32, 64);
        does_not_pass(&twice);
    }
}
