//! The proved calls on a name table and the model's, on one table.

use std::collections::HashMap;

use claggyfoot::ffi::{self, NameEntered, NamePlace};
use model::names;

use crate::lent::Lent;

/// Both enter the name alike: refusal, number and every byte of the table; the name stays as it is.
pub fn enter_alike(table: &[u8], name: &[u8]) -> (NameEntered, Vec<u8>) {
    let (mut lent, mut lent_name) = (Lent::of(table), Lent::of(name));
    let found = lent.call(|table| lent_name.call(|name| ffi::name_enter(table, name)));
    let mut after = table.to_vec();
    let (refusal, number) = names::entered(names::enter(&mut after, name));
    let wanted = NameEntered {
        refusal: u64::from(refusal),
        number: number as u64,
    };
    assert_eq!(found, wanted, "{name:?} into {table:?}");
    assert_eq!(lent.items(), after, "{name:?} into {table:?}");
    assert_eq!(lent_name.items(), name);
    (found, after)
}

/// Both find the same part of the table for a number, and leave the table as it is.
pub fn name_alike(table: &[u8], number: u64) -> NamePlace {
    let mut lent = Lent::of(table);
    let found = lent.call(|table| ffi::name_of(table, number));
    assert_eq!(lent.items(), table);
    let part = names::name_of(table, number as usize);
    let start = match part.is_empty() {
        true => 0,
        false => part.as_ptr() as usize - table.as_ptr() as usize,
    };
    let wanted = NamePlace {
        refusal: u64::from(names::name_refusal(table, number as usize)),
        start: start as u64,
        length: part.len() as u64,
    };
    assert_eq!(found, wanted, "number {number} of {table:?}");
    found
}

/// A table of so many slots with these names.
pub fn table_of<N: AsRef<[u8]>>(slots: usize, names: &[N]) -> Vec<u8> {
    let mut table = vec![0; 32 * slots];
    for (number, name) in names.iter().enumerate() {
        put(&mut table, number, name.as_ref());
    }
    table
}

/// Writes a slot, whether or not the bytes are a name.
pub fn put(table: &mut [u8], slot: usize, name: &[u8]) {
    let slot = &mut table[32 * slot..][..32];
    slot.fill(0);
    slot[0] = name.len() as u8;
    slot[1..=name.len()].copy_from_slice(name);
}

/// So many names: room 0, room 1, ..
pub fn rooms(count: usize) -> Vec<Vec<u8>> {
    (0..count)
        .map(|n| format!("room {n}").into_bytes())
        .collect()
}

/// The hash of the archive's check, so that tests reach names with equal hashes.
fn hash(name: &[u8]) -> usize {
    name.iter()
        .fold(0, |hash, byte| (hash * 37 + usize::from(*byte)) % 32_768)
}

/// Names of one hash, as many as asked for.
pub fn names_of_one_hash(count: usize) -> Vec<Vec<u8>> {
    let mut met: HashMap<usize, Vec<Vec<u8>>> = HashMap::new();
    for number in 0.. {
        let name = format!("{number:x}").into_bytes();
        let names = met.entry(hash(&name)).or_default();
        names.push(name);
        if names.len() == count {
            return names.clone();
        }
    }
    unreachable!("some hash is met as often as wanted")
}
