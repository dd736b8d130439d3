//! The proved calls on a name table beside the model's.

use beside::tables::{enter_alike, name_alike, names_of_one_hash, put, rooms, table_of};
use model::random::Random;

/// Both answer every call alike on this table.
fn alike(table: &[u8]) {
    for name in [&b"cave"[..], b"lamp", b"a new one", b"cave ", b"", b" "] {
        enter_alike(table, name);
    }
    let slots = table.len() as u64 / 32;
    for number in [0, 1, slots.wrapping_sub(1), slots, 4095, u64::MAX] {
        name_alike(table, number);
    }
}

fn refusal(table: &[u8], name: &[u8]) -> u64 {
    enter_alike(table, name).0.refusal
}

#[test]
fn cases_of_the_reference() {
    let table = table_of(3, &[b"dark cave"]);
    assert_eq!(refusal(&table, b"cave "), 11);
    assert_eq!(refusal(&table, b" "), 11);
    assert_eq!(refusal(&table, b" cave"), 11);
    assert_eq!(refusal(&table, b""), 11);
    assert_eq!(refusal(&table, &[b'x'; 31]), 0);
    assert_eq!(refusal(&table, &[b'x'; 32]), 11);
    assert_eq!(refusal(&table, &[b'x'; 300]), 11);
    let (answer, after) = enter_alike(&table, b"dark  cave");
    assert_eq!((answer.refusal, answer.number), (0, 1));
    assert_eq!(enter_alike(&after, b"dark cave").0.number, 0);
    assert_eq!(enter_alike(&after, b"Dark cave").0.number, 2);
}

#[test]
fn every_byte_at_every_place() {
    let table = table_of(2, &[b"cave"]);
    for byte in 0..=255 {
        for length in [1, 2, 3, 30, 31] {
            for place in [0, 1, length / 2, length - 1] {
                let mut name = vec![b'x'; length];
                name[place.min(length - 1)] = byte;
                enter_alike(&table, &name);
                let mut held = table.clone();
                put(&mut held, 1, &name);
                alike(&held);
            }
        }
    }
}

#[test]
fn a_full_table() {
    let names = rooms(1024);
    let full = table_of(1024, &names);
    assert_eq!(refusal(&full, b"a new one"), 12);
    assert_eq!(refusal(&full, b"room 7 "), 11);
    for number in [0, 1, 511, 1022, 1023] {
        let (answer, after) = enter_alike(&full, &names[number]);
        assert_eq!((answer.refusal, answer.number), (0, number as u64));
        assert_eq!(after, full);
        let place = name_alike(&full, number as u64);
        assert_eq!(place.start, 32 * number as u64 + 1);
    }
    assert_eq!(name_alike(&full, 1024).refusal, 13);
    // One slot less used: a new name takes the last one.
    let mut room = full.clone();
    room[32 * 1023..].fill(0);
    assert_eq!(enter_alike(&room, b"a new one").0.number, 1023);
    assert_eq!(name_alike(&room, 1023).refusal, 13);
}

#[test]
fn two_equal_names_far_apart() {
    let names = rooms(1024);
    let full = table_of(1024, &names);
    for (first, second) in [(0, 1023), (0, 1), (1022, 1023), (3, 700), (511, 512)] {
        let mut twice = full.clone();
        put(&mut twice, second, &names[first]);
        assert_eq!(refusal(&twice, b"room 9"), 1);
        assert_eq!(name_alike(&twice, 9).refusal, 1);
    }
}

#[test]
fn equal_hashes_are_no_equal_names() {
    let names = names_of_one_hash(60);
    let table = table_of(60, &names[..59]);
    assert_eq!(enter_alike(&table, &names[59]).0.number, 59);
    assert_eq!(enter_alike(&table, &names[58]).0.number, 58);
    for (first, second) in [(0, 58), (0, 1), (57, 58), (20, 40)] {
        let mut twice = table.clone();
        put(&mut twice, second, &names[first]);
        assert_eq!(refusal(&twice, b"cave"), 1);
    }
}

#[test]
fn wrong_lengths() {
    for length in (0..=130).chain([32_736, 32_767, 32_768, 32_769, 32_800, 65_536]) {
        let table = vec![0; length];
        alike(&table);
        let right = length % 32 == 0 && (32..=32_768).contains(&length);
        assert_eq!(refusal(&table, b"cave") == 0, right, "{length}");
    }
    let good = table_of(3, &[b"cave", b"lamp"]);
    (0..=96).for_each(|length| alike(&good[..length]));
}

#[test]
fn every_bit_flipped_in_a_small_table() {
    for names in [
        &[][..],
        &[&b"cave"[..]],
        &[b"cave", b"lamp"],
        &[b"cave", b"cavf", b"d"],
    ] {
        let good = table_of(3, names);
        alike(&good);
        for place in 0..good.len() {
            for bit in 0..8 {
                let mut table = good.clone();
                table[place] ^= 1 << bit;
                alike(&table);
            }
        }
    }
}

#[test]
fn every_length_byte() {
    let good = table_of(3, &[&b"cave"[..], &[b'x'; 31], b"lamp"]);
    for slot in 0..3 {
        for length in 0..=255 {
            let mut table = good.clone();
            table[32 * slot] = length;
            alike(&table);
        }
    }
}

#[test]
fn slots_in_a_wrong_order() {
    let good = table_of(4, &[b"cave", b"lamp"]);
    for slot in 0..4 {
        let mut gap = good.clone();
        gap[32 * slot..][..32].fill(0);
        alike(&gap);
        let mut late = good.clone();
        put(&mut late, slot, b"late");
        alike(&late);
        let mut twice = good.clone();
        put(&mut twice, slot, b"cave");
        alike(&twice);
    }
    for place in 0..128 {
        for byte in [1, 31, 32, b'x', 126, 127, 255] {
            let mut past = good.clone();
            past[place] = byte;
            alike(&past);
        }
    }
}

#[test]
fn bytes_without_a_plan() {
    let mut random = Random::new(301);
    for _ in 0..20_000 {
        let length = random.between(0, 130);
        let table: Vec<u8> = (0..length).map(|_| random.bits() as u8).collect();
        alike(&table);
    }
}

/// A name of a few letters and spaces, mostly good.
fn name(random: &mut Random) -> Vec<u8> {
    let length = if random.one_in(8) {
        random.between(28, 33)
    } else {
        random.between(0, 3)
    };
    (0..length).map(|_| random.pick(b"ab  c")).collect()
}

/// Tables that grow by entering, with damage now and then: entering twice gives the same, and the number gives the name.
#[test]
fn tables_that_grow() {
    let mut random = Random::new(302);
    for _ in 0..300 {
        let mut table = vec![0; 32 * random.between(1, 40)];
        for _ in 0..60 {
            let name = name(&mut random);
            let (first, after) = enter_alike(&table, &name);
            let (second, again) = enter_alike(&after, &name);
            assert_eq!((first, &after), (second, &again));
            if first.refusal == 0 {
                let place = name_alike(&after, first.number);
                let start = place.start as usize;
                assert_eq!(after[start..start + place.length as usize], name);
            }
            table = after;
            if random.one_in(50) {
                let place = random.below(table.len());
                table[place] ^= 1 << random.below(8);
            }
        }
    }
}
