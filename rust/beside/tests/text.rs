//! The proved reader of typed terms beside the model's.

use beside::tables::{names_of_one_hash, put, rooms, table_of};
use beside::texts::read_alike;
use model::random::{term_cells, Random};
use model::typing::{damaged, overgrown, text, typed, BYTES, NAMES};
use std::collections::HashSet;

/// Good texts that have every token, quotes, escapes, blanks and comments.
const GOOD: [&[u8]; 8] = [
    b"put(lamp, X)",
    b" put ( 'dark cave' , Y1 ) rest",
    b"f(g(h(a)), B, 'it\\'s', B, 'a\\\\b')",
    b"% first\nf % then\n( X % and\n, Y ) % last",
    b"'50 % off'('X', X, \t'7')\n",
    b"f(a,b,c,d,e,f,g)",
    b"X_1",
    b"'a' (b) (c)",
];

/// Tables of one to 40 slots: empty, with some of the names that texts have, nearly full, full.
fn tables() -> Vec<Vec<u8>> {
    vec![
        table_of(40, &NAMES[..0]),
        table_of(40, &NAMES),
        table_of(13, &NAMES),
        table_of(12, &NAMES),
        table_of(2, &[b"f"]),
        table_of(1, &NAMES[..0]),
        table_of(1, &[b"put"]),
    ]
}

/// Read alike with each of the tables.
fn alike(text: &[u8]) {
    for table in tables() {
        read_alike(&table, text);
    }
}

/// The refusal and the place, with a table of 40 free slots.
fn said(text: impl AsRef<[u8]>) -> (u64, u64) {
    let found = read_alike(&[0; 1_280], text.as_ref()).0;
    (found.refusal, found.place)
}

/// Different variables, commas between them.
fn variables(from: usize, to: usize) -> String {
    let words: Vec<String> = (from..to).map(|number| format!("V{number}")).collect();
    words.join(",")
}

#[test]
fn all_texts_of_up_to_five_bytes() {
    let table = table_of(2, &[b"held"]);
    let mut texts = vec![vec![]];
    let mut met = HashSet::new();
    for _ in 0..=5 {
        for text in &texts {
            met.insert(read_alike(&table, text).0.refusal);
        }
        let longer = |text: &Vec<u8>| b"aX(),'\\%\n7".map(|byte| [&text[..], &[byte]].concat());
        texts = texts.iter().flat_map(longer).collect();
    }
    assert_eq!(texts.len(), 1_000_000);
    assert_eq!(met, HashSet::from([0, 11, 12, 20]));
}

#[test]
fn every_prefix_and_every_changed_byte_of_good_texts() {
    for good in GOOD {
        assert_eq!(said(good).0, 0);
        for place in 0..=good.len() {
            alike(&good[..place]);
            alike(&good[place..]);
            for byte in BYTES {
                let (before, after) = good.split_at(place);
                alike(&[before, &[*byte], after].concat());
                alike(&[before, &[*byte], after.get(1..).unwrap_or(&[])].concat());
            }
        }
    }
}

#[test]
fn every_byte_between_quotes_and_outside() {
    let table = table_of(3, &NAMES[..1]);
    for byte in 0..=255 {
        for text in [
            &[b'\'', byte, b'\''][..],
            &[b'\'', b'x', byte, b'y', b'\''],
            &[b'\'', b'x', byte, b'\'', b'z'],
            &[b'\'', b'\\', byte, b'\''],
            &[b'\'', byte],
            &[byte],
            &[byte, b'a'],
            &[b'a', byte, b'b'],
            &[b'X', byte, b'Y'],
            &[b'f', byte, b'(', b'a', byte, b')'],
            &[b'f', b'(', byte, b'a', b')'],
            &[b'%', byte, b'\n', b'a'],
        ] {
            read_alike(&table, text);
        }
    }
}

#[test]
fn names_of_30_to_33_bytes() {
    for length in [30, 31, 32, 33, 99, 5_000] {
        let refusal = if length > 31 { 11 } else { 0 };
        let long = "a".repeat(length);
        for text in [
            long.clone(),
            format!("'{long}'"),
            format!("f({long},7)"),
            format!("f(X,'{long}'('{long}'))"),
            format!("'{}'", "\\'".repeat(length)),
            format!("'{}'", "\\\\".repeat(length)),
        ] {
            let wanted = match text.contains('7') && refusal == 0 {
                true => 20,
                false => refusal,
            };
            assert_eq!(said(&text).0, wanted, "{text}");
            alike(text.as_bytes());
        }
        assert_eq!(said(format!("'{long}")), (20, length as u64 + 1));
        assert_eq!(said(long.to_uppercase()), (0, length as u64));
    }
}

#[test]
fn sixteen_and_seventeen_variables() {
    let three = |last: &str| {
        let (one, two) = (variables(0, 7), variables(7, 14));
        format!("f(g({one}),g({two}),h({last}))")
    };
    assert_eq!(said(three(&variables(14, 16))).0, 0);
    assert_eq!(said(three(&variables(13, 17))).0, 4);
    assert_eq!(said(three("V14,V15,V0,V15,V7")).0, 0);
    assert_eq!(said(three("V14,V15,V155")).0, 4);
    assert_eq!(said(three("V14,V15,V155''")).0, 4);
    assert_eq!(said(three("V14,V15,7,V16")).0, 20);
    // 11 links and 20 cells, then `a`: the seventeenth variable would be the 33rd cell.
    let deep = |links: usize, rest: &str| "c(".repeat(links) + &three(&format!("V14,V15,a,{rest}"));
    assert_eq!(said(deep(11, "Z")).0, 5);
    assert_eq!(said(deep(10, "Z")).0, 4);
    assert_eq!(said(deep(11, "'")).0, 5);
    assert_eq!(said(deep(11, "7")).0, 20);
}

#[test]
fn seven_and_eight_arguments() {
    let six = "a,".repeat(6);
    assert_eq!(said(format!("f({six}a)")).0, 0);
    assert_eq!(said(format!("f({six}a,a)")).0, 21);
    for (eighth, refusal) in [
        ("X", 21),
        ("'", 21),
        (")", 20),
        ("7", 20),
        ("", 20),
        (" %", 20),
    ] {
        assert_eq!(said(format!("f({six}a,{eighth}")).0, refusal, "{eighth}");
        // With 32 cells behind it, 24 links, `g` and seven arguments: 21 goes before 5.
        let links = "f(".repeat(24);
        let full = format!("{links}g({six}a,{eighth}");
        assert_eq!(said(&full).0, refusal, "{full}");
        let nearly = format!("{links}g({six}{eighth}");
        assert_ne!(said(&nearly).0, 21, "{nearly}");
    }
    assert_eq!(said(format!("f({six}f({six}f({six}a,a)))")).0, 21);
}

#[test]
fn thirty_two_and_thirty_three_cells() {
    for links in 28..36 {
        let deep = format!("{}a{}", "f(".repeat(links), ")".repeat(links));
        assert_eq!(said(&deep).0, if links < 32 { 0 } else { 5 });
        for place in 0..deep.len() {
            said(&deep[..place]);
        }
        for last in ["a", "X", "'", "''", "7", "", ",", "%"] {
            said(format!("{}a,{last}", "f(".repeat(links)));
            said(format!("{}{last}", "f(".repeat(links)));
        }
    }
    assert_eq!(said("f(".repeat(1_000)), (5, 0));
}

#[test]
fn new_names_against_free_slots() {
    for slots in 1..=8 {
        for held in 0..=slots.min(3) {
            let table = table_of(slots, &[&b"f"[..], b"a", b"lamp"][..held]);
            for text in [
                &b"f(a,b,c,d)"[..],
                b"f(f,f(f))",
                b"x(y(z(w(v(u)))))",
                b"lamp('lamp', f, q)",
                b"f(a,b,7)",
                b"f(a,b,'')",
                b"f(a,b) c d e",
                b"X",
            ] {
                let (first, after) = read_alike(&table, text);
                let (second, again) = read_alike(&after, text);
                assert_eq!(first, second);
                assert_eq!(after, again);
            }
        }
    }
}

#[test]
fn tables_of_1024_slots() {
    let mut names = rooms(1_024);
    names[1_000] = b"lamp".to_vec();
    let full = table_of(1_024, &names);
    let texts: [&[u8]; 6] = [
        b"'room 0'('room 1023', lamp, X)",
        b"lamp(sword)",
        b"'room 1022'('room 1023')",
        b"f(a,b)",
        b"",
        b"'room 5 '",
    ];
    for free in 0..3 {
        let mut table = full.clone();
        table[32 * (1_024 - free)..].fill(0);
        for text in texts {
            read_alike(&table, text);
        }
    }
    let found = read_alike(&full, texts[0]).0;
    assert_eq!(found.cells[..4], [0x3000, 0x03ff, 0x03e8, 0x8000]);
    assert_eq!(read_alike(&full, texts[1]).0.refusal, 12);
    assert_eq!(read_alike(&vec![0; 32_768], b"f(a,b)").0.refusal, 0);
    // Two equal names far apart.
    let mut twice = full.clone();
    put(&mut twice, 1_023, b"room 0");
    assert_eq!(read_alike(&twice, b"lamp").0.refusal, 1);
}

#[test]
fn names_of_one_hash_are_not_taken_for_each_other() {
    let names = names_of_one_hash(24);
    let quoted: Vec<String> = names
        .iter()
        .map(|name| format!("'{}'", name.escape_ascii()))
        .collect();
    for held in [0, 1, 12, 23] {
        let table = table_of(24, &names[..held]);
        for group in quoted.chunks(6) {
            let text = format!("{}({})", group[0], group.join(","));
            let after = read_alike(&table, text.as_bytes()).1;
            read_alike(&after, text.as_bytes());
        }
    }
}

#[test]
fn tables_that_do_not_pass() {
    let good = table_of(3, &[b"cave", b"lamp"]);
    let texts: [&[u8]; 6] = [b"lamp", b"f(a)", b"", b"7", b"''", b"f(a,b,c)"];
    for place in 0..good.len() {
        for bit in 0..8 {
            let mut table = good.clone();
            table[place] ^= 1 << bit;
            for text in texts {
                read_alike(&table, text);
            }
        }
    }
    for length in (0..=130).chain([32_736, 32_767, 32_769, 32_800, 65_536]) {
        let right = length % 32 == 0 && (32..=32_768).contains(&length);
        for text in texts {
            let refusal = read_alike(&vec![0; length], text).0.refusal;
            assert_eq!(refusal != 1, right, "{length}");
        }
    }
}

#[test]
fn grown_and_damaged_texts() {
    let mut random = Random::new(310);
    let tables = tables();
    let mut met = HashSet::new();
    for turn in 0..60_000 {
        let text = match turn % 4 {
            0 => text(&mut random),
            1 => overgrown(&mut random),
            _ => damaged(&mut random),
        };
        let table = &tables[random.below(tables.len())];
        met.insert(read_alike(table, &text).0.refusal);
    }
    assert_eq!(met, HashSet::from([0, 4, 5, 11, 12, 20, 21]));
}

#[test]
fn bytes_without_a_plan() {
    let mut random = Random::new(311);
    for _ in 0..40_000 {
        let length = random.between(0, 20);
        let any = random.one_in(4);
        let byte = |_| match any {
            true => random.bits() as u8,
            false => random.pick(BYTES),
        };
        let text: Vec<u8> = (0..length).map(byte).collect();
        read_alike(&[0; 96], &text);
    }
}

/// Blanks, comments and quotes change no cell.
#[test]
fn typed_in_many_ways() {
    let mut random = Random::new(312);
    let table = table_of(12, &NAMES);
    for _ in 0..2_000 {
        let length = random.between(1, 32);
        let cells = term_cells(&mut random, length);
        let [first, second] = [(); 2].map(|_| typed(&mut random, &cells));
        let found = read_alike(&table, &first).0;
        assert_eq!((found.refusal, found.size), (0, length as u64));
        assert_eq!(found.cells, read_alike(&table, &second).0.cells);
    }
}

/// Tables that grow by reading, with damage now and then: a text that is read twice adds nothing the second time.
#[test]
fn tables_that_grow() {
    let mut random = Random::new(313);
    for _ in 0..300 {
        let mut table = vec![0; 32 * random.between(1, 20)];
        for _ in 0..20 {
            let text = text(&mut random);
            let (first, after) = read_alike(&table, &text);
            let (second, again) = read_alike(&after, &text);
            assert_eq!((first, &after), (second, &again));
            table = after;
            if random.one_in(20) {
                let place = random.below(table.len());
                table[place] ^= 1 << random.below(8);
            }
        }
    }
}
