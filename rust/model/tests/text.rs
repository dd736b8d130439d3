//! Typed terms, sentence by sentence: what is read, and where and why a text is refused.

use model::names;
use model::text::{answered, read, Answer, Refusal};

/// What reading answers with so many free slots, and the table afterwards; refused, it is as it was.
fn read_with(slots: usize, text: &[u8]) -> (Answer, Vec<u8>) {
    let mut table = vec![0; 32 * slots];
    let answer = answered(&read(&mut table, text));
    if answer.refusal != 0 {
        assert_eq!(table, vec![0; 32 * slots]);
        assert_eq!((answer.size, answer.cells), (0, [0; 32]));
        assert!(answer.refusal == 20 || answer.place == 0);
    }
    assert!(answer.cells[answer.size..].iter().all(|cell| *cell == 0));
    (answer, table)
}

/// The cells, with an empty table of 40 slots, and the place after them.
fn cells(text: &[u8]) -> (Vec<u16>, usize) {
    let answer = read_with(40, text).0;
    assert_eq!(answer.refusal, 0, "{text:?}");
    (answer.cells[..answer.size].to_vec(), answer.place)
}

/// The refusal and its place.
fn refused(text: &[u8]) -> (u16, usize) {
    let answer = read_with(40, text).0;
    assert_ne!(answer.refusal, 0, "{text:?}");
    (answer.refusal, answer.place)
}

/// The names that are held afterwards.
fn held(text: &[u8]) -> Vec<Vec<u8>> {
    let table = read_with(40, text).1;
    let name = |number| names::name_of(&table, number).to_vec();
    (0..40)
        .map(name)
        .take_while(|name| !name.is_empty())
        .collect()
}

/// So many arguments, `a` each.
fn arguments(count: usize) -> String {
    vec!["a"; count].join(",")
}

/// 32 cells, and the comma before what would be the 33rd.
fn up_to_33() -> String {
    format!("{}a,", "f(".repeat(31))
}

#[test]
fn a_rule() {
    assert_eq!(cells(b"put(lamp, X)"), (vec![0x2000, 0x0001, 0x8000], 12));
    assert_eq!(held(b"put(lamp, X)"), [&b"put"[..], b"lamp"]);
    assert_eq!(cells(b"X").0, [0x8000]);
    assert_eq!(cells(b"look").0, [0x0000]);
    assert_eq!(
        cells(b"f(g(X),a,h(Y,X))").0,
        [0x3000, 0x1001, 0x8000, 0x0002, 0x2003, 0x8001, 0x8000]
    );
}

#[test]
fn names_enter_before_their_arguments_names() {
    assert_eq!(held(b"f(g(b), a, g(c))"), [b"f", b"g", b"b", b"a", b"c"]);
    // One name with two arities is one name.
    assert_eq!(cells(b"f(f, f(X))").0, [0x2000, 0x0000, 0x1000, 0x8000]);
    assert_eq!(held(b"f(f, f(X))"), [b"f"]);
}

#[test]
fn a_quoted_lower_word_is_the_same_name_as_the_bare_one() {
    assert_eq!(cells(b"f('lamp', lamp)").0, [0x2000, 0x0001, 0x0001]);
    assert_eq!(cells(b"'put'(lamp)").0, cells(b"put(lamp)").0);
    // An upper word between quotes is a name.
    assert_eq!(cells(b"f('X', X)").0, [0x2000, 0x0001, 0x8000]);
}

#[test]
fn other_names_stand_in_quotes() {
    assert_eq!(held(b"f('dark cave', 'dark  cave', '7', 'Cave')").len(), 5);
    assert_eq!(held(br"'it\'s'"), [b"it's"]);
    assert_eq!(held(br"'a\\b'"), [br"a\b"]);
    assert_eq!(held(br"'\\'"), [br"\"]);
    assert_eq!(held(br"'\''"), [b"'"]);
    assert_eq!(held(b"'50 % off'"), [b"50 % off"]);
    assert_eq!(held(b"'f(X, Y).'"), [b"f(X, Y)."]);
}

#[test]
fn words_go_on_over_letters_digits_and_underscores() {
    assert_eq!(held(b"aZ_9b"), [b"aZ_9b"]);
    assert_eq!(
        cells(b"f(Aa_1, Aa_2, Aa_1)").0[1..],
        [0x8000, 0x8001, 0x8000]
    );
    assert_eq!(cells(b"ab-c").1, 2);
}

#[test]
fn blanks_and_comments_stand_between_tokens() {
    let plain = cells(b"f(a,X)").0;
    for text in [
        &b" f ( a , X ) "[..],
        b"\tf\n(\t\na\n,\tX\n)",
        b"% a comment\nf%,\n(a%)\n,X% the end\n)",
        b"%\n%%\n  f(a,%\xff\x00'\\ any bytes\r\nX%\n)",
    ] {
        assert_eq!(cells(text).0, plain, "{text:?}");
    }
    assert_eq!(cells(b" f ( a , X ) ").1, 12);
    assert_eq!(cells(b"%c\na").1, 4);
    // Not inside one.
    assert_eq!(cells(b"f o(a)").1, 1);
    assert_eq!(refused(b"% no newline ends it: f(a)"), (20, 26));
}

#[test]
fn blanks_may_stand_before_the_bracket_and_without_one_the_term_ends_with_its_name() {
    assert_eq!(cells(b"a (b)"), (vec![0x1000, 0x0001], 5));
    assert_eq!(cells(b"a %c\n(b)").1, 8);
    assert_eq!(cells(b"a \t\n"), (vec![0x0000], 1));
    assert_eq!(cells(b"a %(b)"), (vec![0x0000], 1));
    assert_eq!(cells(b"'a' b").1, 3);
    // Once a bracket follows there is no way back.
    assert_eq!(refused(b"a ("), (20, 3));
    assert_eq!(refused(b"a ( "), (20, 4));
    assert_eq!(refused(b"a ( %b)"), (20, 7));
}

#[test]
fn what_follows_is_not_judged() {
    let texts: [(&[u8], usize); 8] = [
        (b"a b", 1),
        (b"a)", 1),
        (b"a.", 1),
        (b"f(a)(b)", 4),
        (b"X(a)", 1),
        (b"a'", 1),
        (b"X Y", 1),
        (b"f(a)\xff", 4),
    ];
    for (text, place) in texts {
        assert_eq!(cells(text).1, place, "{text:?}");
    }
}

#[test]
fn no_term_can_go_on() {
    let texts: [(&[u8], usize); 21] = [
        (b"", 0),
        (b"  ", 2),
        (b"(", 0),
        (b")", 0),
        (b",", 0),
        (b"f()", 2),
        (b"f(", 2),
        (b"f(a", 3),
        (b"f(a,", 4),
        (b"f(a,)", 4),
        (b"f(a,,b)", 4),
        (b"f(a b)", 4),
        (b"f(a.", 3),
        (b"f(X(a))", 3),
        (b"f(X (a))", 4),
        (b"f(g(a)(b))", 6),
        (b"f(a;b)", 3),
        (b"f(a % b)", 8),
        (b"f(a\r)", 3),
        (b"\ra", 0),
        (b"\xc3\xa4", 0),
    ];
    for (text, place) in texts {
        assert_eq!(refused(text), (20, place), "{text:?}");
    }
}

#[test]
fn numbers_and_other_forms_are_not_read() {
    for text in [
        &b"7"[..],
        b"0a",
        b"-1",
        b"_word",
        b"$word",
        b"\"a\"",
        b"/* a */ b",
        b"?X",
        b"\\",
        b"\x00",
    ] {
        assert_eq!(refused(text), (20, 0), "{text:?}");
        let inside = [b"f(", text, b")"].concat();
        assert_eq!(refused(&inside), (20, 2), "{text:?}");
    }
    assert_eq!(refused(b"f(a /* b */)"), (20, 4));
}

#[test]
fn quotes() {
    // Empty: at the closing quote, so what would be wrong behind it isn't met.
    assert_eq!(refused(b"''"), (11, 0));
    assert_eq!(refused(b"f('',7)"), (11, 0));
    // An open quote is 20 at the end, whatever stands in it.
    for text in [
        &b"'"[..],
        b"'a",
        b"'a\n",
        b"' ",
        b"'\xff",
        br"'\\",
        br"'\'",
        br"'a\",
    ] {
        assert_eq!(refused(text), (20, text.len()), "{text:?}");
    }
    assert_eq!(refused(&[&[b'\''][..], &[b'x'; 99]].concat()), (20, 100));
    // A backslash before another byte is 20 at that byte.
    assert_eq!(refused(br"'a\n'"), (20, 3));
    assert_eq!(refused(br"'\ '"), (20, 2));
    assert_eq!(refused(b"'\\\n'"), (20, 2));
    // Even where the name is none already.
    assert_eq!(refused(b"'\xff\\a'"), (20, 3));
    // Spaces at the ends.
    for text in [&b"' '"[..], b"'a '", b"' a'"] {
        assert_eq!(refused(text), (11, 0));
    }
}

#[test]
fn any_byte_may_stand_between_quotes() {
    for byte in (0..=255).filter(|byte| !matches!(byte, b'\'' | b'\\')) {
        let answer = read_with(1, &[b'\'', b'a', byte, b'b', b'\'']).0;
        let wanted = match byte {
            32..=126 => (0, 5),
            _ => (11, 0),
        };
        assert_eq!((answer.refusal, answer.place), wanted, "{byte}");
        // The fault is only met at the closing quote.
        assert_eq!(refused(&[b'\'', byte, b'\\', b'b', b'\'']), (20, 3));
    }
}

#[test]
fn thirty_one_bytes_are_a_name() {
    let long = "a".repeat(31);
    assert_eq!(cells(long.as_bytes()).1, 31);
    assert_eq!(cells(format!("'{long}'").as_bytes()).1, 33);
    assert_eq!(refused(format!("{long}b").as_bytes()), (11, 0));
    assert_eq!(refused(format!("'{long}b'").as_bytes()), (11, 0));
    assert_eq!(refused(format!("{long}b(7").as_bytes()), (11, 0));
    // A backslash with the byte behind it is one byte of the name.
    assert_eq!(cells(format!(r"'{}'", r"\'".repeat(31)).as_bytes()).1, 64);
    assert_eq!(
        refused(format!(r"'{}'", r"\\".repeat(32)).as_bytes()),
        (11, 0)
    );
    // A variable may be as long as it likes.
    assert_eq!(cells("A".repeat(500).as_bytes()), (vec![0x8000], 500));
}

#[test]
fn sixteen_variables() {
    let wide = |count: usize| {
        let group = |from: usize| {
            let words: Vec<String> = (from..count.min(from + 7))
                .map(|n| format!("V{n}"))
                .collect();
            format!("g({})", words.join(","))
        };
        format!("f({},{},{})", group(0), group(7), group(14))
    };
    let (sixteen, place) = cells(wide(16).as_bytes());
    assert_eq!((sixteen.len(), place), (20, wide(16).len()));
    assert_eq!(sixteen[19], 0x800f);
    assert_eq!(refused(wide(17).as_bytes()), (4, 0));
    // At its last byte: what follows isn't met, what stands before is.
    assert_eq!(refused(wide(17).replace("V16", "V16-").as_bytes()), (4, 0));
    assert_eq!(refused(wide(17).replace("V15,", "V15;").as_bytes()).0, 20);
    // The sixteenth once more is no seventeenth.
    assert_eq!(cells(wide(17).replace("V16", "V15").as_bytes()).0.len(), 21);
}

#[test]
fn seven_arguments() {
    let seven = format!("f({})", arguments(7));
    assert_eq!(cells(seven.as_bytes()).0[0], 0x7000);
    let eight = format!("f({})", arguments(8));
    assert_eq!(refused(eight.as_bytes()), (21, 0));
    // The comma is no fault; at the argument's first byte 20 goes before 21.
    let comma = format!("f({},", arguments(7));
    let with = |rest: &str| format!("{comma}{rest}").into_bytes();
    assert_eq!(refused(&with("")), (20, comma.len()));
    assert_eq!(refused(&with(")")), (20, comma.len()));
    assert_eq!(refused(&with("7")), (20, comma.len()));
    assert_eq!(refused(&with(" %")), (20, comma.len() + 2));
    assert_eq!(refused(&with("'")), (21, 0));
    assert_eq!(refused(&with("X")), (21, 0));
    assert_eq!(refused(&with(&"a".repeat(32))), (21, 0));
    assert_eq!(refused(format!("f({}", arguments(7)).as_bytes()).0, 20);
}

#[test]
fn thirty_two_cells() {
    let last = |rest: &str| format!("{}{rest}", up_to_33()).into_bytes();
    let whole = format!("{}a{}", "f(".repeat(31), ")".repeat(31));
    assert_eq!(cells(whole.as_bytes()).0.len(), 32);
    // At the first byte of the 33rd cell, before that token is read; 20 goes before it.
    assert_eq!(refused(&last("b")), (5, 0));
    assert_eq!(refused(&last("X")), (5, 0));
    assert_eq!(refused(&last("'")), (5, 0));
    assert_eq!(refused(&last(&"a".repeat(99))), (5, 0));
    assert_eq!(refused(&last("7")), (20, up_to_33().len()));
    assert_eq!(refused(&last("")), (20, up_to_33().len()));
    assert_eq!(refused("f(".repeat(32).as_bytes()), (20, 64));
    assert_eq!(refused(format!("{}a", "f(".repeat(32)).as_bytes()), (5, 0));
}

#[test]
fn an_eighth_argument_goes_before_a_thirty_third_cell() {
    // 25 cells and seven arguments, the last name's.
    let text = format!("{}g({},", "f(".repeat(24), arguments(7));
    assert_eq!(refused(format!("{text}a").as_bytes()), (21, 0));
    assert_eq!(refused(format!("{text}7").as_bytes()), (20, text.len()));
}

#[test]
fn a_seventeenth_variable_that_would_be_the_33rd_cell_is_5() {
    let words: Vec<String> = (0..16).map(|n| format!("V{n}")).collect();
    let [first, second, third] = [&words[..7], &words[7..14], &words[14..]].map(|w| w.join(","));
    // 21 cells behind the links, and an argument still to come.
    let after = |links: usize| {
        let links = "c(".repeat(links);
        format!("{links}f(g({first}),g({second}),g({third},a,Z").into_bytes()
    };
    assert_eq!(refused(&after(11)), (5, 0));
    assert_eq!(refused(&after(10)), (4, 0));
}

#[test]
fn free_slots_are_counted_last() {
    let refusal = |slots, text: &[u8]| read_with(slots, text).0.refusal;
    assert_eq!(refusal(3, b"f(a,b)"), 0);
    assert_eq!(refusal(2, b"f(a,b)"), 12);
    assert_eq!(refusal(2, b"f(a,f(a,a))"), 0);
    assert_eq!(refusal(1, b"f(f,'f',X)"), 0);
    // Only where nothing else is refused.
    assert_eq!(refusal(1, b"f(a,b"), 20);
    assert_eq!(refusal(1, b"f(a,b,'')"), 11);
    // What follows isn't read, so its names aren't counted.
    assert_eq!(refusal(1, b"f a"), 0);
}

#[test]
fn held_names_need_no_slot() {
    let mut table = vec![0; 64];
    let first = read(&mut table, b"f(lamp)").expect("two names");
    let full = table.clone();
    assert_eq!(
        read(&mut table, b"lamp(f, lamp, X)").expect("held").cells,
        [0x3001, 0x0000, 0x0001, 0x8000]
    );
    assert_eq!(read(&mut table, b"f(sword)"), Err(Refusal::NoSlot));
    // Twice the same text: the same cells and no name more.
    assert_eq!(read(&mut table, b"f(lamp)"), Ok(first));
    assert_eq!(table, full);
}

#[test]
fn a_new_name_changes_its_slot_alone() {
    let (_, table) = read_with(3, b"lamp('dark cave')");
    let mut wanted = vec![0; 96];
    wanted[..5].copy_from_slice(b"\x04lamp");
    wanted[32..42].copy_from_slice(b"\x09dark cave");
    assert_eq!(table, wanted);
}

#[test]
fn the_table_comes_before_all_else() {
    let mut gap = vec![0; 64];
    gap[32..34].copy_from_slice(b"\x01a");
    for table in [vec![], vec![0; 31], vec![0; 32_800], vec![7; 32], gap] {
        for text in [&b"a"[..], b"", b"7", b"''", b"f(a,b", b"X"] {
            let mut after = table.clone();
            assert_eq!(read(&mut after, text), Err(Refusal::Table));
            assert_eq!(after, table);
        }
    }
}

#[test]
fn the_first_fault_in_reading_order_is_given() {
    assert_eq!(refused(b"f('',7"), (11, 0));
    assert_eq!(refused(b"f(7,''"), (20, 2));
    assert_eq!(
        refused(format!("f({},{}", arguments(8), "a".repeat(40)).as_bytes()),
        (21, 0)
    );
    assert_eq!(
        refused(format!("f({},{}", "a".repeat(40), arguments(8)).as_bytes()),
        (11, 0)
    );
}
