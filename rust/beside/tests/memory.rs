//! The proved check beside the one that is written from the docs, on good, damaged and made-up memory.

use std::collections::{BTreeMap, BTreeSet};

use beside::book_calls::{self, RoomLeft, RuleShown};
use beside::lent::Lent;
use beside::memory::{self, Line, Link};
use beside::shapes::{few, put, put_field, rewrite, set_used, times, words_that_matter};
use model::random::Random;

/// Memory with these rules.
fn book(rules: &[(u64, &[u16])]) -> Vec<u64> {
    let mut lent = Lent::empty();
    for (number, cells) in rules {
        let answer = lent.call(|words| book_calls::add(words, *number, cells));
        assert_eq!(answer, 0, "{number} {cells:x?}");
    }
    lent.words().to_vec()
}

/// The book drawn in the docs, with a second rule of one form.
fn drawn() -> Vec<u64> {
    book(&[
        (5, &[0x2001, 0x0002, 0x8000]),
        (9, &[0x2001, 0x8000, 0x8000]),
        (2, &[0x2001, 0x1004, 0x0003, 0x0003]),
        (7, &[0x2001, 0x0002, 0x8000]),
    ])
}

/// A book of so many random rules, some of which have gone again.
fn some_book(random: &mut Random, rules: usize) -> Vec<u64> {
    let mut lent = Lent::empty();
    for _ in 0..rules {
        let (number, cells) = (random.below(4_096) as u64, few(random));
        lent.call(|words| book_calls::add(words, number, &cells));
        if random.one_in(5) {
            let held: Vec<u16> = memory::rules(lent.words()).into_keys().collect();
            let gone = u64::from(random.pick(&held));
            assert_eq!(lent.call(|words| book_calls::remove(words, gone)), 0);
        }
    }
    lent.words().to_vec()
}

/// Both checks answer alike; gives the lines that don't hold.
fn alike(words: &[u64]) -> Vec<Line> {
    let broken = memory::broken(words);
    let found = book_calls::passes(words);
    assert_eq!(found, u64::from(!broken.is_empty()), "{broken:?}");
    broken
}

/// Each call refuses memory that doesn't pass and leaves it as it is; one that passes is counted and shown as the page says.
fn calls_alike(words: &[u64]) -> Vec<Line> {
    let broken = alike(words);
    let mut lent = Lent::of(words);
    let mut out = [0xabcd; 33];
    if broken.is_empty() {
        shown_alike(&mut lent);
        return broken;
    }
    assert_eq!(lent.call(|words| book_calls::add(words, 1, &[0x0002])), 1);
    assert_eq!(lent.call(|words| book_calls::add(words, 4_095, &[])), 1);
    assert_eq!(lent.call(|words| book_calls::remove(words, 5)), 1);
    assert_eq!(lent.call(|words| book_calls::remove(words, 4_095)), 1);
    let refused = RuleShown {
        refusal: 1,
        size: 0,
    };
    for number in [5, 4_095] {
        let shown = lent.call(|words| book_calls::show(words, number, &mut out));
        assert_eq!(shown, refused);
    }
    assert_eq!(
        lent.call(book_calls::room),
        RoomLeft {
            refusal: 1,
            rules: 0,
            nodes: 0
        }
    );
    assert_eq!(out, [0xabcd; 33]);
    assert!(lent.words() == words);
    broken
}

/// The rules that the page says are shown, their different beginnings counted.
fn shown_alike(lent: &mut Lent<u64>) {
    let rules = memory::rules(lent.words());
    let mut beginnings = BTreeSet::new();
    for (number, cells) in &rules {
        let form: Vec<u16> = cells.iter().map(|cell| memory::blank(*cell)).collect();
        beginnings.extend((1..=form.len()).map(|length| form[..length].to_vec()));
        let mut out = [0xabcd; 33];
        let shown = lent.call(|words| book_calls::show(words, u64::from(*number), &mut out));
        assert_eq!((shown.refusal, shown.size), (0, cells.len() as u64));
        assert_eq!(out[1..=cells.len()], cells[..]);
        assert!(out[1 + cells.len()..].iter().all(|cell| *cell == 0xabcd));
    }
    let room = lent.call(book_calls::room);
    let wanted = RoomLeft {
        refusal: 0,
        rules: rules.len() as u64,
        nodes: beginnings.len() as u64,
    };
    assert_eq!(room, wanted);
}

/// Flips each bit of these words in turn.
fn flip_each(words: &[u64], places: impl IntoIterator<Item = usize>) -> BTreeMap<Vec<Line>, usize> {
    let mut met = BTreeMap::new();
    let mut words = words.to_vec();
    for place in places {
        for bit in 0..64 {
            words[place] ^= 1 << bit;
            *met.entry(calls_alike(&words)).or_insert(0) += 1;
            words[place] ^= 1 << bit;
        }
    }
    met
}

#[test]
fn every_bit_flipped_in_small_books() {
    let books = [
        book(&[]),
        book(&[(0, &[0x8000])]),
        book(&[(3, &[0x0002]), (4_095, &[0x0002])]),
        drawn(),
    ];
    for words in books {
        assert_eq!(calls_alike(&words), []);
        let met = flip_each(&words, words_that_matter(&words));
        assert!(met.len() > 1, "{met:?}");
    }
}

/// A flip in a word that the check doesn't speak of changes nothing.
#[test]
fn other_words_may_hold_anything() {
    let mut random = Random::new(501);
    let words = drawn();
    let matter = words_that_matter(&words);
    let rest: Vec<usize> = (73..words.len())
        .filter(|place| !matter.contains(place))
        .collect();
    let sample: Vec<usize> = (0..times(60)).map(|_| random.pick(&rest)).collect();
    let met = flip_each(&words, sample);
    assert_eq!(met.into_keys().collect::<Vec<_>>(), [vec![]]);
    for words in [words, book(&[])] {
        let mut words = words.clone();
        let matter = words_that_matter(&words);
        for (place, word) in words.iter_mut().enumerate().skip(73) {
            if !matter.contains(&place) {
                *word = random.bits();
            }
        }
        assert_eq!(calls_alike(&words), []);
    }
}

/// The root has only a first child: its other fields aren't looked at.
#[test]
fn the_other_fields_of_the_root() {
    for words in [drawn(), book(&[])] {
        for (field, value) in [(0, 5), (1, 1), (1, 4_097), (3, 1), (3, 0xffff)] {
            let mut words = words.clone();
            words[72] |= value << (48 - 16 * field);
            assert_eq!(calls_alike(&words), []);
        }
    }
}

#[test]
fn wrong_lengths() {
    for words in [book(&[]), drawn()] {
        for length in [0, 1, 71, 72, 4_681, 8_010, 12_617, 12_619, 25_236] {
            let mut words = words.clone();
            words.resize(length, 0);
            assert_eq!(calls_alike(&words), [Line::Length]);
        }
    }
}

#[test]
fn words_without_a_plan() {
    let mut random = Random::new(502);
    for _ in 0..times(150) {
        let mut words: Vec<u64> = (0..memory::WORDS).map(|_| random.bits()).collect();
        assert_ne!(calls_alike(&words), []);
        // Only few in use.
        words[..72].fill(0);
        for _ in 0..random.below(4) {
            words[random.below(72)] |= 1 << random.below(64);
        }
        calls_alike(&words);
        // None in use: whatever stands there is an empty book, when the root has no child.
        words[..72].fill(0);
        assert_eq!(calls_alike(&words), [Line::LinksGo]);
        words[72] &= !0xffff_0000;
        assert_eq!(calls_alike(&words), []);
        // Small words.
        for word in &mut words {
            *word = if random.one_in(3) {
                random.bits() & 0x3_0003_0003_0003
            } else {
                0
            };
        }
        calls_alike(&words);
    }
}

#[test]
fn another_way_to_write_a_book() {
    let mut random = Random::new(503);
    for _ in 0..times(40) {
        let rules = random.between(1, 60);
        let mut words = some_book(&mut random, rules);
        let held = memory::rules(&words);
        for _ in 0..20 {
            rewrite(&mut random, &mut words);
            assert_eq!(alike(&words), []);
            assert_eq!(memory::rules(&words), held);
        }
        calls_alike(&words);
    }
}

/// One small damage. Some of them keep a book, or make another one.
fn damage(random: &mut Random, words: &mut [u64]) {
    let used = memory::in_use(words);
    if used.is_empty() {
        return;
    }
    let (one, other) = (random.pick(&used), random.pick(&used));
    let rules: Vec<u16> = used.iter().copied().filter(|l| *l > 4_096).collect();
    let rule = if rules.is_empty() {
        4_097
    } else {
        random.pick(&rules)
    };
    let number = memory::link(words, rule).cell & 0x0fff;
    let record = 8_011 + 9 * usize::from(rule - 4_097);
    let any = random.pick(&[0, one, other, 1, 4_096, 4_097, 4_608, 4_609, 0xffff]);
    match random.below(24) {
        0 => words.swap(72 + usize::from(one), 72 + usize::from(other)),
        1 => put(words, one, |link| link.next = any),
        2 => put(words, one, |link| link.first = any),
        3 => put(words, one, |link| link.parent = any),
        4 => put(words, 0, |link| link.first = any),
        5 => put(words, one, |link| link.cell ^= 1 << random.below(16)),
        6 => put(words, one, |link| {
            link.cell = random.pick(&[0x8000, 0, 0x1000, 0x1001])
        }),
        7 => set_used(words, one, false),
        8 => set_used(words, random.between(1, 4_608) as u16, true),
        9 => put(words, one, |link| link.next = one),
        10 => put(words, one, |link| link.parent = one),
        // A rule gets the number of another, or a number too high.
        11 => {
            let twice = random.pick(&[memory::link(words, other).cell, 4_096, 0xffff, number ^ 1]);
            put(words, rule, |link| link.cell = twice);
        }
        12 => put_field(words, 6_986, usize::from(number), any),
        13 => put_field(words, 6_986, usize::from(number), random.below(512) as u16),
        // The record: its length, and a cell.
        14 => {
            words[record - 1] = words[record - 1].wrapping_add(random.pick(&[1, u64::MAX, 1 << 32]))
        }
        15 => {
            let cell = random.pick(&[0, 1, 0x1000, 0x8000, 0x8001, 0x8002, 0x9000, 0xffff]);
            put_field(words, record, random.below(32), cell);
        }
        // Skips a sibling, or takes a child away; the rest of the links fit.
        16 => {
            let next = memory::link(words, one).next;
            if memory::is_used(words, next) {
                let after = memory::link(words, next).next;
                put(words, one, |link| link.next = after);
            }
        }
        17 => put(words, one, |link| link.first = 0),
        // Two siblings change places.
        18 => {
            let here = memory::link(words, one);
            let next = here.next;
            if memory::is_used(words, next) {
                let there = memory::link(words, next);
                words[72 + usize::from(one)] = Link {
                    cell: there.cell,
                    ..here
                }
                .word();
                words[72 + usize::from(next)] = Link {
                    cell: here.cell,
                    ..there
                }
                .word();
            }
        }
        // A new node in the right way, but no rule below it.
        19 => {
            let parent = random.pick(&[one, other, 0]);
            let new = (1..=4_096)
                .find(|l| !memory::is_used(words, *l))
                .expect("one is free");
            let next = memory::link(words, parent).first;
            let cell = random.pick(&[0, 0, 0x1000]);
            words[72 + usize::from(new)] = Link {
                cell,
                parent,
                first: 0,
                next,
            }
            .word();
            put(words, parent, |link| link.first = new);
            set_used(words, new, true);
        }
        // A ring beside the tree: each is the other's parent and first child.
        20 => {
            let free: Vec<u16> = (1..=4_096)
                .filter(|l| !memory::is_used(words, *l))
                .collect();
            for (here, there) in [(free[0], free[1]), (free[1], free[0])] {
                let ring = Link {
                    cell: 0x1000,
                    parent: there,
                    first: there,
                    next: 0,
                };
                words[72 + usize::from(here)] = ring.word();
                set_used(words, here, true);
            }
        }
        // A rule is called by another number, in all places.
        21 => {
            let new = random.below(4_096) as u16;
            put_field(words, 6_986, usize::from(new), rule - 4_097);
            put(words, rule, |link| link.cell = new);
        }
        // The cell of a node and of one record.
        22 => {
            let above = memory::link(words, rule).parent;
            let size = words[record - 1] as usize;
            if (1..=4_096).contains(&above) && (1..=32).contains(&size) {
                let cell = random.pick(&[0, 1, 2, 0x8000]);
                put(words, above, |link| link.cell = cell);
                put_field(words, record, size - 1, cell);
            }
        }
        _ => words[random.below(5_000)] ^= 1 << random.below(64),
    }
}

#[test]
fn damaged_books() {
    let mut random = Random::new(504);
    let mut met: BTreeMap<Vec<Line>, usize> = BTreeMap::new();
    for turn in 0..times(120) {
        let rules = random.pick(&[1, 2, 5, 12, 40, 150]);
        let good = some_book(&mut random, rules);
        assert_eq!(calls_alike(&good), []);
        for _ in 0..60 {
            let mut words = good.clone();
            for _ in 0..random.pick(&[1, 1, 1, 2, 3]) {
                damage(&mut random, &mut words);
            }
            let broken = if turn % 8 == 0 {
                calls_alike(&words)
            } else {
                alike(&words)
            };
            *met.entry(broken).or_insert(0) += 1;
        }
    }
    // Some still pass, and each line is met as the only one that doesn't hold.
    let lines = [
        Line::LinksGo,
        Line::LinksCome,
        Line::Records,
        Line::Ways,
        Line::Covered,
    ];
    assert!(met.contains_key(&vec![]), "{met:?}");
    for line in lines {
        assert!(met.contains_key(&vec![line]), "{line:?} {met:?}");
    }
}

/// Full books: one thing wrong among 4,096 nodes and 512 rules is seen.
#[test]
fn damage_in_full_books() {
    let mut random = Random::new(505);
    let mut lent = Lent::empty();
    for number in 0..512 {
        let mut cells = vec![0x1000 | (number as u16 % 128)];
        cells.extend([0x1004; 30]);
        cells.push(0x0002);
        assert_eq!(
            lent.call(|words| book_calls::add(words, 7 * number, &cells)),
            0
        );
    }
    let good = lent.words().to_vec();
    assert_eq!(calls_alike(&good), []);
    for _ in 0..times(60) {
        let mut words = good.clone();
        let index = random.below(72 * 64);
        words[index / 64] ^= 1 << (index % 64);
        assert_ne!(alike(&words), []);
        words[index / 64] ^= 1 << (index % 64);
        let link = random.between(1, 4_608) as u16;
        put(&mut words, link, |link| match random.below(4) {
            0 => link.cell ^= 1 << random.below(16),
            1 => link.parent ^= 1 << random.below(13),
            2 => link.first ^= 1 << random.below(13),
            _ => link.next ^= 1 << random.below(13),
        });
        alike(&words);
    }
}

/// A rule can't hang below a rule: its way would read a term and one cell more.
#[test]
fn a_rule_below_a_rule() {
    // Rule 7 is the constant 2 at place 0. Place 1 hangs below it.
    let good = book(&[(7, &[0x0002])]);
    for cells in [
        &[0x0002, 0x0007][..],
        &[0x0007],
        &[0x0002],
        &[0x1002, 0x0007],
    ] {
        for cell in [0x0002, 0x1002] {
            let mut words = good.clone();
            put(&mut words, 1, |node| node.cell = cell);
            put(&mut words, 4_097, |rule| rule.first = 4_098);
            let below = Link {
                cell: 9,
                parent: 4_097,
                first: 0,
                next: 0,
            };
            words[72 + 4_098] = below.word();
            set_used(&mut words, 4_098, true);
            put_field(&mut words, 6_986, 9, 1);
            words[5_714] = cells.len() as u64;
            for (index, cell) in cells.iter().enumerate() {
                put_field(&mut words, 5_715, index, *cell);
            }
            assert_ne!(calls_alike(&words), []);
        }
    }
}
