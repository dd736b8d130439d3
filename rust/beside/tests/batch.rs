//! The proved batch beside the model's.

use beside::both::{refuses_memory, Both};
use beside::memory;
use beside::shapes::{few, rewrite, times, words_that_matter};
use claggyfoot::ffi;
use model::batch::{records, Answer};
use model::random::{command, commands, damaged_command, row, term_cells, Random, HOSTILE};

const F: u16 = 0x2001;
const A: u16 = 0x0002;
const B: u16 = 0x0003;
const G: u16 = 0x1004;
const X: u16 = 0x8000;
const Y: u16 = 0x8001;

const VARIANTS: u16 = 0x2000;
const INSTANCES: u16 = 0x3000;
const GENERALISATIONS: u16 = 0x4000;
const UNIFIABLES: u16 = 0x5000;
const ROOM: u16 = 0x7000;

/// The reference's example.
const EXAMPLE: [u16; 27] = [
    0x0005, 0x2001, 0x0002, 0x8000, 0x0009, 0x2001, 0x8000, 0x8000, 0x0002, 0x2001, 0x1004, 0x0003,
    0x0003, 0x4000, 0x2001, 0x0002, 0x0003, 0x3000, 0x2001, 0x8000, 0x8001, 0x1005, 0x1005, 0x7000,
    0x5000, 0x2001, 0x0002,
];

/// Stop, used and the records.
fn numbers(answer: &Answer) -> (u16, usize, Vec<u16>) {
    (answer.stop.number(), answer.used, answer.out.clone())
}

/// Runs one command with much room, and gives its record.
fn record(both: &mut Both, head: u16, term: &[u16]) -> Vec<u16> {
    both.run(&[&[head], term].concat(), 600).out
}

/// Does the question list the rule, alone in a book?
fn lists(question: u16, rule: &[u16], asked: &[u16]) -> bool {
    let mut both = Both::after(&[&[7], rule].concat());
    match &record(&mut both, question, asked)[..] {
        [1, 7] => true,
        [0] => false,
        other => panic!("{other:x?}"),
    }
}

/// A chain of 32 cells that begins with its own symbol.
fn chain(first: u16) -> Vec<u16> {
    [vec![0x1000 | (first + 100)], vec![G; 30], vec![X]].concat()
}

/// The book that 128 chains fill, rule n being chain n.
fn full_of_chains() -> Both {
    let cells: Vec<u16> = (0..128)
        .flat_map(|n| [vec![n], chain(n)].concat())
        .collect();
    let mut both = Both::after(&cells);
    assert_eq!(record(&mut both, ROOM, &[]), [2, 128, 4_096]);
    both
}

/// A book of 512 rules, the numbers being multiples of 8.
fn full_of_rules() -> Both {
    let cells: Vec<u16> = (0..512).flat_map(|n| [8 * n, F, A, X]).collect();
    let mut both = Both::after(&cells);
    assert_eq!(record(&mut both, ROOM, &[]), [2, 512, 3]);
    both
}

#[test]
fn the_references_example() {
    let mut both = Both::empty();
    let answer = both.run(&EXAMPLE, 4_096);
    let out = vec![0, 0, 0, 2, 5, 9, 3, 2, 5, 9, 0, 0x7000, 2, 2, 6, 0x3000];
    assert_eq!(numbers(&answer), (3, 24, out));
    both.rules_alike();
    both.passes();
}

#[test]
fn every_room_for_the_references_example() {
    for room in 0..=20 {
        let mut both = Both::empty();
        let answer = both.run(&EXAMPLE, room);
        assert_eq!(answer.stop.number(), if room < 16 { 10 } else { 3 });
        both.rules_alike();
    }
}

#[test]
fn pairs_of_the_reference() {
    assert!(lists(GENERALISATIONS, &[F, X, Y], &[F, A, B]));
    assert!(lists(GENERALISATIONS, &[F, X, B], &[F, G, B, B]));
    assert!(lists(UNIFIABLES, &[F, X, B], &[F, A, X]));
    assert!(lists(UNIFIABLES, &[F, A, X], &[F, X, B]));
    assert!(!lists(INSTANCES, &[F, X, B], &[F, A, X]));
    assert!(!lists(INSTANCES, &[F, A, X], &[F, X, B]));
    assert!(lists(UNIFIABLES, &[X], &[F, X, Y]));
    assert!(lists(UNIFIABLES, &[F, X, Y], &[X]));
    assert!(!lists(VARIANTS, &[X], &[F, X, Y]));
    assert!(!lists(VARIANTS, &[F, X, Y], &[X]));
    assert!(!lists(INSTANCES, &[F, A, B], &[0x1001, X]));
    assert!(lists(GENERALISATIONS, &[F, X, X], &[F, A, B]));
}

#[test]
fn terms_of_the_reference() {
    let mut both = Both::after(&[0, F, X, Y, 1, F, G, B, B]);
    assert_eq!(record(&mut both, ROOM, &[]), [2, 2, 6]);
    assert_eq!(record(&mut both, 2, &[F, A]), [0x3000]);
    assert_eq!(record(&mut both, 2, &[Y]), [0x4000]);
    assert_eq!(record(&mut both, 2, &[F, X, X]), [0]);
    assert_eq!(record(&mut both, 3, &chain(0)), [0]);
    let mut longer = chain(0);
    longer[31] = G;
    longer.push(A);
    assert_eq!(record(&mut both, 4, &longer), [0x5000]);
    for head in [5, VARIANTS, INSTANCES, GENERALISATIONS, UNIFIABLES] {
        assert_eq!(record(&mut both, head, &wide(16)), [0]);
        assert_eq!(record(&mut both, head, &wide(17)), [0x4000]);
        both.run(&[0x1005], 1);
    }
}

/// A term of so many variables, 13 to 19.
fn wide(variables: u16) -> Vec<u16> {
    let mut cells = vec![0x7001, 0x7001, (variables - 12) << 12];
    cells.extend((0..variables).map(|number| X | number));
    cells
}

#[test]
fn chains_fill_the_nodes() {
    let mut both = full_of_chains();
    for new in [&chain(128)[..], &[A], &[X]] {
        assert_eq!(record(&mut both, 200, new), [0x9000]);
        assert_eq!(record(&mut both, 7, new), [0x6000]);
    }
    assert_eq!(record(&mut both, 200, &chain(7)), [0]);
    // Chain 7 is held under two numbers; only without both there is room for a new chain of 32.
    assert_eq!(record(&mut both, 0x1007, &[]), [0]);
    assert_eq!(record(&mut both, 201, &chain(128)), [0x9000]);
    assert_eq!(record(&mut both, 0x10c8, &[]), [0]);
    assert_eq!(record(&mut both, ROOM, &[]), [2, 127, 4_064]);
    assert_eq!(record(&mut both, 201, &chain(128)), [0]);
    assert_eq!(record(&mut both, 7, &[A]), [0x9000]);
    both.rules_alike();
    both.passes();
}

#[test]
fn five_hundred_and_twelve_rules() {
    let mut both = full_of_rules();
    assert_eq!(record(&mut both, 8, &[B]), [0x6000]);
    assert_eq!(record(&mut both, 9, &[B]), [0x8000]);
    let all: Vec<u16> = (0..512).map(|number| 8 * number).collect();
    let listed = record(&mut both, INSTANCES, &[X]);
    assert_eq!((listed[0], &listed[1..]), (512, &all[..]));
    for room in [0, 1, 511, 512, 513, 514] {
        let answer = both.run(&[UNIFIABLES, X], room);
        assert_eq!(answer.stop.number(), if room < 513 { 10 } else { 0 });
    }
    assert_eq!(record(&mut both, 0x1008, &[]), [0]);
    assert_eq!(record(&mut both, 9, &[B]), [0]);
    both.rules_alike();
}

#[test]
fn full_of_rules_and_nodes_gives_8() {
    let mut both = full_of_chains();
    let more: Vec<u16> = (128..512)
        .flat_map(|n| [vec![n], chain(n % 128)].concat())
        .collect();
    assert_eq!(both.run(&more, 384).out, [0; 384]);
    assert_eq!(record(&mut both, ROOM, &[]), [2, 512, 4_096]);
    assert_eq!(record(&mut both, 0, &[A]), [0x6000]);
    assert_eq!(record(&mut both, 512, &[A]), [0x8000]);
    both.rules_alike();
}

#[test]
fn no_commands_and_no_room() {
    for both in [Both::empty(), Both::after(&EXAMPLE), full_of_rules()] {
        for room in [0, 1, 7] {
            let answer = both.clone().run(&[], room);
            assert_eq!(numbers(&answer), (0, 0, vec![]));
        }
        for cells in [&[ROOM][..], &[30, A], &[0x1005], &[0xffff], &[0], &[2, Y]] {
            let answer = both.clone().run(cells, 0);
            assert_eq!(numbers(&answer), (10, 0, vec![]));
        }
    }
}

#[test]
fn a_bare_variable_asked() {
    let mut both = Both::after(&[3, F, X, X, 1, X, 4, A, 2, X]);
    for (question, listed) in [
        (INSTANCES, &[4, 1, 2, 3, 4][..]),
        (UNIFIABLES, &[4, 1, 2, 3, 4]),
        (GENERALISATIONS, &[2, 1, 2]),
        (VARIANTS, &[2, 1, 2]),
    ] {
        assert_eq!(record(&mut both, question, &[X]), listed);
    }
}

/// One command on a book, with every room up to two more than its record: 10 exactly where the record doesn't fit, alone
/// and after a command whose record does.
fn every_room(both: &Both, cells: &[u16], refusal: u16) {
    let record = both.clone().run(cells, 9_999).out;
    assert_eq!(record[0] >> 12, refusal, "{cells:x?}");
    for room in 0..=record.len() + 2 {
        let fits = room >= record.len();
        let written = if fits { &record[..] } else { &[] };
        let mut alone = both.clone();
        let answer = alone.run(cells, room);
        assert_eq!(
            (answer.stop.number() == 10, &answer.out[..]),
            (!fits, written)
        );
        if !fits || refusal != 0 {
            assert!(alone.lent.words() == both.lent.words());
        }
        let answer = both.clone().run(&[&[0x6fff], cells].concat(), 1 + room);
        assert_eq!(answer.out, [&[0x7000], written].concat());
        assert!(answer.used >= 1);
    }
}

#[test]
fn every_refusal_with_every_room() {
    let example = Both::after(&EXAMPLE);
    for kind in 8..16 {
        every_room(&example, &[kind << 12], 2);
        every_room(&example, &[kind << 12 | 9, A], 2);
    }
    for kind in [2, 3, 4, 5, 7] {
        every_room(&example, &[kind << 12 | 1, Y], 2);
        every_room(&example, &[kind << 12 | 0x0fff], 2);
    }
    for head in [9, 30, VARIANTS, INSTANCES, GENERALISATIONS, UNIFIABLES] {
        every_room(&example, &[head], 3);
        every_room(&example, &[head, F, A], 3);
        every_room(&example, &[&[head], &[G; 31][..]].concat(), 3);
        every_room(&example, &[head, Y], 4);
        every_room(&example, &[head, F, X, 0x9000], 4);
        every_room(&example, &[head, F, 0x8010, A], 4);
        every_room(&example, &[&[head], &[G; 32][..]].concat(), 5);
        every_room(&example, &[&[head], &[G; 32][..], &[0xffff]].concat(), 5);
    }
    every_room(&example, &[9, A], 6);
    every_room(&example, &[0x1005], 7);
    every_room(&example, &[0x6005], 7);
    every_room(&full_of_rules(), &[9, B], 8);
    every_room(&full_of_rules(), &[8, B], 6);
    every_room(&full_of_chains(), &[200, A], 9);
    every_room(&full_of_chains(), &[7, A], 6);
}

#[test]
fn every_good_record_with_every_room() {
    let example = Both::after(&EXAMPLE);
    for cells in [&[30, A][..], &[0x1009], &[0x6002], &[ROOM]] {
        every_room(&example, cells, 0);
    }
    for question in [VARIANTS, INSTANCES, GENERALISATIONS, UNIFIABLES] {
        for term in [&[X][..], &[F, X, Y], &[F, G, X, B], &[A]] {
            every_room(&example, &[&[question], term].concat(), 0);
        }
    }
    every_room(&full_of_chains(), &[0x6005], 0);
    every_room(&full_of_chains(), &[INSTANCES, X], 0);
}

/// Every kind with many numbers, and something after it that may or may not be read.
#[test]
fn command_cells() {
    let example = Both::after(&EXAMPLE);
    let numbers = (0..40).chain((40..4_096).step_by(53)).chain(4_090..4_096);
    for number in numbers {
        for kind in 0..16 {
            for after in [&[][..], &[F, X, A], &[0x1005, 0x1004]] {
                let cells = [&[kind << 12 | number], after].concat();
                example.clone().run(&cells, 9);
            }
        }
    }
}

/// All short rows over cells that are good as commands, as terms, as both or as neither.
#[test]
fn all_short_rows() {
    let cells = [
        0x0002, 0x0005, 0x1004, 0x1005, 0x2001, 0x2000, 0x3000, 0x4000, 0x5000, 0x6009, 0x7000,
        0x8000, 0x8001, 0x9000, 0xffff,
    ];
    let example = Both::after(&EXAMPLE);
    let mut rows = vec![vec![]];
    for _ in 0..3 {
        let longer = |row: &Vec<u16>| cells.map(|cell| [&row[..], &[cell]].concat());
        rows = rows.iter().flat_map(longer).collect();
        for row in &rows {
            for room in [0, 1, 2, 4, 30] {
                example.clone().run(row, room);
            }
        }
    }
}

/// A book of random rules that have come and gone, in half of the cases written in another way.
fn some_book(random: &mut Random) -> Both {
    let count = random.pick(&[0, 3, 20, 100, 300]);
    let mut both = Both::after(&commands(random, count, 0));
    if random.one_in(2) {
        both.lent.call(|words| rewrite(random, words));
    }
    both
}

/// Commands: good ones, some damaged, or cells without any plan.
fn some_cells(random: &mut Random) -> Vec<u16> {
    match random.below(5) {
        0 => commands(random, 30, 0),
        1 => commands(random, 30, 15),
        2 => [commands(random, 10, 0), damaged_command(random)].concat(),
        3 => [commands(random, 4, 0), vec![0x3000], vec![G; 32]].concat(),
        _ => {
            let (good, length) = (random.below(4), random.between(0, 40));
            [commands(random, good, 0), row(random, length)].concat()
        }
    }
}

fn some_room(random: &mut Random) -> usize {
    match random.below(3) {
        0 => random.below(12),
        1 => random.below(120),
        _ => 4_096,
    }
}

#[test]
fn random_batches_on_random_books() {
    let mut random = Random::new(701);
    let mut met = [0; 11];
    for _ in 0..times(120) {
        let mut both = some_book(&mut random);
        for _ in 0..20 {
            let cells = some_cells(&mut random);
            let room = some_room(&mut random);
            met[usize::from(both.run(&cells, room).stop.number())] += 1;
        }
        both.rules_alike();
        both.passes();
    }
    for stop in [0, 2, 3, 4, 5, 10] {
        assert!(met[stop] > 20, "{met:?}");
    }
}

/// What is not used can be run again: commands cut by room after room give what one batch gives.
#[test]
fn a_batch_in_pieces() {
    let mut random = Random::new(702);
    for _ in 0..times(60) {
        let mut whole = some_book(&mut random);
        let mut pieces = whole.clone();
        let cells = commands(&mut random, 40, 0);
        let wanted = whole.run(&cells, 9_999).out;
        let (mut at, mut out) = (0, vec![]);
        while at < cells.len() {
            let room = random.between(0, 40);
            let answer = pieces.run(&cells[at..], room);
            at += answer.used;
            out.extend(answer.out);
            if answer.used == 0 {
                let answer = pieces.run(&cells[at..], 600);
                at += answer.used;
                out.extend(answer.out);
            }
        }
        assert_eq!(out, wanted);
        assert!(pieces.lent.words() == whole.lent.words());
    }
}

/// Adds these rules in any order, with others that come and go and with refused commands between.
fn by_a_way(random: &mut Random, rules: &[(u16, Vec<u16>)]) -> Both {
    let mut both = Both::empty();
    let mut left = rules.to_vec();
    while !left.is_empty() {
        let (number, cells) = left.swap_remove(random.below(left.len()));
        let guest = [vec![1_000 + random.below(9) as u16], few(random)].concat();
        both.run(&guest, random.below(2));
        both.run(&damaged_command(random), random.below(3));
        assert_eq!(record(&mut both, number, &cells), [0]);
        if random.one_in(3) {
            assert_eq!(record(&mut both, 0x1000 | number, &[]), [0]);
            left.push((number, cells));
        }
    }
    for held in both.model.clone().rules().keys() {
        if !rules.iter().any(|(number, _)| number == held) {
            both.run(&[0x1000 | held], 1);
        }
    }
    both
}

#[test]
fn two_histories_to_one_set() {
    let mut random = Random::new(703);
    for _ in 0..times(30) {
        let count = random.pick(&[0, 1, 5, 30, 60]);
        let rules: Vec<(u16, Vec<u16>)> = (0..count).map(|n| (7 * n, few(&mut random))).collect();
        let mut one = by_a_way(&mut random, &rules);
        let mut other = by_a_way(&mut random, &rules);
        for _ in 0..10 {
            assert_eq!(one.model, other.model);
            let cells = some_cells(&mut random);
            let room = some_room(&mut random);
            assert_eq!(one.run(&cells, room), other.run(&cells, room));
        }
        one.rules_alike();
        other.rules_alike();
    }
}

/// Two ways to 4,096 nodes: in the second each chain comes where another one went.
#[test]
fn two_histories_to_a_full_set() {
    let mut one = full_of_chains();
    let mut other = Both::empty();
    for n in 0..128 {
        assert_eq!(record(&mut other, 1_000 + n, &chain(500 + n)), [0]);
    }
    for n in 0..128 {
        let gone = 0x1000 | (1_000 + (n * 51) % 128);
        let comes = (n * 37 + 11) % 128;
        let cells = [&[gone, comes], &chain(comes)[..]].concat();
        assert_eq!(other.run(&cells, 2).out, [0, 0]);
    }
    assert_eq!(one.model, other.model);
    for cells in [
        [vec![128], chain(128)].concat(),
        [vec![128], chain(50), vec![0x1032, 50], chain(128)].concat(),
        [vec![0x1080, 50], chain(128), vec![ROOM]].concat(),
    ] {
        assert_eq!(one.run(&cells, 9), other.run(&cells, 9));
    }
    one.rules_alike();
    other.rules_alike();
}

/// Runs some batches on memory that may be a book or not.
fn any_memory(random: &mut Random, words: &[u64]) -> bool {
    let passes = memory::passes(words);
    assert_eq!(ffi::book_passes(words), u64::from(!passes));
    for _ in 0..2 {
        let (cells, room) = (some_cells(random), some_room(random));
        if passes {
            Both::of(words).run(&cells, room);
        } else {
            refuses_memory(words, &cells, room);
        }
    }
    refuses_memory(&words[1..], &[], 0);
    passes
}

#[test]
fn memory_of_a_wrong_length() {
    for words in [Both::empty(), Both::after(&EXAMPLE)].map(|both| both.lent.words().to_vec()) {
        for length in [0, 1, 72, 4_681, 12_617, 12_619, 25_236] {
            let mut words = words.clone();
            words.resize(length, 0);
            for cells in [&[][..], &[ROOM], &[30, A], &[0xffff], &[2]] {
                refuses_memory(&words, cells, 9);
                refuses_memory(&words, cells, 0);
            }
        }
    }
}

#[test]
fn memory_with_a_bit_flipped() {
    let mut random = Random::new(704);
    for cells in [&[][..], &[0, X], &EXAMPLE] {
        let mut words = Both::after(cells).lent.words().to_vec();
        let mut passed = 0;
        for place in words_that_matter(&words) {
            for bit in (0..64).filter(|bit| place % 8 < 2 || bit % 7 == 0) {
                words[place] ^= 1 << bit;
                passed += usize::from(any_memory(&mut random, &words));
                words[place] ^= 1 << bit;
            }
        }
        assert!(passed > 0, "some flips make another book");
    }
}

#[test]
fn memory_without_a_plan() {
    let mut random = Random::new(705);
    for _ in 0..times(60) {
        let mut words: Vec<u64> = (0..memory::WORDS).map(|_| random.bits()).collect();
        assert!(!any_memory(&mut random, &words));
        // Nothing in use and no child of the root: an empty book, whatever else stands there.
        words[..73].fill(0);
        assert!(any_memory(&mut random, &words));
        words[random.below(72)] |= 1 << random.below(64);
        any_memory(&mut random, &words);
    }
}

/// Refused commands and kinds 2 to 7 leave every word as it is, also where the check doesn't look.
#[test]
fn what_leaves_the_words_as_they_are() {
    let mut random = Random::new(706);
    for _ in 0..times(60) {
        let mut both = some_book(&mut random);
        let before = both.lent.words().to_vec();
        for _ in 0..20 {
            let cells = command(&mut random);
            if cells[0] >> 12 > 1 {
                both.run(&cells, some_room(&mut random));
            } else {
                both.run(&cells, 0);
            }
            both.run(&damaged_command(&mut random)[..1], 9);
        }
        assert!(both.lent.words() == before);
    }
}

/// Long terms under many numbers: 8 and 9 are met in batches.
#[test]
fn batches_at_the_borders() {
    let mut random = Random::new(707);
    for (longest, refusal, batches) in [(32, 9, 40), (2, 8, 80)] {
        let mut both = Both::empty();
        let mut met = 0;
        for _ in 0..times(batches) {
            let mut cells = vec![];
            for _ in 0..20 {
                let number = random.below(900) as u16;
                let length = random.between(longest.min(24), longest);
                cells.extend([vec![number], term_cells(&mut random, length)].concat());
                if random.one_in(9) {
                    cells.push(0x1000 | random.below(900) as u16);
                }
            }
            let answer = both.run(&cells, 60);
            let refused = |(found, _): &(u16, &[u16])| *found == refusal;
            met += records(&answer.out).into_iter().filter(refused).count();
        }
        assert!(met > 10, "{refusal}: {met}");
        both.rules_alike();
        both.passes();
    }
}

/// Rows of border cells only, from every one of them on.
#[test]
fn border_cells() {
    let mut random = Random::new(708);
    for first in HOSTILE {
        for _ in 0..times(60) {
            let mut both = Both::after(&EXAMPLE);
            let length = random.between(0, 50);
            let cells = [vec![first], row(&mut random, length)].concat();
            both.run(&cells, some_room(&mut random));
        }
    }
}
