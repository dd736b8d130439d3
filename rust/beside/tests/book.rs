//! The proved calls on a book beside the model's, step by step.

use std::collections::BTreeMap;

use beside::book_calls::{self, RoomLeft, RuleShown};
use beside::lent::Lent;
use beside::memory::{self, Link};
use beside::shapes::{few, rewrite, times};
use model::book::{Book, Refusal};
use model::random::{damaged, term_cells, Random};
use model::term::{read, Term};

/// Which nodes and places must be used: a beginning gets the free node of lowest number when it comes, and gives it back
/// when no rule has it any more; a rule gets the lowest free place.
#[derive(Default)]
struct Numbering {
    /// Each beginning with its node and how many rules have it.
    nodes: BTreeMap<Vec<u16>, (u16, usize)>,
    /// Each rule number with its place and cells.
    rules: BTreeMap<u16, (u16, Vec<u16>)>,
}

/// The lowest number that isn't among these.
fn lowest_free(taken: impl Iterator<Item = u16>) -> u16 {
    let mut taken: Vec<u16> = taken.collect();
    taken.sort_unstable();
    let gap = (0..).zip(&taken).find(|(number, used)| number != *used);
    gap.map_or(taken.len() as u16, |(number, _)| number)
}

fn form(cells: &[u16]) -> Vec<u16> {
    cells.iter().map(|cell| memory::blank(*cell)).collect()
}

impl Numbering {
    fn add(&mut self, number: u16, cells: &[u16]) {
        let form = form(cells);
        for length in 1..=form.len() {
            if !self.nodes.contains_key(&form[..length]) {
                let node = lowest_free(self.nodes.values().map(|(node, _)| *node));
                self.nodes.insert(form[..length].to_vec(), (node, 0));
            }
            self.nodes.get_mut(&form[..length]).expect("it is there").1 += 1;
        }
        let place = lowest_free(self.rules.values().map(|(place, _)| *place));
        self.rules.insert(number, (place, cells.to_vec()));
    }

    fn remove(&mut self, number: u16) {
        let (_, cells) = self.rules.remove(&number).expect("it is held");
        let form = form(&cells);
        for length in 1..=form.len() {
            self.nodes.get_mut(&form[..length]).expect("it is there").1 -= 1;
        }
        self.nodes.retain(|_, (_, rules)| *rules > 0);
    }

    /// The nodes and places that memory uses, which passes.
    fn of(words: &[u64]) -> Numbering {
        let mut numbering = Numbering::default();
        for (number, cells) in memory::rules(words) {
            let place = memory::place(words, number);
            let mut link = memory::link(words, 4_097 + place).parent;
            let form = form(&cells);
            for length in (1..=form.len()).rev() {
                let beginning = form[..length].to_vec();
                numbering.nodes.entry(beginning).or_insert((link - 1, 0)).1 += 1;
                link = memory::link(words, link).parent;
            }
            numbering.rules.insert(number, (place, cells));
        }
        numbering
    }

    /// The two maps.
    fn maps(&self) -> [u64; 72] {
        let mut maps = [0; 72];
        let mut set = |index: u16| maps[usize::from(index) / 64] |= 1 << (63 - index % 64);
        self.nodes.values().for_each(|(node, _)| set(*node));
        self.rules
            .values()
            .for_each(|(place, _)| set(4_096 + place));
        maps
    }

    /// The words of the root and of all links in use, by link.
    fn links(&self) -> BTreeMap<u16, Link> {
        let link_of = |form: &[u16]| self.nodes.get(form).map_or(0, |(node, _)| node + 1);
        let mut children: BTreeMap<u16, BTreeMap<u16, u16>> = BTreeMap::new();
        for (form, (node, _)) in &self.nodes {
            let (cell, above) = form.split_last().expect("no beginning is empty");
            let siblings = children.entry(link_of(above)).or_default();
            assert_eq!(siblings.insert(*cell, node + 1), None);
        }
        for (number, (place, cells)) in &self.rules {
            let siblings = children.entry(link_of(&form(cells))).or_default();
            assert_eq!(siblings.insert(*number, 4_097 + place), None);
        }
        let first = |link: u16| {
            let children = children.get(&link);
            children.map_or(0, |children| *children.values().next().expect("one"))
        };
        let mut links = BTreeMap::new();
        let mut put = |link: u16, cell, parent, next| {
            let first = first(link);
            links.insert(
                link,
                Link {
                    cell,
                    parent,
                    first,
                    next,
                },
            )
        };
        put(0, 0, 0, 0);
        for (parent, siblings) in &children {
            let after = siblings.values().skip(1).copied().chain([0]);
            for ((cell, link), next) in siblings.iter().zip(after) {
                put(*link, *cell, *parent, next);
            }
        }
        links
    }

    /// Memory has these links, places and records. The root has only a first child.
    fn stands_in(&self, words: &[u64]) {
        let mut links = self.links();
        let root = links.remove(&0).expect("it is there");
        assert_eq!(memory::link(words, 0).first, root.first);
        for (link, wanted) in links {
            assert_eq!(memory::link(words, link), wanted, "link {link}");
        }
        for (number, (place, cells)) in &self.rules {
            assert_eq!(memory::place(words, *number), *place);
            assert_eq!(memory::length(words, *place), cells.len() as u64);
            assert_eq!(memory::cells(words, *place), padded(cells));
        }
    }
}

/// The cells and zeros, 32 in all.
fn padded(cells: &[u16]) -> Vec<u16> {
    let mut padded = cells.to_vec();
    padded.resize(32, 0);
    padded
}

fn number_of(answer: Result<(), Refusal>) -> u64 {
    answer.map_or_else(|refusal| u64::from(refusal.number()), |()| 0)
}

/// The archive's book, the model's, and the nodes that must be used.
struct Pair {
    lent: Lent<u64>,
    model: Book,
    numbering: Numbering,
}

impl Pair {
    fn empty() -> Pair {
        Pair {
            lent: Lent::empty(),
            model: Book::empty(),
            numbering: Numbering::default(),
        }
    }

    /// A call that must leave every word as it is.
    fn unchanged<T>(&mut self, call: impl FnOnce(&mut [u64]) -> T) -> T {
        let before = self.lent.words().to_vec();
        let answer = self.lent.call(call);
        assert!(self.lent.words() == before);
        answer
    }

    /// Both answer alike, and the words are what they must be.
    fn add(&mut self, number: u64, cells: &[u16]) -> u64 {
        let before = self.lent.words().to_vec();
        let found = self
            .lent
            .call(|words| book_calls::add(words, number, cells));
        let wanted = match Term::read(cells, 0) {
            Ok(term) => number_of(self.model.add(number as u16, term)),
            Err(fault) => u64::from(fault.number()),
        };
        assert_eq!(found, wanted, "{number} {cells:x?}");
        if found == 0 {
            self.numbering.add(number as u16, cells);
            let record = 8_010 + 9 * usize::from(self.numbering.rules[&(number as u16)].0);
            let mut wanted = before;
            let here = self.lent.words();
            let place = 6_986 + number as usize / 4;
            let others = !(0xffff << (48 - 16 * (number % 4)));
            assert_eq!(here[place] & others, wanted[place] & others);
            wanted[place] = here[place];
            wanted[record..record + 9].copy_from_slice(&here[record..record + 9]);
            assert!(here[6_986..] == wanted[6_986..]);
        } else {
            assert!(self.lent.words() == before);
        }
        assert!(self.lent.words()[..72] == self.numbering.maps());
        found
    }

    fn remove(&mut self, number: u64) -> u64 {
        let before = self.lent.words().to_vec();
        let found = self.lent.call(|words| book_calls::remove(words, number));
        let wanted = number_of(self.model.remove(number as u16));
        assert_eq!(found, wanted, "{number}");
        if found == 0 {
            self.numbering.remove(number as u16);
            assert!(self.lent.words()[4_681..] == before[4_681..]);
        } else {
            assert!(self.lent.words() == before);
        }
        assert!(self.lent.words()[..72] == self.numbering.maps());
        found
    }

    /// Both show the same under a number; cells past the record stay as they are.
    fn show(&mut self, number: u64, room: usize) {
        let mut out = vec![0xabcd; 8 + room + 8];
        let lent = &mut out[8..8 + room];
        let found = self.unchanged(|words| book_calls::show(words, number, lent));
        let record = match self.model.show(number as u16) {
            Ok(cells) => [&[cells.len() as u16], cells].concat(),
            Err(refusal) => vec![refusal.number() << 12],
        };
        let mut wanted = vec![0xabcd; 8 + room + 8];
        let (refusal, size) = if record.len() > room {
            (10, 0)
        } else {
            wanted[8..8 + record.len()].copy_from_slice(&record);
            (record[0] >> 12, record.len() - 1)
        };
        let (refusal, size) = (u64::from(refusal), size as u64);
        assert_eq!(found, RuleShown { refusal, size }, "{number}");
        assert_eq!(out, wanted, "{number}");
    }

    fn room(&mut self) -> (usize, usize) {
        let found = self.unchanged(book_calls::room);
        let (rules, nodes) = self.model.room();
        let wanted = RoomLeft {
            refusal: 0,
            rules: rules as u64,
            nodes: nodes as u64,
        };
        assert_eq!(found, wanted);
        (rules, nodes)
    }

    /// The memory passes both checks and holds the model's rules, and its words are those of the numbering.
    fn checked(&mut self) {
        assert_eq!(self.unchanged(|words| book_calls::passes(words)), 0);
        assert_eq!(memory::broken(self.lent.words()), []);
        let rules = self.model.rules().iter();
        let rules: BTreeMap<u16, Vec<u16>> =
            rules.map(|(k, term)| (*k, term.cells().to_vec())).collect();
        assert_eq!(memory::rules(self.lent.words()), rules);
        self.numbering.stands_in(self.lent.words());
        self.room();
    }

    /// Every number is shown alike.
    fn all_shown(&mut self) {
        (0..4_096).for_each(|number| self.show(number, 33));
    }

    /// One random call.
    fn step(&mut self, random: &mut Random, numbers: usize) {
        let number = match random.below(60) {
            0 => 4_095,
            1 => random.below(4_096) as u64,
            _ => random.below(numbers) as u64,
        };
        match random.below(20) {
            0 => _ = self.add(number, &to_its_end(damaged(random))),
            1..=10 => _ = self.add(number, &few(random)),
            11..=16 => _ = self.remove(number),
            17 => _ = self.room(),
            18 => self.show(number, random.below(70)),
            _ => self.show(number, 33),
        }
    }
}

/// The cells up to the end of the term with which they begin, or all where there is none.
fn to_its_end(mut cells: Vec<u16>) -> Vec<u16> {
    if let Ok(length) = read(&cells, 0) {
        cells.truncate(length);
    }
    cells
}

/// The link chain of 32 cells that begins with a symbol of its own.
fn chain(first: u16) -> Vec<u16> {
    let mut cells = vec![0x1000 | first];
    cells.extend([0x1004; 30]);
    cells.push(0x0002);
    cells
}

#[test]
fn a_book_has_12_618_words() {
    assert_eq!(book_calls::words(), memory::WORDS);
    let empty = Lent::empty();
    assert!(empty.words().iter().all(|word| *word == 0));
    let mut pair = Pair::empty();
    pair.checked();
    pair.all_shown();
    for length in [0, 1, 72, 12_617, 12_619, 25_236] {
        let words = vec![7; length];
        let mut lent = Lent::of(&words);
        assert_eq!(lent.call(book_calls::empty), 1);
        assert_eq!(lent.words(), words);
    }
}

#[test]
fn the_book_drawn_in_the_docs() {
    let mut pair = Pair::empty();
    assert_eq!(pair.add(5, &[0x2001, 0x0002, 0x8000]), 0);
    assert_eq!(pair.add(9, &[0x2001, 0x8000, 0x8000]), 0);
    assert_eq!(pair.add(2, &[0x2001, 0x1004, 0x0003, 0x0003]), 0);
    assert_eq!(pair.room(), (3, 8));
    pair.checked();
    pair.all_shown();
    assert_eq!(pair.add(7, &[0x2001, 0x0002, 0x8000]), 0);
    assert_eq!(pair.room(), (4, 8));
    pair.checked();
}

#[test]
fn the_node_count_of_the_reference() {
    let mut pair = Pair::empty();
    pair.add(0, &[0x2001, 0x8000, 0x8000]);
    pair.add(1, &[0x2001, 0x1004, 0x0003, 0x0003]);
    assert_eq!(pair.room(), (2, 6));
    pair.checked();
}

#[test]
fn cells_that_are_no_rule() {
    let mut pair = Pair::empty();
    pair.add(3, &[0x2001, 0x8000, 0x8001]);
    for (cells, refusal) in [
        (&[][..], 3),
        (&[0x2001, 0x0002], 3),
        (&[0x8001], 4),
        (&[0x9000], 4),
        (&[0x1004; 32], 5),
        (&[0x1004; 33], 5),
    ] {
        assert_eq!(pair.add(3, cells), refusal);
        assert_eq!(pair.add(4, cells), refusal);
    }
    (0..=40).for_each(|room| pair.show(3, room));
    assert_eq!(pair.add(4_095, &[0x0002]), 0);
    assert_eq!(pair.add(0, &[0x0002]), 0);
    pair.checked();
}

#[test]
fn two_rules_of_one_form() {
    for (first, second) in [(5, 7), (7, 5)] {
        for goes in [5, 7] {
            let mut pair = Pair::empty();
            pair.add(first, &[0x2001, 0x8000, 0x8000]);
            pair.add(second, &[0x2001, 0x8000, 0x8001]);
            assert_eq!(pair.room(), (2, 3));
            assert_eq!(pair.remove(goes), 0);
            assert_eq!(pair.room(), (1, 3));
            pair.checked();
            pair.all_shown();
            assert_eq!(pair.remove(goes), 7);
            assert_eq!(pair.remove(12 - goes), 0);
            assert_eq!(pair.room(), (0, 0));
            pair.checked();
        }
    }
}

#[test]
fn chains_that_fill_the_nodes() {
    let mut pair = Pair::empty();
    for first in 0..128 {
        assert_eq!(pair.add(u64::from(first), &chain(first)), 0);
    }
    assert_eq!(pair.room(), (128, 4_096));
    pair.checked();
    // A new first symbol gives 9, be it one cell or 32; before that 6 is asked.
    assert_eq!(pair.add(200, &chain(128)), 9);
    assert_eq!(pair.add(200, &[0x0002]), 9);
    assert_eq!(pair.add(200, &[0x8000]), 9);
    assert_eq!(pair.add(127, &chain(128)), 6);
    // One more node anywhere gives 9.
    let mut other_end = chain(77);
    other_end[31] = 0x8000;
    assert_eq!(pair.add(200, &other_end), 9);
    // The same blank form under another number is taken.
    assert_eq!(pair.add(200, &chain(77)), 0);
    assert_eq!(pair.room(), (129, 4_096));
    pair.checked();
    // As long as one rule of the chain's form is held there is no room; then there is.
    assert_eq!(pair.remove(77), 0);
    assert_eq!(pair.add(201, &chain(128)), 9);
    assert_eq!(pair.remove(200), 0);
    assert_eq!(pair.room(), (127, 4_064));
    assert_eq!(pair.add(201, &chain(128)), 0);
    assert_eq!(pair.add(202, &chain(77)), 9);
    assert_eq!(pair.room(), (128, 4_096));
    pair.checked();
    // All but one node: one node more is taken, and then none.
    assert_eq!(pair.remove(3), 0);
    let mut short = chain(3);
    short.remove(1);
    assert_eq!(pair.add(3, &short), 0);
    assert_eq!(pair.room(), (128, 4_095));
    assert_eq!(pair.add(300, &[0x1fff, 0x0002]), 9);
    assert_eq!(pair.add(300, &[0x0002]), 0);
    assert_eq!(pair.add(301, &[0x0003]), 9);
    assert_eq!(pair.room(), (129, 4_096));
    pair.checked();
    // From all to nothing.
    let held: Vec<u16> = pair.model.rules().keys().copied().collect();
    for number in held {
        assert_eq!(pair.remove(u64::from(number)), 0);
    }
    assert_eq!(pair.room(), (0, 0));
    pair.checked();
}

/// Rules with 512 numbers that are no row.
fn numbers() -> Vec<u64> {
    (0..512).map(|k| (k * 2_731 + 5) % 4_096).collect()
}

#[test]
fn rules_that_fill_the_book() {
    let numbers = numbers();
    let mut pair = Pair::empty();
    for (index, number) in numbers.iter().enumerate() {
        let cells = [0x2001, index as u16 % 20, index as u16 / 20];
        assert_eq!(pair.add(*number, &cells), 0);
    }
    assert_eq!(pair.room().0, 512);
    pair.checked();
    let new = (0..4_096)
        .find(|k| !numbers.contains(k))
        .expect("some are free");
    assert_eq!(pair.add(numbers[100], &[0x0002]), 6);
    assert_eq!(pair.add(new, &[0x0002]), 8);
    assert_eq!(pair.add(new, &[0x2001, 0, 0]), 8);
    // One goes, another comes, and the one that went finds no place.
    assert_eq!(pair.remove(numbers[100]), 0);
    assert_eq!(pair.add(new, &[0x0002]), 0);
    assert_eq!(pair.add(numbers[100], &[0x0002]), 8);
    pair.checked();
    pair.all_shown();
}

#[test]
fn rules_and_nodes_both_full() {
    let mut pair = Pair::empty();
    for number in 0..512 {
        assert_eq!(pair.add(number, &chain(number as u16 % 128)), 0);
    }
    assert_eq!(pair.room(), (512, 4_096));
    assert_eq!(pair.add(600, &chain(128)), 8);
    assert_eq!(pair.add(511, &chain(128)), 6);
    assert_eq!(pair.remove(511), 0);
    assert_eq!(pair.add(600, &chain(128)), 9);
    assert_eq!(pair.add(600, &chain(5)), 0);
    pair.checked();
}

/// After removals a new node is the free node of lowest number, used before or not.
#[test]
fn freed_nodes_come_back_from_the_lowest() {
    let mut pair = Pair::empty();
    pair.add(1, &[0x1001, 0x1001, 0x0002]);
    pair.add(2, &[0x1002, 0x0002]);
    pair.add(3, &[0x1003, 0x1003, 0x0002]);
    // Nodes 0 1 2, 3 4, 5 6 7; two are freed, one is used, then both and node 8.
    pair.remove(2);
    pair.add(4, &[0x0009]);
    assert_eq!(pair.numbering.nodes[&vec![0x0009]].0, 3);
    pair.remove(1);
    pair.add(5, &[0x1007, 0x1007, 0x1007, 0x1007, 0x0007]);
    let node = |length: usize| pair.numbering.nodes[&[0x1007; 4][..length]].0;
    assert_eq!([1, 2, 3, 4].map(node), [0, 1, 2, 4]);
    assert_eq!(pair.lent.words()[0], 0xff80_0000_0000_0000);
    pair.checked();
}

#[test]
fn random_histories() {
    let mut random = Random::new(401);
    for turn in 0..times(60) {
        let numbers = random.pick(&[4, 12, 40, 100]);
        let mut pair = Pair::empty();
        for step in 0..300 {
            pair.step(&mut random, numbers);
            if step % 40 == 39 {
                pair.checked();
            }
        }
        if turn % 6 == 0 {
            pair.all_shown();
        }
    }
}

/// Memory that passes and that no history writes: the calls answer by its rules all the same.
#[test]
fn random_histories_in_rewritten_books() {
    let mut random = Random::new(404);
    for _ in 0..times(30) {
        let numbers = random.pick(&[4, 12, 40, 100]);
        let mut pair = Pair::empty();
        for step in 0..300 {
            pair.step(&mut random, numbers);
            if step % 30 == 29 {
                pair.lent.call(|words| rewrite(&mut random, words));
                pair.numbering = Numbering::of(pair.lent.words());
                pair.checked();
            }
        }
        pair.checked();
    }
}

/// Long terms and many numbers: the borders of 512 rules and of 4,096 nodes are met, and crossed to and fro.
#[test]
fn random_histories_at_the_borders() {
    let mut random = Random::new(402);
    for turn in 0..times(3) {
        let (longest, most, steps) = [(32, 140, 700), (3, 500, 1_600), (12, 450, 900)][turn % 3];
        let mut pair = Pair::empty();
        let mut met = BTreeMap::new();
        for step in 0..steps {
            let number = random.below(900) as u64;
            let full = pair.model.rules().len() > most;
            let answer = if random.one_in(if full { 3 } else { 20 }) {
                pair.remove(number)
            } else {
                let length = random.between(longest.min(3), longest);
                pair.add(number, &term_cells(&mut random, length))
            };
            *met.entry(answer).or_insert(0) += 1;
            if step % 200 == 199 {
                pair.checked();
            }
        }
        assert!(met.contains_key(&6) && met.contains_key(&7), "{met:?}");
        assert!(longest != 32 || met.contains_key(&9), "{met:?}");
        assert!(longest != 3 || met.contains_key(&8), "{met:?}");
    }
}

/// A rule as a command has it.
type Rule = (u16, Vec<u16>);

/// Rules with different numbers.
fn some_rules(random: &mut Random, count: usize) -> Vec<Rule> {
    let mut rules = BTreeMap::new();
    for _ in 0..count {
        rules.insert(random.below(300) as u16, few(random));
    }
    rules.into_iter().collect()
}

/// A book that holds these rules, added in any order, with other rules that come and go.
fn by_a_way(random: &mut Random, rules: &[Rule]) -> Pair {
    let mut pair = Pair::empty();
    let mut left = rules.to_vec();
    while !left.is_empty() {
        let (number, cells) = left.swap_remove(random.below(left.len()));
        for guest in 0..random.below(3) as u64 {
            pair.add(1_000 + random.below(10) as u64 + 10 * guest, &few(random));
        }
        assert_eq!(pair.add(u64::from(number), &cells), 0);
        if random.one_in(3) {
            assert_eq!(pair.remove(u64::from(number)), 0);
            left.push((number, cells));
        }
    }
    for guest in 1_000..1_100 {
        pair.remove(guest);
    }
    pair
}

#[test]
fn two_histories_to_one_set() {
    let mut random = Random::new(403);
    for _ in 0..times(40) {
        let count = random.between(0, 30);
        let rules = some_rules(&mut random, count);
        let mut one = by_a_way(&mut random, &rules);
        let mut other = by_a_way(&mut random, &rules);
        assert_eq!(one.model, other.model);
        assert_eq!(
            memory::rules(one.lent.words()),
            memory::rules(other.lent.words())
        );
        // The same calls from here on have the same answers.
        let mut random = Random::new(random.bits());
        for _ in 0..30 {
            let (number, cells) = (random.below(300) as u64, few(&mut random));
            assert_eq!(one.room(), other.room());
            if random.one_in(2) {
                assert_eq!(one.add(number, &cells), other.add(number, &cells));
            } else {
                assert_eq!(one.remove(number), other.remove(number));
            }
            one.show(number, 40);
            other.show(number, 40);
        }
        one.checked();
        other.checked();
    }
}

/// Two ways to a full set: in the second each chain comes where another one went.
#[test]
fn two_histories_to_a_full_set() {
    let (mut one, mut other) = (Pair::empty(), Pair::empty());
    for first in 0..128 {
        assert_eq!(one.add(u64::from(first), &chain(first)), 0);
        assert_eq!(other.add(u64::from(1_000 + first), &chain(500 + first)), 0);
    }
    for index in 0..128 {
        let first = (index * 37 + 11) % 128;
        assert_eq!(other.remove(u64::from(1_000 + (index * 51) % 128)), 0);
        assert_eq!(other.add(u64::from(first), &chain(first)), 0);
    }
    assert_eq!(one.model, other.model);
    for pair in [&mut one, &mut other] {
        assert_eq!(pair.room(), (128, 4_096));
        assert_eq!(pair.add(128, &chain(128)), 9);
        assert_eq!(pair.add(128, &chain(50)), 0);
        assert_eq!(pair.add(128, &chain(128)), 6);
        assert_eq!(pair.remove(50), 0);
        assert_eq!(pair.add(50, &chain(128)), 9);
        assert_eq!(pair.remove(128), 0);
        assert_eq!(pair.add(50, &chain(128)), 0);
        pair.checked();
        pair.all_shown();
    }
}
