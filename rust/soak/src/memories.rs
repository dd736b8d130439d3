//! Memory that may be a book or not: single bits flipped, several things wrong, and words without a plan.

use beside::both::{refuses_memory, Both};
use beside::memory;
use beside::shapes::{few, put, put_field, rewrite, set_used, words_that_matter};
use claggyfoot::ffi;
use model::random::{commands, Random};

use crate::counts::Counts;
use crate::Part;

/// Both checks agree; a batch is refused where the memory doesn't pass, and answered by its rules where it does.
fn alike(random: &mut Random, counts: &mut Counts, words: &[u64]) {
    let passes = memory::passes(words);
    assert_eq!(ffi::book_passes(words), u64::from(!passes));
    let count = random.below(6);
    let (cells, room) = (commands(random, count, 9), random.below(30));
    if passes {
        let mut both = Both::of(words);
        both.run(&cells, room);
        both.run(&[0x3000, 0x8000, 0x7000], 600);
        counts.add("memories that pass", 1);
    } else {
        refuses_memory(words, &cells, room);
        counts.add("memories that don't pass", 1);
    }
}

/// The words of a small book: two rules of one form, one of another.
fn small_book() -> Vec<u64> {
    let both = Both::after(&[
        0x0005, 0x2001, 0x0002, 0x8000, 0x0009, 0x2001, 0x8000, 0x8000, 0x0007, 0x2001, 0x0002,
        0x8000,
    ]);
    both.lent.words().to_vec()
}

/// Each bit of a small book flipped in turn, those that matter first.
pub struct Flips {
    words: Vec<u64>,
    order: Vec<usize>,
    next: usize,
}

impl Flips {
    /// From the first bit on.
    pub fn new() -> Flips {
        let words = small_book();
        let matter = words_that_matter(&words);
        let rest = (0..words.len()).filter(|place| !matter.contains(place));
        let order = matter.iter().copied().chain(rest).collect();
        Flips {
            words,
            order,
            next: 0,
        }
    }
}

impl Default for Flips {
    fn default() -> Flips {
        Flips::new()
    }
}

impl Part for Flips {
    fn turn(&mut self, random: &mut Random, counts: &mut Counts) {
        let place = self.order[self.next];
        for bit in 0..64 {
            self.words[place] ^= 1 << bit;
            alike(random, counts, &self.words);
            self.words[place] ^= 1 << bit;
        }
        counts.add("bits of a small book flipped", 64);
        self.next += 1;
        if self.next == self.order.len() {
            self.next = 0;
            counts.add("small books with each bit flipped", 1);
        }
    }
}

/// Books of random rules with one to four things wrong.
pub struct Damage;

impl Part for Damage {
    fn turn(&mut self, random: &mut Random, counts: &mut Counts) {
        let rules = random.pick(&[1, 3, 12, 60]);
        let adds = (0..rules).flat_map(|n| [vec![n * 31], few(random)].concat());
        let adds: Vec<u16> = adds.collect();
        let mut words = Both::after(&adds).lent.words().to_vec();
        if random.one_in(2) {
            rewrite(random, &mut words);
        }
        for _ in 0..8 {
            let mut words = words.clone();
            for _ in 0..random.pick(&[1, 1, 2, 4]) {
                damage(random, &mut words);
            }
            alike(random, counts, &words);
            counts.add("damaged books", 1);
        }
    }
}

/// One thing wrong, or almost.
fn damage(random: &mut Random, words: &mut [u64]) {
    let used: Vec<u16> = memory::in_use(words);
    let Some(last) = used.last().copied() else {
        return;
    };
    let (one, other) = (random.pick(&used), random.pick(&used));
    let any = random.pick(&[0, one, other, last, 4_096, 4_097, 4_609, 0xffff]);
    let cell = random.pick(&[0, 1, 2, 0x1000, 0x8000, 0x8001, 0xffff]);
    let record = 8_010 + 9 * random.below(usize::from(last.saturating_sub(4_096)).max(1));
    match random.below(11) {
        0 => words.swap(72 + usize::from(one), 72 + usize::from(other)),
        1 => put(words, one, |link| link.next = any),
        2 => put(words, one, |link| link.first = any),
        3 => put(words, one, |link| link.parent = any),
        4 => put(words, one, |link| link.cell = cell),
        5 => put(words, 0, |link| link.first = any),
        6 => set_used(words, one, false),
        7 => set_used(words, random.between(1, 4_608) as u16, true),
        8 => put_field(words, 6_986, random.below(4_096), random.below(513) as u16),
        9 => put_field(words, record, random.below(36), cell),
        _ => words[record + random.below(9)] ^= 1 << random.below(64),
    }
}

/// Words without a plan, with few links in use, and of any length.
pub struct Plain;

impl Part for Plain {
    fn turn(&mut self, random: &mut Random, counts: &mut Counts) {
        let mut words: Vec<u64> = (0..memory::WORDS).map(|_| random.bits()).collect();
        alike(random, counts, &words);
        words[..72].fill(0);
        alike(random, counts, &words);
        words[72] &= !0xffff_0000;
        alike(random, counts, &words);
        words[random.below(72)] |= 1 << random.below(64);
        alike(random, counts, &words);
        let small = 0x3_0003_0003_0003;
        words.iter_mut().for_each(|word| *word &= small);
        alike(random, counts, &words);
        let length = random.below(20_000);
        words.resize(length, 0);
        if length != memory::WORDS {
            alike(random, counts, &words);
        }
        counts.add("memories without a plan", 6);
    }
}
