//! Lent memory between guards, so that a write past it is seen.

use std::fmt::Debug;

use crate::book_calls;
use model::random::Random;

/// How many guards stand before what is lent, and how many after it.
const GUARDS: usize = 40;

/// What memory is made of: words, cells or bytes.
pub trait Item: Copy + PartialEq + Debug {
    /// What stands around lent memory.
    const GUARD: Self;
}

impl Item for u64 {
    const GUARD: u64 = 0xa5a5_5a5a_c3c3_3c3c;
}

impl Item for u16 {
    const GUARD: u16 = 0xa5c3;
}

impl Item for u8 {
    const GUARD: u8 = 0xa5;
}

/// Lent memory between guards.
#[derive(Clone)]
pub struct Lent<T> {
    memory: Vec<T>,
}

impl<T: Item> Lent<T> {
    /// A copy of these.
    pub fn of(items: &[T]) -> Lent<T> {
        let guards = [T::GUARD; GUARDS];
        Lent {
            memory: [&guards, items, &guards].concat(),
        }
    }

    /// What is lent, as it is.
    pub fn items(&self) -> &[T] {
        &self.memory[GUARDS..self.memory.len() - GUARDS]
    }

    /// Lends it to a call; the guards stay as they are.
    pub fn call<A>(&mut self, call: impl FnOnce(&mut [T]) -> A) -> A {
        let end = self.memory.len() - GUARDS;
        let answer = call(&mut self.memory[GUARDS..end]);
        assert_eq!(self.memory[..GUARDS], [T::GUARD; GUARDS]);
        assert_eq!(self.memory[end..], [T::GUARD; GUARDS]);
        answer
    }
}

impl Lent<u64> {
    /// An empty book, made from words that held something else.
    pub fn empty() -> Lent<u64> {
        let mut random = Random::new(400);
        let any: Vec<u64> = (0..book_calls::words()).map(|_| random.bits()).collect();
        let mut lent = Lent::of(&any);
        assert_eq!(lent.call(book_calls::empty), 0);
        lent
    }

    /// The words as they are.
    pub fn words(&self) -> &[u64] {
        self.items()
    }
}
