//! Tables that are lent with guard entries before and behind, so that a write outside shows.

use super::season::Study;

const GUARD: usize = 24;

pub trait Entry: Copy + PartialEq + std::fmt::Debug {
    /// Guard entry i: values that would count if they were read as part of the table.
    fn guard(i: usize) -> Self;
}

impl Entry for u8 {
    fn guard(i: usize) -> u8 {
        (i % 5) as u8 & 1 | if i % 7 == 3 { 0xa4 } else { 0 }
    }
}

impl Entry for u16 {
    fn guard(i: usize) -> u16 {
        0x5a00 ^ i as u16
    }
}

impl Entry for i32 {
    fn guard(i: usize) -> i32 {
        [1, 0, -1, 0, i32::MIN][i % 5]
    }
}

impl Entry for u32 {
    fn guard(i: usize) -> u32 {
        0x1234_5600 ^ i as u32
    }
}

impl Entry for u64 {
    fn guard(i: usize) -> u64 {
        0x77 << 40 | i as u64
    }
}

impl Entry for Study {
    fn guard(i: usize) -> Study {
        Study { answer: [0, 5][i % 2], rounds: u32::MAX - i as u32, fee: 1 + 100_000_000 * (i as u32 % 2) }
    }
}

impl Entry for usize {
    fn guard(i: usize) -> usize {
        0x77 << 40 | i
    }
}

pub struct Lent<T> {
    all: Vec<T>,
}

impl<T: Entry> Lent<T> {
    pub fn new(content: &[T]) -> Lent<T> {
        let mut all: Vec<T> = (0..GUARD).map(T::guard).collect();
        all.extend_from_slice(content);
        all.extend((GUARD..2 * GUARD).map(T::guard));
        Lent { all }
    }

    pub fn content(&self) -> &[T] {
        &self.all[GUARD..self.all.len() - GUARD]
    }

    pub fn address(&self) -> *const T {
        self.content().as_ptr()
    }

    pub fn address_mut(&mut self) -> *mut T {
        let end = self.all.len() - GUARD;
        self.all[GUARD..end].as_mut_ptr()
    }

    pub fn length(&self) -> usize {
        self.content().len()
    }

    /// The table holds this, and its guard entries stand.
    pub fn holds(&self, wanted: &[T]) -> bool {
        let end = self.all.len() - GUARD;
        self.content() == wanted && (0..GUARD).all(|i| self.all[i] == T::guard(i) && self.all[end + i] == T::guard(GUARD + i))
    }
}
