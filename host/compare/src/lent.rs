//! Memory to lend: each piece lies between guards, so that a write before or
//! behind it is seen.

use std::hint::black_box;

use jesovanga::Memory;

const GUARD: usize = 64;

/// What pieces are made of.
pub trait Item: Copy + PartialEq {
    /// The guard at a place: a pattern that neighbours do not share.
    fn guard(place: usize) -> Self;
}

impl Item for u8 {
    fn guard(place: usize) -> u8 {
        (place as u8).wrapping_mul(151) ^ 0xA5
    }
}

impl Item for u32 {
    fn guard(place: usize) -> u32 {
        (place as u32).wrapping_mul(0x9E37_79B1) ^ 0xA5A5_5A5A
    }
}

/// A piece with a guard on either side, in one allocation.
#[derive(Default)]
pub struct Lent<T> {
    all: Vec<T>,
    start: usize,
    length: usize,
}

impl<T: Item> Lent<T> {
    /// Lays a content out anew, `shift` places further on, so that pieces do
    /// not always begin at a multiple of eight.
    pub fn lay(&mut self, content: &[T], shift: usize) {
        self.start = GUARD + shift;
        self.length = content.len();
        self.all.clear();
        self.all.extend((0..self.start).map(T::guard));
        self.all.extend_from_slice(content);
        self.all.extend((0..GUARD).map(T::guard));
    }

    pub fn piece(&self) -> &[T] {
        &self.all[self.start..][..self.length]
    }

    pub fn piece_mut(&mut self) -> &mut [T] {
        &mut self.all[self.start..][..self.length]
    }

    pub fn guards_hold(&self) -> bool {
        // What was lent may have been written by a callee that Rust does not see.
        let all = black_box(&self.all[..]);
        is_guard(&all[..self.start]) && is_guard(&all[self.start + self.length..])
    }
}

fn is_guard<T: Item>(items: &[T]) -> bool {
    items.iter().enumerate().all(|(place, item)| *item == T::guard(place))
}

const MEMORY_GUARD: usize = 256;

/// The server's arrays between guards.
#[repr(C)]
pub struct LentMemory {
    before: [u8; MEMORY_GUARD],
    pub memory: Memory,
    behind: [u8; MEMORY_GUARD],
}

impl LentMemory {
    pub fn new() -> Box<Self> {
        let guard = std::array::from_fn(u8::guard);
        Box::new(LentMemory { before: guard, memory: Memory::new(), behind: guard })
    }

    pub fn guards_hold(&self) -> bool {
        let seen = black_box(self);
        is_guard(&seen.before) && is_guard(&seen.behind)
    }
}

#[cfg(test)]
mod tests {
    use super::*;

    #[test]
    fn a_write_beside_the_piece_is_seen() {
        let mut lent = Lent::default();
        for place in [GUARD + 2, GUARD + 6] {
            lent.lay(&[1u8, 2, 3], 3);
            lent.piece_mut()[0] = 9;
            assert!(lent.guards_hold());
            lent.all[place] ^= 1;
            assert!(!lent.guards_hold());
        }
    }

    #[test]
    fn a_write_beside_the_memory_is_seen() {
        let mut lent = LentMemory::new();
        lent.memory.tables[0] = 1;
        assert!(lent.guards_hold());
        lent.behind[0] ^= 1;
        assert!(!lent.guards_hold());
    }
}
