//! Buffers lent to the library: noise on both sides shows a write outside.

use std::fmt::Debug;

use second::random::Random;

/// Elements before and after the lent part.
const EDGE: usize = 37;

/// An element that noise can be made of.
pub trait Unit: Copy + PartialEq + Debug {
    fn of(word: u64) -> Self;
}

impl Unit for u8 {
    fn of(word: u64) -> u8 {
        word as u8
    }
}

impl Unit for u16 {
    fn of(word: u64) -> u16 {
        word as u16
    }
}

impl Unit for u32 {
    fn of(word: u64) -> u32 {
        word as u32
    }
}

pub struct Lent<T> {
    all: Vec<T>,
    edge: T,
}

impl<T: Unit> Lent<T> {
    /// A buffer with this content.
    pub fn of(random: &mut Random, content: &[T]) -> Lent<T> {
        let edge = T::of(random.word());
        let mut all = Vec::with_capacity(content.len() + 2 * EDGE);
        all.extend([edge; EDGE]);
        all.extend_from_slice(content);
        all.extend([edge; EDGE]);
        Lent { all, edge }
    }

    pub fn part(&self) -> &[T] {
        &self.all[EDGE..self.all.len() - EDGE]
    }

    pub fn part_mut(&mut self) -> &mut [T] {
        let end = self.all.len() - EDGE;
        &mut self.all[EDGE..end]
    }

    /// Nothing if the content is this and no element outside it was touched;
    /// otherwise the first element that is not as it should be.
    pub fn wrong(&self, content: &[T]) -> Option<String> {
        let right = |at: usize| match at.checked_sub(EDGE) {
            Some(inside) if inside < content.len() => content[inside],
            _ => self.edge,
        };
        if self.part() == content && self.edges().all(|unit| *unit == self.edge) {
            return None;
        }
        let at = (0..self.all.len()).find(|at| self.all[*at] != right(*at))?;
        let element = at as isize - EDGE as isize;
        Some(format!("element {element} is {:x?} and should be {:x?}", self.all[at], right(at)))
    }

    fn edges(&self) -> impl Iterator<Item = &T> {
        self.all[..EDGE].iter().chain(&self.all[self.all.len() - EDGE..])
    }
}

/// Noise to fill buffers with, made once and copied from a random place.
pub struct Noise<T>(Vec<T>);

/// Longer than any buffer that is filled from it.
const POOL: usize = 200_000;

impl<T: Unit> Noise<T> {
    pub fn new(random: &mut Random) -> Noise<T> {
        Noise((0..POOL).map(|_| T::of(random.word())).collect())
    }

    pub fn take(&self, random: &mut Random, length: usize) -> Vec<T> {
        let start = random.below(POOL - length + 1);
        self.0[start..start + length].to_vec()
    }
}
