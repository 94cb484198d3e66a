//! Buffers with guards: each lies inside a larger one whose rest is random, so that a write past either end is seen.

use std::ops::BitXorAssign;

use crate::random::Random;

const GUARD_LEAST: usize = 16;
const GUARD_BEHIND: usize = 64;

/// What a guard is made of.
pub trait Element: Copy + Default + PartialEq + Into<u64> {
    fn fill(list: &mut [Self], random: &Random);
}

impl Element for u8 {
    fn fill(list: &mut [u8], random: &Random) {
        random.fill_bytes(list);
    }
}

impl Element for u32 {
    fn fill(list: &mut [u32], random: &Random) {
        random.fill_words(list);
    }
}

#[derive(Clone, Default)]
pub struct Guarded<T> {
    pub whole: Vec<T>,
    pub start: usize,
    pub end: usize,
}

impl<T: Element> Guarded<T> {
    /// Lays `contents` into a buffer of its own. Where it starts varies, and with it the alignment of bytes.
    pub fn lay(&mut self, contents: &[T], random: &Random) {
        self.start = GUARD_LEAST + random.below(GUARD_LEAST);
        self.end = self.start + contents.len();
        self.whole.resize(self.end + GUARD_BEHIND, T::default());
        T::fill(&mut self.whole[..self.start], random);
        T::fill(&mut self.whole[self.end..], random);
        self.whole[self.start..self.end].copy_from_slice(contents);
    }

    /// Without guards, in memory of just this length: here valgrind sees what reads past an end.
    pub fn lay_bare(&mut self, contents: &[T]) {
        *self = Guarded {
            whole: contents.to_vec(),
            start: 0,
            end: contents.len(),
        };
    }

    pub fn copy(&mut self, from: &Guarded<T>) {
        if from.is_bare() {
            self.lay_bare(&from.whole);
            return;
        }
        self.whole.clone_from(&from.whole);
        self.start = from.start;
        self.end = from.end;
    }

    fn is_bare(&self) -> bool {
        self.whole.len() == self.end - self.start
    }

    pub fn inside(&self) -> &[T] {
        &self.whole[self.start..self.end]
    }

    pub fn inside_mut(&mut self) -> &mut [T] {
        &mut self.whole[self.start..self.end]
    }

    pub fn before(&self) -> &[T] {
        &self.whole[..self.start]
    }

    pub fn behind(&self) -> &[T] {
        &self.whole[self.end..]
    }
}

/// Changes a bit, as a subject with a fault may do: for tests of the tests.
pub fn flip<T: BitXorAssign + From<u8>>(element: Option<&mut T>) {
    if let Some(element) = element {
        *element ^= T::from(1);
    }
}

impl<T: BitXorAssign + From<u8>> Guarded<T> {
    /// Changes the guard just before the buffer.
    pub fn flip_before(&mut self) {
        flip(self.whole[..self.start].last_mut());
    }

    /// Changes the guard just behind the buffer.
    pub fn flip_behind(&mut self) {
        flip(self.whole[self.end..].first_mut());
    }
}
