//! One part of the memory lent to the library, with guard bytes around it.

/// Odd, so that the part lies at an odd address.
const GUARD: usize = 61;
const GUARD_BYTE: u8 = 0xa5;

pub struct Part {
    memory: Vec<u8>,
    guard: usize,
}

impl Part {
    /// Without guard bytes a memory checker sees reads outside the part too.
    pub fn new(guarded: bool) -> Part {
        let guard = if guarded { GUARD } else { 0 };
        Part { memory: vec![GUARD_BYTE; 2 * guard], guard }
    }

    fn range(&self) -> std::ops::Range<usize> {
        self.guard..self.memory.len() - self.guard
    }

    pub fn bytes(&self) -> &[u8] {
        &self.memory[self.range()]
    }

    pub fn bytes_mut(&mut self) -> &mut [u8] {
        let range = self.range();
        &mut self.memory[range]
    }

    pub fn set(&mut self, from: &[u8]) {
        if self.bytes().len() != from.len() {
            self.memory = vec![GUARD_BYTE; from.len() + 2 * self.guard];
        }
        self.bytes_mut().copy_from_slice(from);
    }

    /// Where a byte outside was written: its offset from the part's begin.
    pub fn broken_guard(&self) -> Option<(isize, u8)> {
        let range = self.range();
        let outside = (0..range.start).chain(range.end..self.memory.len());
        let mut broken = outside.filter(|&at| self.memory[at] != GUARD_BYTE);
        broken.next().map(|at| (at as isize - self.guard as isize, self.memory[at]))
    }
}
