//! Lasting memory that loses power: writes gather until a fence, and a cut picks by chance which words of them arrive. The test
//! and the store's driver share it.
#![allow(dead_code)] // each test takes what it needs

use kagutin::{homes_size, log_size, Area, Driver, Fault, Landing};
use std::cell::RefCell;
use std::rc::Rc;

pub const GROUPS: usize = 6;
pub const HOMES: usize = 40;

/// xorshift64*
pub struct Chance(pub u64);

impl Chance {
    pub fn below(&mut self, bound: usize) -> usize {
        self.0 ^= self.0 >> 12;
        self.0 ^= self.0 << 25;
        self.0 ^= self.0 >> 27;
        (self.0.wrapping_mul(0x2545_F491_4F6C_DD1D) >> 33) as usize % bound
    }
}

pub struct Memory {
    areas: [Vec<u8>; 2],
    waiting: Vec<(Area, usize, Vec<u8>)>,
    chance: Chance,
    /// Calls until power fails, or, with `comes_back`, one call fails.
    pub left: usize,
    pub comes_back: bool,
    /// A fence waits for nothing.
    pub no_fence: bool,
}

impl Memory {
    /// What waits arrives in part: each word of 8 bytes, or not.
    pub fn cut(&mut self) {
        for (area, at, bytes) in std::mem::take(&mut self.waiting) {
            for (i, word) in bytes.chunks(8).enumerate() {
                if self.chance.below(2) == 0 {
                    self.areas[area as usize][at + 8 * i..at + 8 * i + 8].copy_from_slice(word);
                }
            }
        }
        self.left = usize::MAX;
    }

    fn spend(&mut self) -> Result<(), Fault> {
        if self.left == 0 {
            if self.comes_back {
                self.left = usize::MAX;
            }
            return Err(Fault::new(7));
        }
        self.left -= 1;
        Ok(())
    }
}

#[derive(Clone)]
pub struct Medium(pub Rc<RefCell<Memory>>);

impl Medium {
    pub fn new(seed: u64) -> Medium {
        let areas = [vec![0xa5; log_size(GROUPS)], vec![0xa5; homes_size(HOMES)]];
        let chance = Chance(seed | 1);
        Medium(Rc::new(RefCell::new(Memory {
            areas,
            waiting: vec![],
            chance,
            left: usize::MAX,
            comes_back: false,
            no_fence: false,
        })))
    }
}

impl Driver for Medium {
    const LANDING: Landing = Landing::Words;

    fn load(&mut self, area: Area, at: usize, bytes: &mut [u8]) -> Result<(), Fault> {
        let mut memory = self.0.borrow_mut();
        memory.spend()?;
        let left = memory.left;
        memory.cut(); // decides what waits, as after a failure
        memory.left = left;
        bytes.copy_from_slice(&memory.areas[area as usize][at..at + bytes.len()]);
        Ok(())
    }

    fn write(&mut self, area: Area, at: usize, bytes: &[u8]) -> Result<(), Fault> {
        let mut memory = self.0.borrow_mut();
        assert!(at % 8 == 0 && bytes.len() % 8 == 0, "words");
        memory.waiting.push((area, at, bytes.to_vec())); // arrives or not, also if it fails
        memory.spend()
    }

    fn fence(&mut self) -> Result<(), Fault> {
        let mut memory = self.0.borrow_mut();
        memory.spend()?;
        if memory.no_fence {
            return Ok(());
        }
        for (area, at, bytes) in std::mem::take(&mut memory.waiting) {
            memory.areas[area as usize][at..at + bytes.len()].copy_from_slice(&bytes);
        }
        Ok(())
    }
}
