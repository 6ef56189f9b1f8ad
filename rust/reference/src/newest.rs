//! The newest positions: eight bytes for each home, the position of its newest
//! committed entry, or all ones for none.

use crate::layout::{put_word, refuse, word, Shape};

pub const NONE: u64 = u64::MAX;

/// The bytes of one position.
pub const POSITION: usize = 8;

/// Question 1 of a call that is lent them.
pub fn check_newest(shape: Shape, newest: &[u8]) -> Result<(), u32> {
    if newest.len() == POSITION * shape.homes as usize {
        Ok(())
    } else {
        Err(refuse::LENGTHS)
    }
}

pub fn position(newest: &[u8], home: u64) -> u64 {
    word(newest, POSITION * home as usize)
}

pub fn keep(newest: &mut [u8], home: u64, position: u64) {
    put_word(newest, POSITION * home as usize, position);
}

/// Keeps no position before `bound`.
pub fn forget(newest: &mut [u8], bound: u64) {
    for home in 0..(newest.len() / POSITION) as u64 {
        if position(newest, home) < bound {
            keep(newest, home, NONE);
        }
    }
}
