//! Lists of rights made up at random, at the limits of their ranges.
//! Clauses: [S-58, S-59, S-60]

use crate::book::Block;
use crate::rng::Rng;
use reference::layout::WRITERS;
use reference::rights::{List, LIST_HOMES, RANGES};

/// First home and number of homes: often a few homes, else at an edge, empty,
/// beyond D, or such that a sum of 16 bits would wrap.
fn random_range(rng: &mut Rng, homes: u64) -> (u16, u16) {
    let home = rng.below(homes) as u16;
    let last = (homes - 1) as u16;
    match rng.below(12) {
        0..=4 => (home, rng.between(1, 4) as u16),
        5 => (home, 1),
        6 => (0, rng.pick(&[1, last, homes as u16])),
        7 => (last, rng.pick(&[1, 2, 65535])),
        8 => (homes as u16, rng.pick(&[0, 1, 65535])),
        9 => (65535, rng.pick(&[0, 1, 2, 65535])),
        10 => (rng.pick(&[0, 1, home]), 65535),
        _ => (home, 0),
    }
}

/// A list under which a writer often may touch nearly all, or nearly nothing.
pub fn random_list(rng: &mut Rng, homes: u64) -> List {
    let mut list = List::NONE;
    let (wide, full) = (rng.pick(&[0, 20, 60]), rng.pick(&[20, 60, 100]));
    for writer in 0..WRITERS {
        for kind in [0, RANGES] {
            if rng.chance(wide) {
                list.put(writer, kind + rng.below(4) as usize, 0, 65535);
            }
            for index in 0..RANGES {
                if rng.chance(full) && !rng.chance(wide) {
                    let (first, number) = random_range(rng, homes);
                    list.put(writer, kind + index, first, number);
                }
            }
        }
    }
    list
}

/// One block of such a list; now and then zeros, or any bytes.
pub fn random_block(rng: &mut Rng, homes: u64) -> Block {
    match rng.below(12) {
        0 | 1 => [0; 64],
        2 => std::array::from_fn(|_| rng.next() as u8),
        _ => random_list(rng, homes).0[rng.below(LIST_HOMES) as usize],
    }
}
