//! The memory lent to a call, and one entry point for all calls.

use crate::batch::{FENCE_LEN, GROUP_WRITE_LEN, HEADER_WRITE_LEN, HOME_WRITE_LEN};
use crate::chains::{self, Chain};
use crate::kinds::{run, Numbers, Parts};
use crate::layout::{Answer, BLOCK, GROUP, HEADER, STATE};
use crate::newest::POSITION;

pub use crate::kinds::Kind;

/// All that a call may be lent. A call leaves alone the parts it does not take.
#[derive(Clone, Debug, PartialEq, Eq)]
pub struct Lent {
    pub log: Vec<u8>,
    pub data: Vec<u8>,
    pub state: Vec<u8>,
    pub newest: Vec<u8>,
    pub block: Vec<u8>,
    pub batch: Vec<u8>,
}

impl Lent {
    /// Both areas as zeros, with a batch that suffices for every call.
    pub fn new(groups: u64, homes: u64) -> Lent {
        Lent {
            log: vec![0; HEADER + GROUP * groups as usize],
            data: vec![0; BLOCK * homes as usize],
            state: vec![0; STATE],
            newest: vec![0; POSITION * homes as usize],
            block: vec![0; BLOCK],
            batch: vec![0; ample(groups, homes)],
        }
    }

    /// `home` is the number of places for a reserve, and of homes for a step.
    pub fn run(&mut self, kind: Kind, writer: u64, home: u64) -> Answer {
        let Lent { log, data, state, newest, block, batch } = self;
        run(kind, Parts { log, area: data, state, newest, block, batch }, Numbers::new(writer, home))
    }

    /// A call on several homes, from `home` on; `block` is one for each.
    pub fn chain(&mut self, chain: Chain, writer: u64, home: u64) -> Answer {
        let Lent { log, data, state, newest, block, batch } = self;
        match chain {
            Chain::Fetch => chains::fetch(log, data, state, newest, block, writer, home),
            Chain::Revise => chains::revise(log, data, state, newest, block, writer, home),
            Chain::Transact => chains::transact(log, data, state, newest, block, batch, writer, home),
        }
    }
}

/// Performs a call on what is lent. A `World` can be played with another
/// implementation than this one.
pub type Runner = Box<dyn FnMut(&mut Lent, Kind, u64, u64) -> Answer>;

/// What format writes; no call writes more.
pub fn ample(groups: u64, homes: u64) -> usize {
    groups as usize * GROUP_WRITE_LEN + homes as usize * HOME_WRITE_LEN + 2 * HEADER_WRITE_LEN + 3 * FENCE_LEN
}
