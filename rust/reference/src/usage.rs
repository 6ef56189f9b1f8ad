//! What fills a log: live, dead, free and promised places, and the writer that
//! holds it back.

use crate::layout::{PLACES, WRITERS};
use crate::state::{promised, State, Writer};
use crate::walk::{committed_entries, View};

/// As the library's header declares it. A refusal has its number and zeros.
#[repr(C)]
#[derive(Clone, Copy, Debug, Default, PartialEq, Eq)]
pub struct Usage {
    pub code: u64,
    /// Entries of open transactions, and of committed ones that are not trimmed.
    pub live: u64,
    /// The other places below the next position.
    pub dead: u64,
    pub free: u64,
    pub promised: u64,
    /// The writer whose logged entries begin lowest and where; 8 and 0 for none.
    pub holder: u64,
    pub first: u64,
}

pub fn usage(log: &[u8], data: &[u8], bytes: &[u8]) -> Usage {
    let state = match State::load(log, data, bytes) {
        Ok(state) => state,
        Err(code) => return Usage { code: code.into(), ..Usage::default() },
    };
    let logged = |writer| Writer::load(bytes, writer).logged();
    let open: u64 = (0..WRITERS).filter_map(logged).map(|(_, count)| count).sum();
    let live = committed_entries(&View::live(log, &state)) + open;
    let free = state.places();
    let lowest = (0..WRITERS).filter_map(|w| logged(w).map(|(first, _)| (first, w))).min();
    let (first, holder) = lowest.unwrap_or((0, WRITERS));
    let dead = (PLACES * state.shape.groups - free).saturating_sub(live);
    Usage { code: 0, live, dead, free, promised: promised(bytes), holder, first }
}
