//! Kagutin, a crash-proof store of 64-byte blocks, with a safe interface.
//!
//! Transactions of up to eight writers go into a log on lasting memory (FRAM, MRAM, battery-backed RAM, persistent memory; not
//! raw flash). Power may fail at any instant: the next opening brings back a prefix of the commits, whole, with every commit
//! that was durable. The C file below is made from a proved program; this crate and the C object are tested, not proved.
//!
//! - [`Driver`]: your lasting memory, three functions.
//! - [`Store`]: owns or borrows its memory, and owns its driver or borrows it.
//! - [`Transaction`]: aborts when it is dropped; `commit`, or `commit_sync` for one that no power cut takes away.
//! - [`Error`]: typed, with the answer's number.
//! - [`Rights`], and depth bands, pump hours and alarms as methods of the store.
//!
//! No heap, no dependencies, `no_std`; Rust 1.63 and a C compiler build it.

#![no_std]
#![deny(missing_docs, unsafe_op_in_unsafe_fn)]

#[cfg(test)]
extern crate std;

mod answer;
mod driver;
mod ffi;
mod rights;
mod sizes;
mod store;
mod transaction;
mod units;

pub use answer::{Answer, Error, Fault};
pub use driver::{Area, Driver, Landing};
pub use rights::Rights;
pub use sizes::{format_size, homes_size, log_size, memory_size, Block, BLOCK_SIZE, WRITERS};
pub use store::{Mark, Room, Store, Ticket, Usage};
pub use transaction::{Transaction, Unfinished};
pub use units::{Alarm, Band, Hours, Services};

/// Version of the C file that was linked.
pub fn version() -> &'static str {
    ffi::text(unsafe { ffi::kagutin_version() })
}

// The example of the guide runs as a test of this crate.
#[cfg(doctest)]
#[doc = include_str!("../../../docs/USING.md")]
pub struct Guide;
