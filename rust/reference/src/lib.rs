//! The reference implementation of the crash-proof block store and of the calls
//! around it, written from their papers alone.

#![deny(warnings)]

pub mod alarms;
mod areas;
pub mod bands;
pub mod batch;
mod calls;
pub mod chains;
pub mod gauges;
pub mod hours;
pub mod inflow;
pub mod kinds;
pub mod layout;
pub mod lent;
pub mod newest;
pub mod rights;
mod rounds;
pub mod state;
pub mod tag;
pub mod units;
pub mod usage;
pub mod walk;

pub use areas::{format, open, settle, trim};
pub use calls::{abort, begin, commit, confirm, flush, read, reserve, store};
pub use layout::Answer;
pub use rounds::{begin_round, step_round};
