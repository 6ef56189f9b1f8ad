//! The library's calls for programs in Rust, and memory to lend them.

#![deny(warnings)]

pub mod library;
pub mod part;
pub mod shared;
pub mod trap;
pub mod unit_calls;
