//! The means to try an implementation of the store: landing of writes, the book
//! of commits, a literal commit rule, a player of random histories, damaged
//! images, test cases.

#![deny(warnings)]

pub mod book;
pub mod cases;
mod check;
pub mod craft;
pub mod damage;
mod expect;
pub mod landing;
pub mod lists;
pub mod literal;
pub mod options;
pub mod pairs;
pub mod player;
pub mod rng;
mod round_check;
pub mod tears;
mod unit_book;
pub mod unit_player;
pub mod world;
