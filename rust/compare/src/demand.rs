//! Demand 3 on the library: it performs every call of random histories, and
//! what it answers and leaves is held to the book; and what rights keep from a
//! writer. The builds take turns.
//! Clauses: [S-52, S-53, S-54, S-55]

use bindings::library::Calls;
use bindings::trap;
use harness::pairs::{pair, Pairs};
use harness::player::{history_with, large_history_with, Tally};
use harness::tears::{torn_history, Torn};
use reference::lent::{Lent, Runner};
use std::panic::{catch_unwind, AssertUnwindSafe};

/// Plays the histories of the seeds from `seed` on; the last `large` of them
/// are long ones of the largest log.
pub fn play(
    builds: &[Calls],
    seed: u64,
    histories: u64,
    large: u64,
    mut progress: impl FnMut(u64, &Tally),
) -> Result<Tally, String> {
    let mut tally = Tally::default();
    for at in 0..histories + large {
        let one = seed.wrapping_add(at);
        trap::note(one, at);
        let large = at >= histories;
        let build = builds[(at % builds.len() as u64) as usize];
        let runner = Box::new(move |lent: &mut Lent, kind, writer, home| build.run(lent, kind, writer, home));
        let run = || match large {
            false => history_with(one, &mut tally, runner),
            true => large_history_with(one, &mut tally, runner),
        };
        let outcome = catch_unwind(AssertUnwindSafe(run));
        outcome.unwrap_or_else(|_| Err("panic".to_string())).map_err(|what| {
            let which = if large { "--histories 0 --large-histories 1" } else { "--histories 1" };
            let repeat = format!("--seed {one} --calls 0 --damaged 0 {which}");
            format!("demand 3, seed {one}: {what}\n  repeat with {repeat}")
        })?;
        progress(at + 1, &tally);
    }
    Ok(tally)
}

/// Short histories of small logs on the way of which stretches are torn in
/// every choice of twelve blocks; each opening is held to the book.
pub fn tear(builds: &[Calls], seed: u64, histories: u64) -> Result<Torn, String> {
    let mut torn = Torn::default();
    for at in 0..histories {
        let one = seed.wrapping_add(at);
        trap::note(one, at);
        let build = builds[(at % builds.len() as u64) as usize];
        let runner = Box::new(move |lent: &mut Lent, kind, writer, home| build.run(lent, kind, writer, home));
        let outcome = catch_unwind(AssertUnwindSafe(|| torn_history(one, &mut torn, runner)));
        outcome.unwrap_or_else(|_| Err("panic".to_string())).map_err(|what| {
            let repeat = format!("--seed {one} --calls 0 --damaged 0 --histories 0 --torn 1");
            format!("torn stretches, seed {one}: {what}\n  repeat with {repeat}")
        })?;
    }
    Ok(torn)
}

/// Pairs of histories that differ in bytes a writer may not read: it must be told the same in both.
pub fn pairs(builds: &[Calls], seed: u64, count: u64) -> Result<Pairs, String> {
    let mut pairs = Pairs::default();
    for at in 0..count {
        let one = seed.wrapping_add(at);
        trap::note(one, at);
        let build = builds[(at % builds.len() as u64) as usize];
        let mut runner: Runner =
            Box::new(move |lent: &mut Lent, kind, writer, home| build.run(lent, kind, writer, home));
        let outcome = catch_unwind(AssertUnwindSafe(|| pair(one, &mut pairs, &mut runner)));
        outcome.unwrap_or_else(|_| Err("panic".to_string())).map_err(|what| {
            let repeat = format!("--seed {one} --calls 0 --damaged 0 --histories 0 --torn 0 --pairs 1");
            format!("pairs of histories, seed {one}: {what}\n  repeat with {repeat}")
        })?;
    }
    Ok(pairs)
}
