//! `play --seed S --histories N --torn T --pairs P`: random histories, each from
//! its own seed, short ones whose stretches are torn in every choice of blocks,
//! and pairs that differ in bytes a writer may not read.

use harness::options::Words;
use harness::pairs::{pair, Pairs};
use harness::player::{history, large_history, Tally};
use harness::tears::{torn_history, Torn};
use reference::lent::{Lent, Runner};
use std::panic::{catch_unwind, AssertUnwindSafe};
use std::process::ExitCode;

const USAGE: &str = "\
usage: play [--seed S] [--histories N] [--torn T] [--pairs P]
Plays random histories, each from its own seed, on the reference implementation; then short ones, of
which stretches are cut in every choice of up to twelve blocks; then pairs of histories that differ
in bytes of homes a writer may not read, and must tell it the same.";

/// One history in this many is of the largest log.
const LARGE_EVERY: u64 = 2000;

/// A panic counts as a mismatch.
fn play(seed: u64, large: bool, tally: &mut Tally) -> Result<(), String> {
    let one = || if large { large_history(seed, tally) } else { history(seed, tally) };
    catch_unwind(AssertUnwindSafe(one)).unwrap_or_else(|_| Err("panic".to_string()))
}

/// Short histories, each from its own seed, with stretches torn in every choice.
fn tear(first: u64, histories: u64) -> Result<Torn, String> {
    let mut torn = Torn::default();
    for at in 0..histories {
        let seed = first.wrapping_add(at);
        torn_history(seed, &mut torn, Box::new(Lent::run)).map_err(|what| format!("seed {seed}: {what}"))?;
    }
    Ok(torn)
}

/// Pairs of histories, each from its own seed.
fn compare(first: u64, count: u64) -> Result<Pairs, String> {
    let mut pairs = Pairs::default();
    let mut runner: Runner = Box::new(Lent::run);
    for at in 0..count {
        let seed = first.wrapping_add(at);
        pair(seed, &mut pairs, &mut runner).map_err(|what| format!("seed {seed}: {what}"))?;
    }
    Ok(pairs)
}

/// What was played, in words.
fn report(tally: &Tally) {
    println!("{} histories: every opening and every answer as the book says", tally.histories);
    println!(
        "  {:>9} crashes and {} openings, which brought back {} transactions",
        tally.crashes, tally.openings, tally.brought_back
    );
    println!("  {:>9} commits, {} of them lost by a crash before they were durable", tally.commits, tally.commits_lost);
    println!("  {:>9} settles, {} trims", tally.settles, tally.trims);
    println!(
        "  {:>9} rounds of settling, {} steps, {} of them leaving homes for later",
        tally.rounds, tally.steps, tally.part_steps
    );
    println!("  {:>9} calls, {} of them under a list of rights, by their answers:", tally.calls, tally.listed);
    for (number, count) in tally.answers.iter().enumerate().filter(|(_, count)| **count > 0) {
        println!("  {count:>9} answered {number}{}", if number == 0 { ", done" } else { "" });
    }
}

fn main() -> ExitCode {
    let mut words = Words::new(USAGE);
    let first = words.number("--seed", 1);
    let count = words.number("--histories", 1000);
    let torn = words.number("--torn", 100);
    let pairs = words.number("--pairs", 1000);
    words.done();
    let mut tally = Tally::default();
    for at in 0..count {
        let seed = first.wrapping_add(at);
        let large = at % LARGE_EVERY == LARGE_EVERY / 2;
        if let Err(what) = play(seed, large, &mut tally) {
            println!("MISMATCH seed {seed} large {large}: {what}");
            return ExitCode::FAILURE;
        }
        if (at + 1) % 1000 == 0 {
            println!("{} of {count} histories, {} calls", at + 1, tally.calls);
        }
    }
    report(&tally);
    match tear(first, torn) {
        Ok(torn) => {
            println!(
                "{} stretches in {} short histories: every opening as the book says",
                torn.stretches, torn.histories
            );
            println!(
                "  {:>9} choices of blocks, {} lost a commit, {} brought one back",
                torn.choices, torn.lost, torn.brought_back
            );
        }
        Err(what) => {
            println!("MISMATCH torn, {what}");
            return ExitCode::FAILURE;
        }
    }
    match compare(first, pairs) {
        Ok(pairs) => {
            println!("{} pairs of histories: nothing that a writer may not read shows", pairs.pairs);
            println!(
                "  {:>9} calls, {} stores with other bytes, {} reads by the writer, {} of them refused",
                pairs.calls, pairs.stores, pairs.reads, pairs.refused
            );
            ExitCode::SUCCESS
        }
        Err(what) => {
            println!("MISMATCH pair, {what}");
            ExitCode::FAILURE
        }
    }
}
