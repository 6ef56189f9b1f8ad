//! `play_units --seed S --histories N`: random histories with depth bands, pump
//! hours and alarms in them, each from its own seed.

use harness::options::Words;
use harness::unit_player::{unit_history, UnitTally};
use reference::units::Ask;
use std::process::ExitCode;

const USAGE: &str = "\
usage: play_units [--seed S] [--histories N]
Plays random histories with calls on units, cuts included, on the reference implementation.";

fn main() -> ExitCode {
    let mut words = Words::new(USAGE);
    let first = words.number("--seed", 1);
    let count = words.number("--histories", 1000);
    words.done();
    let mut tally = UnitTally::default();
    for seed in (0..count).map(|at| first.wrapping_add(at)) {
        if let Err(what) = unit_history(seed, &mut tally) {
            println!("MISMATCH seed {seed}: {what}");
            return ExitCode::FAILURE;
        }
    }
    println!("{} histories, {} calls: tables, hours and alarms as the book's list says", tally.histories, tally.calls);
    println!("  {} cuts took {} of them away, {} left a part", tally.crashes, tally.lost, tally.parted);
    println!("  at most {} alarms open", tally.most_open);
    for (name, answers) in Ask::NAMES.iter().zip(&tally.answers) {
        let met = answers.iter().enumerate().filter(|(_, times)| **times > 0);
        let met: Vec<String> = met.map(|(answer, times)| format!("{answer}: {times}")).collect();
        println!("  {name:14} {}", met.join(", "));
    }
    ExitCode::SUCCESS
}
