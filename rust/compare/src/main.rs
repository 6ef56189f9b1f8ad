//! The builds of the library and the reference implementation on equal memory,
//! byte for byte; then demand 3 on the library. A seed repeats a run exactly.

#![deny(warnings)]

mod build;
mod chains;
mod damaged;
mod demand;
mod gauges;
mod histories;
mod inflow;
mod pair;
mod table;
mod trials;

use bindings::library::{Calls, ARCHIVE};
use bindings::trap;
use build::Build;
use harness::options::Words;
use pair::Pair;
use std::process::ExitCode;

const USAGE: &str = "\
usage: compare [--seed S] [--calls N] [--damaged M] [--histories H]
               [--large L] [--large-histories K] [--torn T] [--pairs P] [--tight] [--build FILE]...
  --seed S             repeats a run exactly (1)
  --calls N            calls compared over valid histories with cuts (100000)
  --damaged M          damaged images and strips, several calls on each (20000)
  --histories H        histories of demand 3, the library doing the calls (500)
  --large L            how many in a thousand calls and images have G 1024 (10)
  --large-histories K  long histories of demand 3 with G 1024 (0)
  --torn T             short histories with every choice of 12 blocks of a stretch (40)
  --pairs P            pairs of histories that differ in bytes a writer may not read (500)
  --tight              no guard bytes, so that a memory checker sees reads outside
  --build FILE         a shared object of dist/kagutin.c, compared as well";

struct Options {
    seed: u64,
    calls: u64,
    damaged: u64,
    histories: u64,
    large: u64,
    large_histories: u64,
    torn: u64,
    pairs: u64,
    guarded: bool,
    builds: Vec<String>,
}

impl Options {
    fn read() -> Options {
        let mut words = Words::new(USAGE);
        let options = Options {
            seed: words.number("--seed", 1),
            calls: words.number("--calls", 100_000),
            damaged: words.number("--damaged", 20_000),
            histories: words.number("--histories", 500),
            large: words.number("--large", 10),
            large_histories: words.number("--large-histories", 0),
            torn: words.number("--torn", 40),
            pairs: words.number("--pairs", 500),
            guarded: !words.flag("--tight"),
            builds: words.texts("--build"),
        };
        words.done();
        options
    }
}

fn main() -> ExitCode {
    let options = Options::read();
    trap::set();
    match run(&options) {
        Ok(()) => {
            println!("no difference");
            ExitCode::SUCCESS
        }
        Err(what) => {
            println!("\nDIFFERENCE: {what}");
            ExitCode::FAILURE
        }
    }
}

/// The archive and the shared objects.
fn builds(options: &Options) -> Result<Vec<Build>, String> {
    let mut builds = vec![Build::new("library", ARCHIVE, options.guarded)];
    for path in &options.builds {
        builds.push(Build::new(path, Calls::load(path)?, options.guarded));
    }
    Ok(builds)
}

fn run(options: &Options) -> Result<(), String> {
    let &Options { seed, calls, damaged: images, histories, large, .. } = options;
    let builds = builds(options)?;
    println!("compare: {} of the library and the reference implementation, seed {seed}", count(builds.len()));
    let all: Vec<Calls> = builds.iter().map(|build| build.calls).collect();
    let pair = Pair::new(seed, builds);

    trials::play(&mut pair.borrow_mut())?;
    println!("trials 11 to 13, head marks, a round and rights: {} calls, as the paper says", pair.borrow().case);
    pair.borrow_mut().counts = Default::default();

    let mut next = 1;
    let played = histories::play(seed, calls, large, &pair, |done, played| {
        if tenth(&mut next, done, calls) {
            let histories::Played { histories, cuts, .. } = played;
            println!("valid histories: {done} of {calls} calls, {histories} histories, {cuts} cuts");
        }
    })?;
    let valid = std::mem::take(&mut pair.borrow_mut().counts);

    let mut next = 1;
    let mut pair = pair.borrow_mut();
    damaged::play(seed, images, large, &mut pair, |done| {
        if tenth(&mut next, done, images) {
            println!("damaged: {done} of {images} images and strips");
        }
    })?;

    let long = options.large_histories;
    let mut next = 1;
    let tally = demand::play(&all, seed, histories, long, |done, tally| {
        if tenth(&mut next, done, histories + long) {
            println!("demand 3 on the library: {done} histories, {} calls", tally.calls);
        }
    })?;

    let torn = demand::tear(&all, seed, options.torn)?;
    let pairs = demand::pairs(&all, seed, options.pairs)?;

    println!();
    table::show("Valid histories", &valid);
    table::show("Damaged images and strips", &pair.counts);
    table::show_sizes(&pair.sizes);
    table::show_missing(&[&valid, &pair.counts]);
    println!(
        "valid histories: {}, {} of them starting near 2^47, with {} cuts",
        played.histories, played.near_limit, played.cuts
    );
    println!(
        "  {} transactions brought back, {} settles that wrote homes, {} trims that moved",
        played.brought_back, played.settles, played.trims
    );
    println!("damaged: {images} images and strips");
    println!(
        "demand 3 on the library: {} histories, {} calls, {} cuts, {} openings",
        tally.histories, tally.calls, tally.crashes, tally.openings
    );
    println!("  {} commits, {} of them lost to cuts", tally.commits, tally.commits_lost);
    println!(
        "  {} rounds of settling, {} steps, {} of them leaving homes for later",
        tally.rounds, tally.steps, tally.part_steps
    );
    println!(
        "torn stretches: {} in {} histories, {} choices of blocks, each opened as the book says",
        torn.stretches, torn.histories, torn.choices
    );
    println!("  {} lost a commit, {} brought one back", torn.lost, torn.brought_back);
    println!(
        "rights: {} calls under a list; {} pairs of histories, nothing that a writer may not read shows",
        tally.listed, pairs.pairs
    );
    println!(
        "  {} stores with other bytes, {} reads by the writer, {} of them refused",
        pairs.stores, pairs.reads, pairs.refused
    );
    let [done, refused] = pair.usages;
    println!("usage: {done} done and {refused} refused, the same on both sides");
    println!("in all {} calls compared", pair.case);
    {
        let played = chains::play(seed, calls / 10, options.guarded)?;
        println!("calls on several homes: {} done and {} refused, the same on both sides", played.done, played.refused);
    }
    let played = gauges::play(seed, calls / 50, options.guarded)?;
    println!("gauges: {} comparisons done and {} refused, the same on both sides", played.done, played.refused);
    let played = inflow::play(seed, calls / 10)?;
    println!(
        "inflow: {} calls done and {} refused, {} choices inside the ranges",
        played.done, played.refused, played.choices
    );
    Ok(())
}

fn count(builds: usize) -> String {
    if builds == 1 {
        "one build".into()
    } else {
        format!("{builds} builds")
    }
}

/// True at each tenth of the way.
fn tenth(next: &mut u64, done: u64, all: u64) -> bool {
    let reached = done > 0 && done * 10 >= *next * all;
    if reached {
        *next = done * 10 / all.max(1) + 1;
    }
    reached
}
