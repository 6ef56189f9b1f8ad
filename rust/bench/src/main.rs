//! Measures the library against the reference implementation and against the
//! floor: instructions per call by callgrind, and median times.

#![deny(warnings)]

mod callgrind;
mod cases;
mod floor;
mod play;
mod rings;
mod row;
mod script;
mod sides;
mod steady;
mod table;

use harness::options::Words;
use row::{rows, Row};
use std::path::PathBuf;

const USAGE: &str = "\
usage: bench [--seed S] [--out FOLDER] [--no-counts] [--no-times]
  --seed S       another workload (1)
  --out FOLDER   where bench.tsv goes (target/bench)
  --no-counts    without callgrind
  --no-times     without the clock";

struct Options {
    seed: u64,
    folder: PathBuf,
    counts: bool,
    times: bool,
    /// Only plays all cases once: what runs under callgrind.
    play: bool,
}

impl Options {
    fn read() -> Options {
        let mut words = Words::new(USAGE);
        let options = Options {
            seed: words.number("--seed", 1),
            folder: words.text("--out", "target/bench").into(),
            counts: !words.flag("--no-counts"),
            times: !words.flag("--no-times"),
            play: words.flag("--play"),
        };
        words.done();
        options
    }
}

fn main() {
    let options = Options::read();
    if options.play {
        cases::each(options.seed, &mut |case| play::count(&case));
    } else {
        measure(&options);
    }
}

fn measure(options: &Options) {
    let Options { seed, folder, .. } = options;
    std::fs::create_dir_all(folder).expect("a folder for the results");
    let mut listed: Vec<Vec<Row>> = Vec::new();
    cases::each(*seed, &mut |case| {
        let mut rows = rows(&case);
        if options.times && case.table.is_timed() {
            for (call, times) in play::time(&case) {
                rows.iter_mut().filter(|row| row.call == call).for_each(|row| row.times = Some(times));
            }
        }
        listed.push(rows);
    });
    if options.counts && !callgrind::count(*seed, folder, &mut listed) {
        println!("no valgrind here, so there are no instruction counts\n");
    }
    let rows = listed.concat();
    print!("{}", table::show(&rows, play::clock_cost()));
    std::fs::write(folder.join("bench.tsv"), table::tsv(&rows)).expect("bench.tsv");
}
