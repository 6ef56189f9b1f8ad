//! Plays cases: for the profiler with one dump after each, or for the clock.

use crate::cases::Case;
use crate::row::PER_COMMIT;
use crate::script::{Script, Step};
use crate::sides::{bench_dump, floor, Side};
use reference::lent::{Kind, Lent};
use reference::Answer;
use std::time::{Duration, Instant};

/// The compiler must have made the value, and knows nothing of what becomes of it; std's came with Rust 1.66.
fn black_box<T>(value: T) -> T {
    unsafe { std::arch::asm!("/* {0} */", in(reg) &value as *const T, options(nostack, preserves_flags)) };
    value
}

/// Plays a script; `run` performs each call. Both sides must answer and leave
/// what the script says.
fn play(script: &Script, mut run: impl FnMut(&mut Lent, &Step) -> Answer) {
    let mut lent = script.start.clone();
    for step in &script.steps {
        lent.block.copy_from_slice(&step.block);
        let answer = run(&mut lent, step);
        assert_eq!(answer, step.answer, "{}", step.kind.name());
    }
    assert!(lent == script.end, "the memory differs");
}

/// Each call once with both sides and the floor, then a dump.
pub fn count(case: &Case) {
    for side in Side::BOTH {
        for script in &case.scripts {
            play(script, |lent, step| side.run(lent, step));
        }
    }
    let most = case.steps().map(|step| step.moved).max().unwrap_or(0);
    let from = vec![1; most];
    let mut to = vec![0; most];
    for step in case.steps() {
        floor(step.kind, &mut to, &from, step.moved);
        black_box(&mut to);
    }
    bench_dump();
}

/// How often the clock plays a script, and the time after which it stops.
const PLAYS: usize = 25;
const ENOUGH: Duration = Duration::from_millis(1500);

/// Times of one side, in nanoseconds: calls by kind, and whole scripts.
#[derive(Default)]
struct Times {
    calls: [Vec<u64>; Kind::COUNT],
    whole: Vec<u64>,
}

/// Median nanoseconds of each call, library and reference. The sides take turns.
pub fn time(case: &Case) -> Vec<(&'static str, [u64; 2])> {
    let mut times: [Times; 2] = Default::default();
    for script in &case.scripts {
        repeat(|side| time_calls(side, script, &mut times[side as usize].calls));
        if script.steps.iter().any(|step| step.kind == Kind::Commit) {
            repeat(|side| times[side as usize].whole.push(time_whole(side, script)));
        }
    }
    let clock = clock_cost();
    let mut medians = Vec::new();
    for kind in Kind::ALL {
        let [library, reference] = &mut times;
        let both = [library, reference].map(|side| median(&mut side.calls[kind as usize]));
        if let [Some(library), Some(reference)] = both {
            medians.push((kind.name(), [library, reference].map(|ns| ns.saturating_sub(clock))));
        }
    }
    let commits = case.steps().filter(|step| step.kind == Kind::Commit).count() as u64;
    let [library, reference] = &mut times;
    if let [Some(library), Some(reference)] = [library, reference].map(|side| median(&mut side.whole)) {
        medians.push((PER_COMMIT, [library, reference].map(|ns| ns / commits)));
    }
    medians
}

fn repeat(mut once: impl FnMut(Side)) {
    let begun = Instant::now();
    for _ in 0..PLAYS {
        Side::BOTH.into_iter().for_each(&mut once);
        if begun.elapsed() > ENOUGH {
            break;
        }
    }
}

fn time_calls(side: Side, script: &Script, times: &mut [Vec<u64>; Kind::COUNT]) {
    play(script, |lent, step| {
        let start = Instant::now();
        let answer = side.run(lent, step);
        times[step.kind as usize].push(start.elapsed().as_nanos() as u64);
        answer
    });
}

/// From the start of the first call to the end of the last.
fn time_whole(side: Side, script: &Script) -> u64 {
    let mut start = None;
    let mut left = script.steps.len();
    let mut ns = 0;
    play(script, |lent, step| {
        let start = *start.get_or_insert_with(Instant::now);
        let answer = side.run(lent, step);
        left -= 1;
        if left == 0 {
            ns = start.elapsed().as_nanos() as u64;
        }
        answer
    });
    ns
}

/// What the clock shows when nothing is between its two readings.
pub fn clock_cost() -> u64 {
    let once = |_| black_box(Instant::now()).elapsed().as_nanos() as u64;
    let mut times: Vec<u64> = (0..10_001).map(once).collect();
    median(&mut times).unwrap_or(0)
}

fn median(times: &mut [u64]) -> Option<u64> {
    times.sort_unstable();
    times.get(times.len() / 2).copied()
}
