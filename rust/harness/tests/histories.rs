//! A few hundred random histories; `play` runs more.

use harness::player::{history, large_history, Tally};

#[test]
fn short_histories() {
    let mut tally = Tally::default();
    for seed in 0..600 {
        history(seed, &mut tally).unwrap_or_else(|what| panic!("seed {seed}: {what}"));
    }
    assert!(tally.crashes > 1000 && tally.trims > 200 && tally.commits_lost > 300, "{tally:?}");
    assert!(tally.listed > 5000 && tally.answers[19] > 500 && tally.answers[20] > 200, "{tally:?}");
    assert!(tally.rounds > 1000 && tally.part_steps > 500 && tally.answers[21] > 200, "{tally:?}");
}

#[test]
fn one_large_history() {
    let mut tally = Tally::default();
    large_history(5, &mut tally).unwrap();
}
