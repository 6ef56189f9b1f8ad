//! Every choice of up to twelve blocks of a stretch, on a few small histories.

use harness::tears::{torn_history, Torn};
use reference::lent::Lent;

#[test]
fn small_histories() {
    let mut torn = Torn::default();
    for seed in 0..120 {
        let outcome = torn_history(seed, &mut torn, Box::new(Lent::run));
        outcome.unwrap_or_else(|what| panic!("seed {seed}: {what}"));
    }
    assert!(torn.choices > 100_000 && torn.lost > 20_000 && torn.brought_back > 10_000, "{torn:?}");
}
