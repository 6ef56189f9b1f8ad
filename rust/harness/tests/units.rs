//! Histories with depth bands, pump hours and alarms in them; and chains held
//! to the single calls that they stand for.

use harness::player::{step, Profile, Tally};
use harness::rng::Rng;
use harness::unit_player::{unit_history, UnitTally};
use harness::world::World;
use reference::chains::{fetch, revise, transact};
use reference::layout::{Answer, Shape, BLOCK};
use reference::lent::{ample, Kind, Lent};
use reference::units::Ask;

#[test]
fn histories_with_cuts() {
    let mut tally = UnitTally::default();
    for seed in 0..400 {
        unit_history(seed, &mut tally).unwrap_or_else(|what| panic!("seed {seed}: {what}"));
    }
    assert!(tally.crashes > 300 && tally.lost > 300 && tally.parted > 80, "{tally:?}");
    assert_eq!(tally.most_open, 48, "{tally:?}");
    // Every answer that a call can give is met, but 2 and a total or start count past 32 bits.
    let answers: [&[usize]; 12] = [
        &[0, 1, 4, 5, 6, 8, 9, 11, 12, 13, 19],
        &[0, 1, 4, 5, 11, 20],
        &[0, 1, 4, 5, 6, 8, 9, 14, 15, 16, 19, 20],
        &[0, 1, 4, 5, 6, 8, 9, 14, 15, 16, 19, 20],
        &[0, 1, 5, 20],
        &[0, 1, 4, 5, 14, 20],
        &[0, 1, 4, 5, 6, 8, 9, 19, 20, 24, 25],
        &[0, 1, 4, 5, 6, 8, 9, 19, 20, 24],
        &[0, 1, 5, 20],
        &[0, 1, 4, 5, 20],
        &[0, 1, 4, 5, 19, 20],
        &[0, 1, 4, 5, 6, 8, 9, 19],
    ];
    for (name, (met, possible)) in Ask::NAMES.iter().zip(tally.answers.iter().zip(answers)) {
        for (answer, &times) in met.iter().enumerate() {
            assert_eq!(times > 0, possible.contains(&answer), "{name} answered {answer} {times} times");
        }
    }
}

/// The lent memory of a store under way.
fn random_lent(rng: &mut Rng, world: &mut World, profile: &Profile) -> Lent {
    let mut tally = Tally::default();
    let mut steps = rng.between(1, 20);
    while steps > 0 || !world.opened {
        step(rng, profile, world, &mut tally, false).expect("history");
        steps = steps.saturating_sub(1);
    }
    world.lent.clone()
}

/// Begin, stores by rising home, commit; stops at the first refusal.
fn chain(lent: &mut Lent, blocks: &[u8], writer: u64, home: u64) -> Answer {
    let whole = std::mem::take(&mut lent.batch);
    let mut batch = Vec::new();
    let mut run = |lent: &mut Lent, kind, home| {
        lent.batch = vec![0; ample(4, 1)];
        let answer = lent.run(kind, writer, home);
        batch.extend_from_slice(&lent.batch[..answer.len]);
        answer
    };
    let mut answer = run(lent, Kind::Begin, 0);
    for (block, home) in blocks.chunks(BLOCK).zip(home..) {
        if answer.code == 0 {
            lent.block = block.to_vec();
            answer = run(lent, Kind::Store, home);
        }
    }
    if answer.code == 0 {
        answer = run(lent, Kind::Commit, 0);
    }
    answer.len = batch.len();
    lent.batch = whole;
    if batch.len() <= lent.batch.len() {
        lent.batch[..batch.len()].copy_from_slice(&batch);
    }
    answer
}

#[test]
fn transact_is_its_chain() {
    let (mut done, mut refused) = (0, 0);
    for seed in 0..60 {
        let mut rng = Rng::new(seed);
        let shape = Shape { groups: rng.pick(&[4, 5, 8]), homes: rng.pick(&[5, 13, 20]) };
        let mut world = World::new(shape, 0);
        let profile = Profile::random(&mut rng);
        for _ in 0..40 {
            let mut lent = random_lent(&mut rng, &mut world, &profile);
            let (writer, home) = (rng.below(8), rng.below(shape.homes));
            let blocks: Vec<u8> = (0..64 * rng.between(1, 7)).map(|_| rng.next() as u8).collect();
            lent.batch = vec![0xcc; rng.pick(&[516, 516, 516, 515, 0, 600])];
            let (mut by_chain, before) = (lent.clone(), lent.clone());
            let Lent { log, data, state, newest, batch, .. } = &mut lent;
            let answer = transact(log, data, state, newest, &blocks, batch, writer, home);
            let want = chain(&mut by_chain, &blocks, writer, home);
            if answer.code == 0 {
                done += 1;
                by_chain.block = before.block;
                assert_eq!((answer, lent), (want, by_chain), "seed {seed}");
            } else {
                refused += 1;
                assert!(lent == before && (want.code != 0 || answer.code == 9), "seed {seed}");
            }
        }
    }
    assert!(done > 500 && refused > 200, "{done} done, {refused} refused");
}

#[test]
fn fetch_is_reads() {
    for seed in 0..40 {
        let mut rng = Rng::new(seed);
        let shape = Shape { groups: 4, homes: rng.pick(&[5, 13, 20]) };
        let mut world = World::new(shape, 0);
        let profile = Profile::random(&mut rng);
        for _ in 0..30 {
            let mut lent = random_lent(&mut rng, &mut world, &profile);
            let (writer, home, count) = (rng.below(8), rng.below(shape.homes), rng.between(1, 7));
            let mut blocks = vec![0; 64 * count as usize];
            let mut by_reads = Vec::new();
            let mut worst = 0;
            for home in home..home + count {
                lent.block = vec![0; BLOCK];
                worst = worst.max(lent.run(Kind::Read, writer, home).code);
                by_reads.extend_from_slice(&lent.block);
            }
            let Lent { log, data, state, newest, .. } = &lent;
            let answer = fetch(log, data, state, newest, &mut blocks, writer, home);
            assert_eq!(answer.code == 0, worst == 0);
            assert_eq!(blocks, if answer.code == 0 { by_reads } else { vec![0; blocks.len()] });
            let mut again = vec![0; blocks.len()];
            let revised = revise(log, data, state, newest, &mut again, writer, home);
            assert!(revised.code == 19 || revised.code == answer.code && again == blocks);
        }
    }
}
