//! Calls on several homes on made-up and damaged memory, against the plain
//! model; and a transact against its begin, stores and commit.

mod model;

use harness::craft::random_chain;
use harness::rng::Rng;
use reference::chains::Chain;
use reference::lent::{Kind, Lent};

#[test]
fn as_the_model() {
    let mut rng = Rng::new(5);
    let mut seen = [[0u64; 22]; Chain::COUNT];
    for _ in 0..40_000 {
        let (lent, writer, home) = random_chain(&mut rng);
        for chain in Chain::ALL {
            let mut fast = lent.clone();
            let answer = fast.chain(chain, writer, home);
            let (want, after) = model::chains::run(chain, writer, home, &lent);
            assert_eq!(answer, want, "{chain:?} {writer} {home}");
            assert!(fast == after, "{chain:?} {writer} {home}: memory");
            seen[chain as usize][answer.code as usize] += 1;
        }
    }
    let given: [&[usize]; Chain::COUNT] =
        [&[0, 1, 2, 4, 5, 20], &[0, 1, 2, 4, 5, 19, 20], &[0, 1, 2, 4, 5, 6, 8, 9, 19]];
    for (seen, given) in seen.iter().zip(given) {
        assert!(given.iter().all(|&code| seen[code] > 100), "{seen:?}");
        assert!((0..22).all(|code| given.contains(&code) || seen[code] == 0), "{seen:?}");
    }
}

/// On an open store with idle writers: what begin, stores by rising home and commit leave.
#[test]
fn transact_is_its_calls() {
    let mut rng = Rng::new(9);
    let mut lent = Lent::new(6, 40);
    for kind in [Kind::Format, Kind::Open] {
        assert_eq!(lent.run(kind, 0, 0).code, 0);
    }
    let mut done = 0;
    for _ in 0..4_000 {
        let (writer, home, blocks) = (rng.below(8), rng.between(12, 33), rng.between(1, 7));
        lent.block = vec![0; 64 * blocks as usize];
        lent.block.fill_with(|| rng.next() as u8);
        lent.batch.fill(0xcc);
        let mut parts = lent.clone();
        let answer = lent.chain(Chain::Transact, writer, home);
        if answer.code == 8 {
            for kind in [Kind::Flush, Kind::Settle, Kind::Trim] {
                assert_eq!(lent.run(kind, 0, 0).code, 0);
            }
            continue;
        }
        let all = std::mem::take(&mut parts.block);
        let mut batch = Vec::new();
        let mut call = |parts: &mut Lent, kind, home| {
            let answer = parts.run(kind, writer, home);
            assert_eq!(answer.code, 0);
            batch.extend(&parts.batch[..answer.len]);
            answer.figure
        };
        call(&mut parts, Kind::Begin, 0);
        for (block, home) in all.chunks(64).zip(home..) {
            parts.block = block.to_vec();
            call(&mut parts, Kind::Store, home);
        }
        assert_eq!(call(&mut parts, Kind::Commit, 0), answer.figure);
        assert_eq!(lent.batch[..answer.len], batch);
        assert!(lent.state == parts.state && lent.log == parts.log && lent.newest == parts.newest);
        assert!(lent.batch[answer.len..].iter().all(|&byte| byte == 0xcc));
        lent.block.fill(0);
        assert_eq!(lent.chain(Chain::Revise, writer, home).code, 0);
        assert_eq!(lent.block, all);
        done += 1;
    }
    assert!(done > 2_000, "{done}");
}
