//! Pairs of histories on the reference implementation, and on wrong variants of
//! it, each of which some pair must tell apart.

use harness::pairs::{pair, Pairs};
use reference::layout::put_word;
use reference::lent::{Kind, Lent, Runner};
use reference::newest::{keep, NONE};
use reference::rights::{List, LIST_HOME};
use reference::state::{at, Writer};
use reference::Answer;

fn play(count: u64, mut runner: Runner) -> (Pairs, Option<String>) {
    let mut pairs = Pairs::default();
    for seed in 0..count {
        if let Err(what) = pair(seed, &mut pairs, &mut runner) {
            return (pairs, Some(format!("seed {seed}: {what}")));
        }
    }
    (pairs, None)
}

#[test]
fn no_pair_differs() {
    let (pairs, difference) = play(1500, Box::new(Lent::run));
    assert_eq!(difference, None);
    assert!(pairs.pairs > 800 && pairs.stores > 5000 && pairs.changes > 300, "{pairs:?}");
    assert!(pairs.reads > 3000 && pairs.refused > 1500 && pairs.reads > pairs.refused + 500, "{pairs:?}");
}

/// A read under the list that `other` makes of what its writer sees and of what is committed.
fn reading_under(other: impl Fn(&mut Lent, u64, u64) -> Option<List> + 'static) -> Runner {
    Box::new(move |lent, kind, writer, home| {
        let list = if kind == Kind::Read { other(lent, writer, home) } else { None };
        let list = match list {
            Some(list) => list,
            None => return lent.run(kind, writer, home),
        };
        let mut copy = lent.clone();
        for (block, home) in list.0.iter().zip(LIST_HOME..) {
            keep(&mut copy.newest, home, NONE);
            copy.data[64 * home as usize..64 * home as usize + 64].copy_from_slice(block);
        }
        unsign(&mut copy);
        let answer = copy.run(kind, writer, home);
        lent.block = copy.block;
        answer
    })
}

/// The list's sign taken out, so that the list itself is asked.
fn unsign(lent: &mut Lent) {
    put_word(&mut lent.state, at::SIGN, 0);
}

/// The list as a read by this writer gives it, which every writer may.
fn list_seen(lent: &mut Lent, writer: u64) -> Option<List> {
    let mut copy = lent.clone();
    let mut list = List::NONE;
    for (block, home) in list.0.iter_mut().zip(LIST_HOME..) {
        if copy.run(Kind::Read, writer, home) != Answer::DONE {
            return None;
        }
        block.copy_from_slice(&copy.block);
    }
    Some(list)
}

fn plain(writer: u64, home: u64) -> bool {
    writer < 8 && !(LIST_HOME..LIST_HOME + 4).contains(&home)
}

fn told_apart(what: &str, runner: Runner) {
    let (pairs, difference) = play(1500, runner);
    let difference = difference.unwrap_or_else(|| panic!("{what}: no pair differs, {pairs:?}"));
    println!("{what}: after {} pairs, {difference}", pairs.pairs);
}

#[test]
fn wrong_lists_are_told_apart() {
    told_apart("20 not asked", reading_under(|_, writer, home| plain(writer, home).then_some(List::NONE)));
    told_apart(
        "20 not asked for a writer's own block",
        reading_under(|lent, writer, home| {
            let own = plain(writer, home) && {
                let record = Writer::load(&lent.state, writer);
                record.holds() && (record.home == home || record.logged().is_some())
            };
            own.then_some(List::NONE)
        }),
    );
    told_apart(
        "a list counts from its settling",
        reading_under(|lent, writer, home| {
            let settled = |home: u64| lent.data[64 * home as usize..64 * home as usize + 64].try_into().unwrap();
            plain(writer, home).then(|| List(std::array::from_fn(|index| settled(LIST_HOME + index as u64))))
        }),
    );
    told_apart(
        "writer 0's own list counts",
        reading_under(|lent, writer, home| if plain(writer, home) { list_seen(lent, writer) } else { None }),
    );
    told_apart(
        "ranges to store taken for those to read",
        reading_under(|lent, writer, home| {
            let mut list = if plain(writer, home) { list_seen(lent, 7)? } else { return None };
            list.0.iter_mut().flat_map(|block| block.chunks_mut(32)).for_each(|ranges| ranges.rotate_left(16));
            Some(list)
        }),
    );
    told_apart(
        "the ranges of the writer above",
        reading_under(|lent, writer, home| {
            let mut list = if plain(writer, home) { list_seen(lent, 7)? } else { return None };
            let mut bytes = list.0.concat();
            bytes.rotate_left(32);
            list.0.iter_mut().zip(bytes.chunks(64)).for_each(|(block, bytes)| block.copy_from_slice(bytes));
            Some(list)
        }),
    );
}

#[test]
fn leaks_are_told_apart() {
    let leaking: Runner = Box::new(|lent, kind, writer, home| {
        let answer = lent.run(kind, writer, home);
        if kind == Kind::Read && answer.code == 20 {
            let mut copy = lent.clone();
            copy.newest[64..96].fill(0xff);
            copy.data[512..768].fill(0);
            unsign(&mut copy);
            copy.run(kind, writer, home);
            lent.block[0] = copy.block[0];
        }
        answer
    });
    told_apart("a refused read leaves a byte", leaking);
    let telling: Runner = Box::new(|lent, kind, writer, home| {
        let mut answer = lent.run(kind, writer, home);
        if kind == Kind::Commit && answer.code == 0 {
            answer.figure += u64::from(lent.log[64 + 64]);
        }
        answer
    });
    told_apart("a figure that bytes move", telling);
    let full: Runner = Box::new(|lent, kind, writer, home| {
        let logs = kind == Kind::Store && lent.block[63] > 127;
        if logs && lent.state[32] == 6 {
            Answer { code: 8, figure: 0, len: 0 }
        } else {
            lent.run(kind, writer, home)
        }
    });
    told_apart("an answer that the top bit moves", full);
}
