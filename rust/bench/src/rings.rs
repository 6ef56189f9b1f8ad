//! Logs to open, settle, trim and read: filled by eight writers in turn with
//! short or long transactions, and one that no history of calls leaves.

use crate::script::Recorder;
use harness::rng::Rng;
use reference::layout::{group_head, put_word, set_top_bit, slot_range, turn, BLOCK, PLACES, WRITERS};
use reference::lent::{Kind, Lent};
use reference::state::State;
use reference::tag::closing_tag;

/// A log with this many groups in use, all committed and fenced: eight writers
/// store one block each in turn, transactions have at most `blocks` blocks.
pub fn filled(seed: u64, groups: u64, homes: u64, used: u64, blocks: u64) -> Lent {
    let mut recorder = Recorder::opened(seed, groups, homes);
    fill(&mut recorder, PLACES * used, WRITERS, blocks);
    assert_eq!(recorder.groups_used(), used);
    recorder.lent
}

/// A full log that was settled when it was half full, so that trim has to look
/// whether a transaction of the later half began in the earlier one.
pub fn half_settled(seed: u64, groups: u64, homes: u64, blocks: u64) -> Lent {
    let mut recorder = Recorder::opened(seed, groups, homes);
    fill(&mut recorder, PLACES * (groups / 2), WRITERS, blocks);
    recorder.call(Kind::Settle, 0, 0);
    recorder.call(Kind::Confirm, 0, 0);
    fill(&mut recorder, PLACES * (groups - groups / 2), WRITERS, blocks);
    assert_eq!(recorder.groups_used(), groups);
    recorder.lent
}

/// A full log, all settled, in which a transaction is open that logged an entry
/// in this group, counted from the start: trim frees the groups before it only.
pub fn held_back(seed: u64, groups: u64, homes: u64, group: u64, blocks: u64) -> Lent {
    let mut recorder = Recorder::opened(seed, groups, homes);
    fill(&mut recorder, PLACES * group, WRITERS, blocks);
    let holder = WRITERS - 1;
    recorder.call(Kind::Begin, holder, 0);
    let first = recorder.random_home();
    recorder.call(Kind::Store, holder, first);
    let second = other_home(&mut recorder, first);
    recorder.call(Kind::Store, holder, second);
    fill(&mut recorder, PLACES * (groups - group) - 1, holder, blocks);
    recorder.call(Kind::Settle, 0, 0);
    recorder.call(Kind::Confirm, 0, 0);
    assert_eq!(recorder.groups_used(), groups);
    recorder.lent
}

/// This many entries of the first so many writers, committed and fenced.
fn fill(recorder: &mut Recorder, entries: u64, writers: u64, blocks: u64) {
    let mut left = entries;
    while left > 0 {
        left -= round(recorder, left, writers, blocks);
    }
    recorder.call(Kind::Flush, 0, 0);
    recorder.call(Kind::Confirm, 0, 0);
}

/// One transaction of each of these writers, interleaved, with at most `most`
/// entries in all. Gives how many entries there are.
fn round(recorder: &mut Recorder, most: u64, writers: u64, blocks: u64) -> u64 {
    let length = |writer: u64| most.saturating_sub(writer * blocks).min(blocks);
    let writers = || (0..writers).filter(|&writer| length(writer) > 0);
    for writer in writers() {
        recorder.call(Kind::Begin, writer, 0);
    }
    let mut last = [u64::MAX; WRITERS as usize];
    for turn in 0..=blocks {
        for writer in writers() {
            if turn < length(writer) {
                let home = other_home(recorder, last[writer as usize]);
                last[writer as usize] = home;
                recorder.call(Kind::Store, writer, home);
            } else if turn == length(writer) {
                recorder.call(Kind::Commit, writer, 0);
            }
        }
    }
    writers().map(length).sum()
}

/// A random home that differs from the one stored before, so that each store
/// makes an entry.
pub fn other_home(recorder: &mut Recorder, last: u64) -> u64 {
    loop {
        let home = recorder.random_home();
        if home != last {
            return home;
        }
    }
}

/// A full log in which every entry closes a transaction that began at the
/// first one: each counts one entry more than the one before and links to it.
/// A replay that looks at each transaction's span anew takes quadratic time.
pub fn shared_first(seed: u64, groups: u64, homes: u64) -> Lent {
    let mut rng = Rng::new(seed);
    let mut lent = Recorder::opened(seed, groups, homes).lent;
    let mut state = State::load(&lent.log, &lent.data, &lent.state).expect("a state in order");
    for offset in 0..PLACES * groups {
        let number = state.start + offset / PLACES;
        let group = &mut lent.log[slot_range((number % groups) as usize)];
        put_word(group, 0, group_head(number));
        let place = (offset % PLACES) as usize;
        let tag = closing_tag(rng.below(homes), offset, offset.min(1), offset + 1);
        put_word(group, 8 + 8 * place, tag);
        let block = &mut group[BLOCK * (1 + place)..BLOCK * (2 + place)];
        block.fill(rng.next() as u8);
        set_top_bit(block, turn(state.shape, number));
    }
    state.next = state.end_group();
    state.last_closing = state.next_position();
    state.fence();
    state.save(&mut lent.state);
    lent
}
