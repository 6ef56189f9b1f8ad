//! The commit rule: one pass over the tags of the groups in use.
//!
//! Offsets count positions from 7 x start. The entries of each first position
//! are counted as they pass, so a commit entry is judged when it is reached.

use crate::layout::{group_head, set_top_bit, slot_range, top_bit, turn, word, Shape, BLOCK, MAX_GROUPS, MAX_OFFSETS};
use crate::state::State;
use crate::tag::{displaced, read_tag, Tag};

/// The part of the log that a call looks at.
#[derive(Clone, Copy)]
pub struct View<'a> {
    pub log: &'a [u8],
    pub shape: Shape,
    pub start: u64,
    /// Offsets from 0 to below this one.
    pub end: u32,
}

impl<'a> View<'a> {
    /// All positions in use: from the start to below the next one.
    pub fn live(log: &'a [u8], state: &State) -> View<'a> {
        let end = (state.next_position() - state.first_position()) as u32;
        View { log, shape: state.shape, start: state.start, end }
    }

    /// Visits every entry by rising offset. Holes are passed over, and so is
    /// an entry whose block has not its group's turn bit.
    #[inline]
    pub fn each(&self, visit: impl FnMut(u32, Tag)) {
        self.each_from(0, visit);
    }

    /// The same from the offset `from` on.
    #[inline]
    pub fn each_from(&self, from: u32, mut visit: impl FnMut(u32, Tag)) {
        let ring = self.shape.groups as usize;
        let homes = self.shape.homes as u32;
        let mut number = self.start + u64::from(from / 7);
        let mut slot = (number % self.shape.groups) as usize;
        let mut turn = turn(self.shape, number);
        let mut offset = from / 7 * 7;
        while offset < self.end {
            let group = &self.log[slot_range(slot)];
            if word(group, 0) == group_head(number) {
                let places = (self.end - offset).min(7);
                for place in from.saturating_sub(offset)..places {
                    if top_bit(&group[BLOCK * (1 + place as usize)..]) != turn {
                        continue;
                    }
                    let tag = word(group, 8 + 8 * place as usize);
                    match read_tag(tag, offset + place, homes) {
                        Tag::Nothing => {}
                        found => visit(offset + place, found),
                    }
                }
            }
            offset += 7;
            number += 1;
            slot += 1;
            if slot == ring {
                slot = 0;
                turn = !turn;
            }
        }
    }

    /// The block that the entry at an offset gives: its data block, with the
    /// displaced bit back in its place.
    pub fn block(&self, offset: u32) -> [u8; BLOCK] {
        let number = self.start + u64::from(offset / 7);
        let slot = (number % self.shape.groups) as usize;
        let group = &self.log[slot_range(slot)];
        let place = offset as usize % 7;
        let mut block = [0; BLOCK];
        block.copy_from_slice(&group[BLOCK * (1 + place)..BLOCK * (2 + place)]);
        set_top_bit(&mut block, displaced(word(group, 8 + 8 * place)));
        block
    }
}

/// Kept for each first position: entries so far, and one offset plus one
/// whose meaning the caller chooses.
#[derive(Clone, Copy, Default)]
struct Tally {
    count: u16,
    mark: u16,
}

/// Lends `len` fresh tallies from the stack; small logs clear a small table.
#[inline]
fn with_tallies<R>(len: u32, body: impl FnOnce(&mut [Tally]) -> R) -> R {
    if len <= 512 {
        body(&mut [Tally::default(); 512])
    } else {
        body(&mut [Tally::default(); MAX_OFFSETS])
    }
}

/// How far the walk over commit entries has come.
#[derive(Default)]
struct Walk {
    last: Option<u32>,
    ended: bool,
}

impl Walk {
    /// Counts the entry at `offset`; gives its first offset if it commits.
    #[inline]
    fn step(&mut self, offset: u32, tag: Tag, tallies: &mut [Tally]) -> Option<u32> {
        let (first, closing) = match tag {
            Tag::Nothing => return None,
            Tag::Entry { first, .. } => (first, None),
            Tag::Closing { first, link, count, .. } => (first, Some((link, count))),
        };
        let tally = &mut tallies[first as usize];
        tally.count += 1;
        let (link, count) = closing?;
        let linked = match self.last {
            None => link == 0 || link > offset,
            Some(last) => link != 0 && last + link == offset,
        };
        if self.ended || !linked || u32::from(tally.count) != count {
            self.ended = true;
            return None;
        }
        self.last = Some(offset);
        Some(first)
    }
}

/// Home and first offset of an entry.
pub fn parts(tag: Tag) -> (u32, u32) {
    match tag {
        Tag::Entry { home, first } | Tag::Closing { home, first, .. } => (home, first),
        Tag::Nothing => unreachable!(),
    }
}

/// The newest committed value of each home, and which homes have one.
pub struct Newest {
    /// For a touched home: offset plus one of its newest transaction's commit
    /// entry in the upper half, offset of the newest entry in the lower.
    keys: Vec<u32>,
    touched: Vec<u64>,
    pub commits: u64,
}

impl Newest {
    /// Transactions that share a first position share entries; each entry
    /// counts with the last of them that closes at or after it.
    pub fn gather(view: &View) -> Newest {
        let homes = view.shape.homes as usize;
        let mut newest = Newest { keys: vec![0; homes], touched: vec![0; (homes + 63) / 64], commits: 0 };
        with_tallies(view.end, |tallies| {
            let mut walk = Walk::default();
            view.each(|offset, tag| {
                if let Some(first) = walk.step(offset, tag, tallies) {
                    tallies[first as usize].mark = offset as u16 + 1;
                    newest.commits += 1;
                }
            });
            let last = match walk.last {
                Some(last) => last,
                None => return,
            };
            View { end: last + 1, ..*view }.each(|offset, tag| {
                let (home, first) = parts(tag);
                let closing = u32::from(tallies[first as usize].mark);
                if offset < closing {
                    newest.note(home as usize, closing << 16 | offset);
                }
            });
        });
        newest
    }

    #[inline]
    fn note(&mut self, home: usize, key: u32) {
        if key > self.keys[home] {
            self.keys[home] = key;
        }
        self.touched[home / 64] |= 1 << (home % 64);
    }

    pub fn homes(&self) -> usize {
        self.touched.iter().map(|bits| bits.count_ones() as usize).sum()
    }

    /// Visits each touched home, rising, with the offset of its value.
    pub fn each(&self, mut visit: impl FnMut(usize, u32)) {
        for (index, &bits) in self.touched.iter().enumerate() {
            let mut left = bits;
            while left != 0 {
                let home = 64 * index + left.trailing_zeros() as usize;
                visit(home, self.keys[home] & 0xffff);
                left &= left - 1;
            }
        }
    }
}

/// The entries of the committed transactions together.
pub fn committed_entries(view: &View) -> u64 {
    let mut entries = 0;
    with_tallies(view.end, |tallies| {
        let mut walk = Walk::default();
        view.each(|offset, tag| {
            if let Some(first) = walk.step(offset, tag, tallies) {
                entries += u64::from(tallies[first as usize].count);
            }
        });
    });
    entries
}

/// The newest entry for a home of the transaction that began at `first`.
pub fn newest_own(view: &View, home: u32, first: u32) -> Option<u32> {
    let mut newest = None;
    view.each_from(first, |offset, tag| {
        if parts(tag) == (home, first) {
            newest = Some(offset);
        }
    });
    newest
}

/// The offset of the entry at a kept position, if one for the home is there.
pub fn kept_entry(view: &View, home: u64, position: u64) -> Option<u32> {
    let base = 7 * view.start;
    if position < base || position >= base + u64::from(view.end) {
        return None;
    }
    let offset = (position - base) as u32;
    let mut there = None;
    View { end: offset + 1, ..*view }.each_from(offset, |offset, tag| {
        if u64::from(parts(tag).0) == home {
            there = Some(offset);
        }
    });
    there
}

/// The largest group at or below `limit` (counted from the start) that no
/// committed transaction straddles.
pub fn trim_point(view: &View, limit: u32) -> u32 {
    // For each group: the lowest group in which a transaction committed there began.
    let mut lowest = [u16::MAX; MAX_GROUPS];
    with_tallies(view.end, |tallies| {
        let mut walk = Walk::default();
        view.each(|offset, tag| {
            if let Some(first) = walk.step(offset, tag, tallies) {
                let group = &mut lowest[offset as usize / 7];
                *group = (*group).min((first / 7) as u16);
            }
        });
    });
    let mut point = limit;
    let mut group = (view.end + 6) / 7;
    while group > point {
        group -= 1;
        point = point.min(u32::from(lowest[group as usize]));
    }
    point
}
