//! The plain model of rights: sentence by sentence, on signed numbers.

use super::{big, live, put, shape};
use harness::literal::present;
use reference::lent::Lent;

/// The 256 bytes of the list, by the positions kept at `from` in `kept` for homes 8 to 11.
fn list(before: &Lent, kept: &[u8], from: usize) -> Vec<u8> {
    let (start, next, _) = live(before);
    list_below(before, kept, from, start, next)
}

/// The same by the positions below one.
fn list_below(before: &Lent, kept: &[u8], from: usize, start: u64, next: u64) -> Vec<u8> {
    let found = present(&before.log, shape(before).homes, start, Some(next));
    let mut bytes = Vec::new();
    for home in 8..12 {
        let entry = found.get(&big(kept, from + 8 * (home - 8))).filter(|entry| entry.home == home as u64);
        match entry {
            Some(entry) => bytes.extend(&entry.block),
            None => bytes.extend(&before.data[64 * home..64 * home + 64]),
        }
    }
    bytes
}

fn granted(list: &[u8], at: usize, home: u64) -> bool {
    let two = |at: usize| i128::from(list[at]) + 256 * i128::from(list[at + 1]);
    (0..4).map(|n| at + 4 * n).any(|at| {
        let (first, number) = (two(at), two(at + 2));
        first <= i128::from(home) && i128::from(home) < first + number
    })
}

/// By the sign at 928, where it is one.
fn open_to_all(before: &Lent, list: &[u8]) -> bool {
    match big(&before.state, 928) {
        1 => true,
        2 => false,
        _ => list.iter().all(|&byte| byte == 0),
    }
}

pub fn may_store(before: &Lent, writer: u64, home: u64) -> bool {
    may_store_by(before, &before.state, 896, writer, home)
}

/// The same for a call that is lent the newest positions.
pub fn may_store_lent_newest(before: &Lent, writer: u64, home: u64) -> bool {
    may_store_by(before, &before.newest, 64, writer, home)
}

fn may_store_by(before: &Lent, kept: &[u8], from: usize, writer: u64, home: u64) -> bool {
    if (8..=11).contains(&home) {
        return writer == 0;
    }
    if shape(before).homes < 12 {
        return true;
    }
    let list = list(before, kept, from);
    open_to_all(before, &list) || granted(&list, 32 * writer as usize, home)
}

pub fn may_read(before: &Lent, writer: u64, home: u64) -> bool {
    if (8..=11).contains(&home) || shape(before).homes < 12 {
        return true;
    }
    let list = list(before, &before.newest, 64);
    open_to_all(before, &list) || granted(&list, 32 * writer as usize + 16, home)
}

/// Commit and a trim that moves put the list's newest positions into the strip.
pub fn carry(after: &mut Lent) {
    if shape(after).homes >= 12 {
        let kept = after.newest[64..96].to_vec();
        after.state[896..928].copy_from_slice(&kept);
    }
}

/// A commit that changes one of them sets the sign of the list as it is then.
pub fn carry_and_sign(after: &mut Lent, start: u64, closing: u64) {
    let before = after.state[896..928].to_vec();
    carry(after);
    if after.state[896..928] != before[..] {
        let list = list_below(after, &after.newest, 64, start, closing + 1);
        put(&mut after.state, 928, if list == [0; 256] { 1 } else { 2 });
    }
}
