//! A second, literal reading of the commit rule, slow and plain. It shares no
//! code with the fast walk: positions are absolute and signed, and groups,
//! tags and closings are taken sentence by sentence from the paper.

use std::collections::BTreeMap;

#[derive(Clone, Debug, PartialEq, Eq)]
pub struct Found {
    pub home: u64,
    pub first: i128,
    /// Link distance and count, of a closing entry.
    pub closing: Option<(i128, i128)>,
    pub block: Vec<u8>,
}

#[derive(Clone, Debug, PartialEq, Eq)]
pub struct Transaction {
    pub first: i128,
    pub closing: i128,
    /// Homes and blocks by rising position.
    pub entries: Vec<(u64, Vec<u8>)>,
}

fn little(bytes: &[u8]) -> i128 {
    bytes.iter().rev().fold(0, |sum, &byte| sum * 256 + i128::from(byte))
}

/// Bits `low` to `high` of a tag, both included.
fn bits(tag: i128, low: u32, high: u32) -> i128 {
    tag / (1 << low) % (1 << (high - low + 1))
}

pub fn header_start(log: &[u8]) -> u64 {
    little(&log[2..8]) as u64
}

/// The start that a well-formed header carries.
pub fn good_header(log: &[u8], data: &[u8]) -> Option<u64> {
    let groups = (log.len() as i128 - 64) / 512;
    let homes = data.len() as i128 / 64;
    let good = log[0] == 0x50
        && log[1] == 0x54
        && little(&log[8..10]) == groups
        && little(&log[10..12]) == homes
        && log[12..64].iter().all(|&byte| byte == 0)
        && little(&log[2..8]) <= 1 << 47;
    good.then(|| header_start(log))
}

/// What is present: the entries below `next` (all, if none is given).
pub fn present(log: &[u8], homes: u64, start: u64, next: Option<u64>) -> BTreeMap<i128, Found> {
    let groups = (log.len() as i128 - 64) / 512;
    let start = i128::from(start);
    let mut found = BTreeMap::new();
    for place in 0..groups {
        let from = 64 + 512 * place as usize;
        let group = &log[from..from + 512];
        let number = little(&group[2..8]);
        let mark = group[0] == 0x50 && group[1] == 0x47;
        if !mark || number % groups != place || number < start || number >= start + groups {
            continue;
        }
        for k in 0..7 {
            let position = 7 * number + k as i128;
            if next.map_or(false, |next| position >= i128::from(next)) {
                continue;
            }
            let tag = little(&group[8 + 8 * k..16 + 8 * k]);
            let block = &group[64 + 64 * k..128 + 64 * k];
            let turn_fits = i128::from(block[63] / 128) == number / groups % 2;
            if !turn_fits {
                continue;
            }
            if let Some(entry) = entry(tag, position, homes, start, block) {
                found.insert(position, entry);
            }
        }
    }
    found
}

fn entry(tag: i128, position: i128, homes: u64, start: i128, block: &[u8]) -> Option<Found> {
    let used = bits(tag, 0, 0) == 1;
    let closing = bits(tag, 1, 1) == 1;
    let home = (bits(tag, 2, 13) + 4096 * bits(tag, 53, 56)) as u64;
    let first = position - bits(tag, 14, 26);
    let (link, count) = (bits(tag, 27, 39), bits(tag, 40, 52));
    let zero_bit_set = bits(tag, 58, 63) != 0 || (!closing && bits(tag, 27, 52) != 0);
    let before_start = first < 7 * start;
    if !used || zero_bit_set || home >= homes || before_start || (closing && count == 0) {
        return None;
    }
    let closing = closing.then_some((link, count));
    let mut block = block.to_vec();
    block[63] = block[63] % 128 + 128 * bits(tag, 57, 57) as u8;
    Some(Found { home, first, closing, block })
}

/// The committed transactions among what is present, in commit order.
pub fn committed(present: &BTreeMap<i128, Found>, start: u64) -> Vec<Transaction> {
    let before = 7 * i128::from(start);
    let mut list: Vec<Transaction> = Vec::new();
    for (&position, found) in present {
        let (link, count) = match found.closing {
            Some(closing) => closing,
            None => continue,
        };
        let entries: Vec<(u64, Vec<u8>)> = present
            .range(found.first..=position)
            .filter(|(_, other)| other.first == found.first)
            .map(|(_, other)| (other.home, other.block.clone()))
            .collect();
        let complete = entries.len() as i128 == count;
        let linked = match list.last() {
            None => link == 0 || position - link < before,
            Some(last) => link != 0 && position - link == last.closing,
        };
        if !complete || !linked {
            break;
        }
        list.push(Transaction { first: found.first, closing: position, entries });
    }
    list
}

/// The newest value of each home among transactions, in commit order.
pub fn replay(list: &[Transaction]) -> BTreeMap<u64, Vec<u8>> {
    let mut values = BTreeMap::new();
    for (home, block) in list.iter().flat_map(|transaction| &transaction.entries) {
        values.insert(*home, block.clone());
    }
    values
}

/// Trim's start: the largest s with 7 x s at most the settled position and
/// nothing on both sides of 7 x s. `open` holds first positions.
pub fn trim_start(list: &[Transaction], start: u64, settled: u64, open: &[u64]) -> u64 {
    let mut best = start;
    for s in start..=settled / 7 {
        let cut = 7 * i128::from(s);
        let committed = list.iter().any(|t| t.first < cut && t.closing >= cut);
        let opened = open.iter().any(|&first| i128::from(first) < cut);
        if !committed && !opened {
            best = s;
        }
    }
    best
}
