//! Two lists of levels compared minute by minute, from the request alone.

use std::collections::{BTreeMap, BTreeSet};

pub const REFUSED: u64 = 22;
const MOST_ROWS: usize = 1440;
const ROW: usize = 4;

/// The answer, and the lines of each kind: agreeing, differing, only first, only second.
#[derive(Clone, Copy, Debug, PartialEq, Eq)]
pub struct Comparison {
    pub code: u64,
    pub counts: [u64; 4],
}

fn word(bytes: &[u8]) -> u16 {
    u16::from_le_bytes([bytes[0], bytes[1]])
}

/// The rows of a list that is acceptable, by minute.
fn levels(list: &[u8]) -> Option<BTreeMap<u16, u16>> {
    if list.len() % ROW != 0 || list.len() / ROW > MOST_ROWS {
        return None;
    }
    let mut levels = BTreeMap::new();
    for row in list.chunks(ROW) {
        let minute = word(row);
        if levels.keys().next_back().map_or(false, |&last| last >= minute) {
            return None;
        }
        levels.insert(minute, word(&row[2..]));
    }
    Some(levels)
}

/// The kind of a minute's line.
fn kind(first: Option<&u16>, second: Option<&u16>, tolerance: u16) -> u8 {
    match (first, second) {
        (Some(&a), Some(&b)) if a.abs_diff(b) <= tolerance => 1,
        (Some(_), Some(_)) => 2,
        (Some(_), None) => 3,
        _ => 4,
    }
}

pub fn compare(first: &[u8], second: &[u8], output: &mut [u8], tolerance: u16) -> Comparison {
    let refused = Comparison { code: REFUSED, counts: [0; 4] };
    let (first, second) = match (levels(first), levels(second)) {
        (Some(first), Some(second)) => (first, second),
        _ => return refused,
    };
    let mut report = Vec::new();
    let mut counts = [0; 4];
    let minutes: BTreeSet<u16> = first.keys().chain(second.keys()).copied().collect();
    for minute in minutes {
        let kind = kind(first.get(&minute), second.get(&minute), tolerance);
        counts[kind as usize - 1] += 1;
        report.extend(minute.to_le_bytes());
        report.push(kind);
    }
    if report.len() > output.len() {
        return refused;
    }
    output[..report.len()].copy_from_slice(&report);
    Comparison { code: 0, counts }
}

#[cfg(test)]
mod tests {
    use super::*;

    fn strip(rows: &[(u16, u16)]) -> Vec<u8> {
        rows.iter().flat_map(|&(minute, level)| [minute.to_le_bytes(), level.to_le_bytes()].concat()).collect()
    }

    #[test]
    fn each_kind_once() {
        let (a, b) = (strip(&[(1, 100), (2, 100), (258, 7)]), strip(&[(1, 105), (2, 106), (3, 0)]));
        let mut output = [9; 14];
        let answer = compare(&a, &b, &mut output, 5);
        assert_eq!(answer, Comparison { code: 0, counts: [1, 1, 1, 1] });
        assert_eq!(output, [1, 0, 1, 2, 0, 2, 3, 0, 4, 2, 1, 3, 9, 9]);
        let mut short = [9; 11];
        assert_eq!(compare(&a, &b, &mut short, 5).code, REFUSED);
        assert_eq!(short, [9; 11]);
    }

    #[test]
    fn refusals() {
        let equal = strip(&[(4, 1), (4, 2)]);
        assert_eq!(compare(&equal, &[], &mut [0; 9], 0).code, REFUSED);
        assert_eq!(compare(&[], &equal[..7], &mut [0; 9], 0).code, REFUSED);
        let long: Vec<(u16, u16)> = (0..=1440).map(|minute| (minute, 0)).collect();
        assert_eq!(compare(&strip(&long), &[], &mut [0; 5000], 0).code, REFUSED);
        assert_eq!(compare(&strip(&long[1..]), &[], &mut [0; 5000], 0).counts, [0, 0, 1440, 0]);
        assert_eq!(compare(&[], &[], &mut [], 0), Comparison { code: 0, counts: [0; 4] });
    }
}
