//! Tables of depth bands judged, packed and looked up, one millimetre after the other, from the request alone.

pub const BAD_ROWS: u64 = 11;
pub const GAP: u64 = 12;
pub const DOUBLE: u64 = 13;
pub const DEPTHS: u64 = 10_000;
pub const SIZE: usize = 192;
const ROW: usize = 5;
const MOST_ROWS: usize = 32;
const MOST_PUMPS: u64 = 4;

#[derive(Clone, Copy, Debug, PartialEq, Eq)]
pub struct Band {
    pub from: u64,
    pub to: u64,
    pub pumps: u64,
}

/// The answer, and the millimetre that 12 and 13 tell.
#[derive(Clone, Copy, Debug, PartialEq, Eq)]
pub struct Verdict {
    pub code: u64,
    pub millimetre: u64,
}

fn bands(strip: &[u8]) -> Vec<Band> {
    let word = |low: u8, high: u8| u64::from(u16::from_le_bytes([low, high]));
    let band = |r: &[u8]| Band { from: word(r[0], r[1]), to: word(r[2], r[3]), pumps: r[4].into() };
    strip.chunks_exact(ROW).map(band).collect()
}

impl Band {
    fn holds(&self, millimetre: u64) -> bool {
        (self.from..=self.to).contains(&millimetre)
    }

    fn fits(&self) -> bool {
        self.from <= self.to && self.to < DEPTHS && self.pumps <= MOST_PUMPS
    }
}

pub fn judge(strip: &[u8]) -> Verdict {
    let bands = bands(strip);
    let whole = strip.len() == bands.len() * ROW && (1..=MOST_ROWS).contains(&bands.len());
    if !whole || !bands.iter().all(Band::fits) {
        return Verdict { code: BAD_ROWS, millimetre: 0 };
    }
    let count = |millimetre: u64| bands.iter().filter(|band| band.holds(millimetre)).count();
    if let Some(gap) = (0..DEPTHS).find(|&millimetre| count(millimetre) == 0) {
        return Verdict { code: GAP, millimetre: gap };
    }
    if let Some(double) = (0..DEPTHS).find(|&millimetre| count(millimetre) > 1) {
        return Verdict { code: DOUBLE, millimetre: double };
    }
    Verdict { code: 0, millimetre: 0 }
}

/// The home blocks of an accepted table.
pub fn pack(strip: &[u8]) -> [u8; SIZE] {
    let mut packed = [0; SIZE];
    packed[0] = (strip.len() / ROW) as u8;
    packed[1..=strip.len()].copy_from_slice(strip);
    packed
}

/// The rows that the home blocks hold, if they are an acceptable table.
pub fn unpack(packed: &[u8; SIZE]) -> Option<&[u8]> {
    let rows = usize::from(packed[0]);
    let strip = packed.get(1..=rows * ROW).filter(|_| rows <= MOST_ROWS)?;
    (judge(strip).code == 0).then_some(strip)
}

/// The row that a millimetre lies in, if the home blocks hold an acceptable table.
pub fn look_up(packed: &[u8; SIZE], millimetre: u64) -> Option<Band> {
    let strip = unpack(packed)?;
    bands(strip).into_iter().find(|band| band.holds(millimetre))
}

#[cfg(test)]
mod tests {
    use super::*;
    use harness::rng::Rng;

    fn strip(rows: &[(u16, u16, u8)]) -> Vec<u8> {
        let mut strip = Vec::new();
        for (from, to, pumps) in rows {
            strip.extend(from.to_le_bytes());
            strip.extend(to.to_le_bytes());
            strip.push(*pumps);
        }
        strip
    }

    fn verdict(rows: &[(u16, u16, u8)]) -> (u64, u64) {
        let Verdict { code, millimetre } = judge(&strip(rows));
        (code, millimetre)
    }

    #[test]
    fn answers_in_their_order() {
        assert_eq!(verdict(&[(0, 9999, 4)]), (0, 0));
        assert_eq!(verdict(&[(300, 9999, 1), (0, 299, 0)]), (0, 0));
        assert_eq!(verdict(&[]), (BAD_ROWS, 0));
        assert_eq!(judge(&strip(&[(0, 9999, 0)])[..4]).code, BAD_ROWS);
        assert_eq!(verdict(&[(0, 9999, 5)]), (BAD_ROWS, 0));
        assert_eq!(verdict(&[(0, 10_000, 0)]), (BAD_ROWS, 0));
        assert_eq!(verdict(&[(0, 9999, 0), (8, 7, 0)]), (BAD_ROWS, 0));
        assert_eq!(verdict(&[(0, 9, 0); 33]), (BAD_ROWS, 0));
        assert_eq!(verdict(&[(0, 9, 0); 32]), (GAP, 10));
        assert_eq!(verdict(&[(1, 9999, 0)]), (GAP, 0));
        assert_eq!(verdict(&[(0, 9998, 0)]), (GAP, 9999));
        assert_eq!(verdict(&[(0, 500, 0), (400, 9998, 0)]), (GAP, 9999));
        assert_eq!(verdict(&[(500, 9999, 0), (0, 500, 0)]), (DOUBLE, 500));
        assert_eq!(verdict(&[(0, 9999, 0), (256, 256, 0)]), (DOUBLE, 256));
    }

    #[test]
    fn homes_hold_what_was_packed() {
        let table = strip(&[(300, 9999, 1), (0, 299, 3)]);
        let packed = pack(&table);
        assert_eq!(packed[..6], [2, 44, 1, 15, 39, 1]);
        assert_eq!(unpack(&packed), Some(&table[..]));
        assert_eq!(look_up(&packed, 299), Some(Band { from: 0, to: 299, pumps: 3 }));
        assert_eq!(look_up(&packed, 300), Some(Band { from: 300, to: 9999, pumps: 1 }));
        assert_eq!(look_up(&packed, 10_000), None);
    }

    #[test]
    fn no_table_in_other_homes() {
        let mut packed = pack(&strip(&[(0, 9999, 1)]));
        for rows in [0, 2, 32, 33, 38, 39, 255] {
            packed[0] = rows;
            assert_eq!(unpack(&packed), None, "{rows} rows");
        }
        assert_eq!(unpack(&[0; SIZE]), None);
    }

    /// Rows that part the depths, in any order, and often one end moved.
    fn table(rng: &mut Rng) -> Vec<(u16, u16, u8)> {
        let mut ends: Vec<u16> = (0..rng.below(32)).map(|_| rng.below(DEPTHS - 1) as u16).collect();
        ends.push(9999);
        ends.sort_unstable();
        ends.dedup();
        let mut rows = Vec::new();
        let mut from = 0;
        for to in ends {
            rows.insert(rng.below(rows.len() as u64 + 1) as usize, (from, to, rng.below(5) as u8));
            from = to + 1;
        }
        if rng.chance(60) {
            let at = rng.below(rows.len() as u64) as usize;
            let (from, to, pumps) = rows[at];
            rows[at] = match rng.below(3) {
                0 => (rng.between(0, to.into()) as u16, to, pumps),
                1 => (from, rng.between(from.into(), 9999) as u16, pumps),
                _ => (from, to, pumps + 1),
            };
        }
        rows
    }

    /// The same answer from rows in order: a walk from end to end.
    fn walked(rows: &[(u16, u16, u8)]) -> (u64, u64) {
        if rows.iter().any(|&(from, to, pumps)| from > to || to > 9999 || pumps > 4) {
            return (BAD_ROWS, 0);
        }
        let mut sorted = rows.to_vec();
        sorted.sort_unstable();
        let (mut next, mut double) = (0, None);
        for &(from, to, _) in &sorted {
            if u64::from(from) > next {
                return (GAP, next);
            }
            if u64::from(from) < next {
                double = double.or(Some(u64::from(from)));
            }
            next = next.max(u64::from(to) + 1);
        }
        if next < DEPTHS {
            return (GAP, next);
        }
        double.map_or((0, 0), |millimetre| (DOUBLE, millimetre))
    }

    #[test]
    fn two_ways_agree() {
        let mut rng = Rng::new(14);
        let mut seen = [0; 4];
        for _ in 0..2_000 {
            let rows = table(&mut rng);
            let (code, millimetre) = verdict(&rows);
            assert_eq!((code, millimetre), walked(&rows), "{rows:?}");
            seen[code.saturating_sub(10) as usize] += 1;
            let depth = rng.below(DEPTHS);
            let found = look_up(&pack(&strip(&rows)), depth);
            assert_eq!(found.is_some(), code == 0);
            for (from, to, pumps) in rows.into_iter().filter(|_| code == 0) {
                let band = Band { from: from.into(), to: to.into(), pumps: pumps.into() };
                assert_eq!(band.from <= depth && depth <= band.to, found == Some(band));
            }
        }
        assert!(seen.iter().all(|&times| times > 20), "{seen:?}");
    }
}
