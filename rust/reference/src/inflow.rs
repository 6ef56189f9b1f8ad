//! Least and most inflow of a pit, from the request alone.

pub const REFUSED: u64 = 23;
const MOST_AREA: u64 = 1_000_000;

/// A range of whole values, both ends in it.
#[derive(Clone, Copy, Debug, PartialEq, Eq)]
pub struct Range<T> {
    pub low: T,
    pub high: T,
}

/// The answer, and the least and the most volume.
#[derive(Clone, Copy, Debug, PartialEq, Eq)]
pub struct Bounds {
    pub code: u64,
    pub least: i64,
    pub most: i64,
}

/// Inflow for one choice of depths and pumped volume.
pub fn inflow(area: u64, before: u16, after: u16, pumped: u32) -> i128 {
    i128::from(area) * (i128::from(after) - i128::from(before)) + i128::from(pumped)
}

/// The least and the most over the corners of the ranges, where a linear function has its ends.
pub fn bounds(area: u64, before: Range<u16>, after: Range<u16>, pumped: Range<u32>) -> Bounds {
    let right = before.low <= before.high && after.low <= after.high && pumped.low <= pumped.high;
    if !right || area == 0 || area > MOST_AREA {
        return Bounds { code: REFUSED, least: 0, most: 0 };
    }
    let mut corners = Vec::new();
    for before in [before.low, before.high] {
        for after in [after.low, after.high] {
            for pumped in [pumped.low, pumped.high] {
                corners.push(inflow(area, before, after, pumped));
            }
        }
    }
    let whole = |volume: &i128| i64::try_from(*volume).expect("64 bits");
    let least = corners.iter().min().map(whole).expect("eight corners");
    let most = corners.iter().max().map(whole).expect("eight corners");
    Bounds { code: 0, least, most }
}

#[cfg(test)]
mod tests {
    use super::*;

    fn range<T>(low: T, high: T) -> Range<T> {
        Range { low, high }
    }

    #[test]
    fn widest() {
        let given = (range(0, u16::MAX), range(0, u32::MAX));
        let answer = bounds(1_000_000, given.0, given.0, given.1);
        assert_eq!(answer, Bounds { code: 0, least: -65_535_000_000, most: 69_829_967_295 });
    }

    #[test]
    fn refusals() {
        let (one, none) = (range(3, 3), range(0, 0));
        assert_eq!(bounds(0, one, one, none).code, REFUSED);
        assert_eq!(bounds(1_000_001, one, one, none).code, REFUSED);
        assert_eq!(bounds(1, range(4, 3), one, none).code, REFUSED);
        assert_eq!(bounds(1, one, range(4, 3), none).code, REFUSED);
        assert_eq!(bounds(1, one, one, range(1, 0)).code, REFUSED);
        assert_eq!(bounds(7, one, range(1, 1), none), Bounds { code: 0, least: -14, most: -14 });
    }
}
