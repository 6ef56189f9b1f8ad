//! Inflow from float switches: the library against the reference implementation and against every choice inside small
//! ranges, at the extremes, and on random numbers.
//! Clauses: [S-72]

use harness::rng::Rng;
use reference::inflow::{bounds, inflow, Bounds, Range};

#[repr(C)]
struct Reply {
    code: u64,
    least: i64,
    most: i64,
}

extern "C" {
    fn kagutin_inflow(
        area: u64,
        low_before: u16,
        high_before: u16,
        low_after: u16,
        high_after: u16,
        low_pumped: u32,
        high_pumped: u32,
    ) -> Reply;
}

#[derive(Clone, Copy, Debug)]
struct Given {
    area: u64,
    before: Range<u16>,
    after: Range<u16>,
    pumped: Range<u32>,
}

/// What the calls came to, and the single choices that were tried inside their ranges.
#[derive(Default)]
pub struct Played {
    pub done: u64,
    pub refused: u64,
    pub choices: u64,
}

impl Played {
    fn ask(&mut self, given: Given) -> Result<Bounds, String> {
        let Given { area, before, after, pumped } = given;
        // Numbers alone pass.
        let reply =
            unsafe { kagutin_inflow(area, before.low, before.high, after.low, after.high, pumped.low, pumped.high) };
        let got = Bounds { code: reply.code, least: reply.least, most: reply.most };
        let wanted = bounds(area, before, after, pumped);
        if got != wanted {
            return Err(format!("inflow: {given:?}: {got:?} for {wanted:?}"));
        }
        if got.code == 0 {
            self.done += 1;
        } else {
            self.refused += 1;
        }
        Ok(got)
    }

    /// Every choice lies between the ends, and each end is one of them.
    fn ask_all_choices(&mut self, given: Given) -> Result<(), String> {
        let got = self.ask(given)?;
        if got.code != 0 {
            return Ok(());
        }
        let (mut least, mut most) = (i128::MAX, i128::MIN);
        for before in given.before.low..=given.before.high {
            for after in given.after.low..=given.after.high {
                for pumped in given.pumped.low..=given.pumped.high {
                    let volume = inflow(given.area, before, after, pumped);
                    (least, most) = (least.min(volume), most.max(volume));
                    self.choices += 1;
                }
            }
        }
        if (least, most) != (got.least.into(), got.most.into()) {
            return Err(format!("inflow: {given:?}: {got:?}, but the choices lie from {least} to {most}"));
        }
        Ok(())
    }
}

fn ranges<T: Copy>(values: &[T]) -> Vec<Range<T>> {
    values.iter().flat_map(|&low| values.iter().map(move |&high| Range { low, high })).collect()
}

fn all(
    areas: &[u64],
    depths: &[u16],
    volumes: &[u32],
    mut ask: impl FnMut(Given) -> Result<(), String>,
) -> Result<(), String> {
    for &area in areas {
        for &before in &ranges(depths) {
            for &after in &ranges(depths) {
                for &pumped in &ranges(volumes) {
                    ask(Given { area, before, after, pumped })?;
                }
            }
        }
    }
    Ok(())
}

pub fn play(seed: u64, cases: u64) -> Result<Played, String> {
    let mut played = Played::default();
    all(&[0, 1, 3], &[0, 1, 2, 4], &[0, 1, 5], |given| played.ask_all_choices(given))?;
    let areas = [0, 1, 999_999, 1_000_000, 1_000_001, 1 << 32, (1 << 32) + 1, u64::MAX];
    all(&areas, &[0, 1, 32_768, 65_534, 65_535], &[0, 1, 1 << 31, u32::MAX], |given| played.ask(given).map(drop))?;
    let mut rng = Rng::new(seed ^ 0x696e_666c_6f77);
    for _ in 0..cases {
        let mut depths = || Range { low: rng.below(65_536) as u16, high: rng.below(65_536) as u16 };
        let (before, after) = (depths(), depths());
        let mut given = Given { area: rng.between(0, 1_000_010), before, after, pumped: Range { low: 0, high: 0 } };
        given.pumped = Range { low: rng.next() as u32, high: rng.next() as u32 };
        if rng.chance(80) {
            let sorted = |range: Range<u16>| Range { low: range.low.min(range.high), high: range.low.max(range.high) };
            (given.before, given.after) = (sorted(before), sorted(after));
            let Range { low, high } = given.pumped;
            given.pumped = Range { low: low.min(high), high: low.max(high) };
        }
        played.ask(given)?;
    }
    Ok(played)
}
