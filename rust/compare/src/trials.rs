//! The paper's trials 11 to 13, with the answers it gives, the head mark of
//! older logs, and the answers of a round and of rights.
//! Clauses: [S-12, S-21, S-24, S-26, S-29, S-30, S-31, S-32, S-39]

use crate::pair::Pair;
use reference::layout::{header, Shape};
use reference::lent::{Kind, Lent};
use reference::rights::{List, RANGES};

const SHAPE: Shape = Shape { groups: 4, homes: 8 };
const LIMIT: u64 = 1 << 47;

struct Trial<'a> {
    name: &'static str,
    lent: Lent,
    pair: &'a mut Pair,
}

impl Trial<'_> {
    fn new<'a>(name: &'static str, pair: &'a mut Pair) -> Result<Trial<'a>, String> {
        Trial::of(name, SHAPE.homes, pair)
    }

    /// Just formatted and opened, with this many homes.
    fn of<'a>(name: &'static str, homes: u64, pair: &'a mut Pair) -> Result<Trial<'a>, String> {
        let mut trial = Trial { name, lent: Lent::new(SHAPE.groups, homes), pair };
        trial.expect(Kind::Format, 0, 0, 0)?;
        trial.expect(Kind::Open, 0, 0, 0)?;
        Ok(trial)
    }

    /// Both answer alike, and with this number.
    fn expect(&mut self, kind: Kind, writer: u64, home: u64, code: u32) -> Result<(), String> {
        let answer = self.pair.run(&mut self.lent, kind, writer, home);
        self.pair.verdict().map_err(|what| format!("{}: {what}", self.name))?;
        if answer.code == code {
            return Ok(());
        }
        Err(format!("{}: {} answers {}, not {code}", self.name, kind.name(), answer.code))
    }
}

pub fn play(pair: &mut Pair) -> Result<(), String> {
    sizes(pair)?;
    numbers(pair)?;
    short_batch(pair)?;
    high_start(pair)?;
    old_head(pair)?;
    round(pair)?;
    few_homes(pair)?;
    rights(pair)
}

/// Homes from 8 on are writer 0's, also where D is too small for a list.
fn few_homes(pair: &mut Pair) -> Result<(), String> {
    for homes in 8..13 {
        let mut trial = Trial::of("homes for a list", homes, pair)?;
        for writer in [0, 1] {
            trial.expect(Kind::Begin, writer, 0, 0)?;
            for home in 8..homes {
                trial.lent.block = vec![0xff; 64];
                trial.expect(Kind::Store, writer, home, if writer == 0 || home > 11 { 0 } else { 19 })?;
                trial.expect(Kind::Read, writer, home, 0)?;
            }
            trial.expect(Kind::Store, writer, homes, 5)?;
            trial.expect(Kind::Read, writer, homes, 5)?;
            trial.expect(Kind::Store, writer, 7, 0)?;
            trial.expect(Kind::Read, writer, 7, 0)?;
        }
        trial.expect(Kind::Commit, 0, 0, 0)?;
        trial.expect(Kind::Store, 1, 7, if homes > 11 { 19 } else { 0 })?;
        trial.expect(Kind::Read, 1, 7, if homes > 11 { 20 } else { 0 })?;
    }
    Ok(())
}

/// Ranges at their edges; a list counts from its commit; 19 and 20 come before all but 1, 2, 4 and 5.
fn rights(pair: &mut Pair) -> Result<(), String> {
    let mut trial = Trial::of("rights", 16, pair)?;
    let mut list = List::NONE;
    list.put(1, 0, 3, 2);
    list.put(1, 3, 15, 65535);
    list.put(1, RANGES + 2, 0, 1);
    list.put(6, RANGES, 65535, 65535);
    trial.expect(Kind::Begin, 0, 0, 0)?;
    for (block, home) in list.0.iter().zip(8..) {
        trial.lent.block = block.to_vec();
        trial.expect(Kind::Store, 0, home, 0)?;
    }
    trial.expect(Kind::Store, 7, 0, 7)?;
    trial.expect(Kind::Read, 0, 0, 0)?;
    trial.expect(Kind::Commit, 0, 0, 0)?;
    trial.expect(Kind::Begin, 1, 0, 0)?;
    for home in 0..16 {
        let stores = [3, 4, 15].contains(&home);
        let reads = home == 0 || (8..12).contains(&home);
        trial.expect(Kind::Store, 1, home, if stores { 0 } else { 19 })?;
        trial.expect(Kind::Read, 1, home, if reads { 0 } else { 20 })?;
        for writer in [0, 6, 7] {
            trial.expect(Kind::Store, writer, home, if writer == 0 && (8..12).contains(&home) { 7 } else { 19 })?;
            trial.expect(Kind::Read, writer, home, if (8..12).contains(&home) { 0 } else { 20 })?;
        }
    }
    trial.lent.batch.clear();
    trial.expect(Kind::Store, 8, 0, 4)?;
    trial.expect(Kind::Store, 7, 16, 5)?;
    trial.expect(Kind::Store, 7, 0, 19)
}

/// Two homes settled by steps of one.
fn round(pair: &mut Pair) -> Result<(), String> {
    let mut trial = Trial::new("a round", pair)?;
    trial.expect(Kind::StepRound, 0, 1, 21)?;
    trial.expect(Kind::Begin, 0, 0, 0)?;
    trial.expect(Kind::Store, 0, 1, 0)?;
    trial.expect(Kind::Store, 0, 6, 0)?;
    trial.expect(Kind::Commit, 0, 0, 0)?;
    trial.expect(Kind::Flush, 0, 0, 0)?;
    trial.expect(Kind::BeginRound, 0, 0, 0)?;
    trial.expect(Kind::BeginRound, 0, 0, 21)?;
    trial.expect(Kind::Settle, 0, 0, 21)?;
    trial.lent.batch = vec![0xcc; 67];
    trial.expect(Kind::StepRound, 0, 0, 21)?;
    trial.expect(Kind::StepRound, 0, 1, 9)?;
    trial.lent.batch = vec![0xcc; 68];
    trial.expect(Kind::StepRound, 0, 1, 0)?;
    trial.expect(Kind::Settle, 0, 0, 21)?;
    trial.expect(Kind::StepRound, 0, u64::MAX, 9)?;
    trial.lent.batch = vec![0xcc; 70];
    trial.expect(Kind::StepRound, 0, u64::MAX, 0)?;
    trial.expect(Kind::StepRound, 0, 1, 21)?;
    trial.expect(Kind::Trim, 0, 0, 0)?;
    trial.expect(Kind::BeginRound, 0, 0, 0)?;
    trial.lent.batch = vec![0xcc; 2];
    trial.expect(Kind::StepRound, 0, 1, 0)
}

fn old_head(pair: &mut Pair) -> Result<(), String> {
    for (mark, code) in [(0x48, 3), (0x54, 0), (0x47, 3)] {
        let mut trial = Trial::new("head mark", pair)?;
        trial.lent.log[1] = mark;
        trial.expect(Kind::Open, 0, 0, code)?;
    }
    Ok(())
}

fn sizes(pair: &mut Pair) -> Result<(), String> {
    let name = "trial 11, sizes";
    for (groups, homes) in [(3, 8), (1025, 8), (4, 0), (4, 65536)] {
        for kind in Kind::ALL {
            let mut trial = Trial { name, lent: Lent::new(groups, homes), pair };
            trial.expect(kind, 0, 0, 1)?;
        }
    }
    for (groups, homes) in [(4, 1), (1024, 1), (4, 4096), (4, 4097), (4, 65535), (1024, 65535)] {
        let mut trial = Trial { name, lent: Lent::new(groups, homes), pair };
        trial.expect(Kind::Format, 0, 0, 0)?;
        trial.expect(Kind::Open, 0, 0, 0)?;
        trial.expect(Kind::Begin, 0, 0, 0)?;
        trial.expect(Kind::Store, 0, homes - 1, 0)?;
        trial.expect(Kind::Store, 0, homes, 5)?;
    }
    Ok(())
}

fn numbers(pair: &mut Pair) -> Result<(), String> {
    let mut trial = Trial::new("trial 11, numbers", pair)?;
    trial.expect(Kind::Begin, 7, 0, 0)?;
    for writer in [8, 1 << 32, 1 << 32 | 7, 1 << 63, u64::MAX] {
        for kind in Kind::ALL.into_iter().filter(|kind| kind.takes_writer()) {
            trial.expect(kind, writer, 0, 4)?;
        }
    }
    for home in [8, 1 << 32, 1 << 32 | 7, 1 << 63, u64::MAX] {
        trial.expect(Kind::Store, 7, home, 5)?;
        trial.expect(Kind::Read, 7, home, 5)?;
    }
    trial.expect(Kind::Store, 7, 7, 0)?;
    trial.expect(Kind::Read, 7, 7, 0)
}

fn short_batch(pair: &mut Pair) -> Result<(), String> {
    let mut trial = Trial::new("trial 12", pair)?;
    trial.expect(Kind::Begin, 0, 0, 0)?;
    for home in 0..7 {
        trial.expect(Kind::Store, 0, home, 0)?;
    }
    trial.lent.batch = vec![0xcc; 515];
    trial.expect(Kind::Store, 0, 7, 9)?;
    trial.lent.batch = vec![0xcc; 516];
    trial.expect(Kind::Store, 0, 7, 0)
}

fn high_start(pair: &mut Pair) -> Result<(), String> {
    let starts = [(LIMIT - 5, 0), (LIMIT - 4, 0), (LIMIT - 3, 10), (LIMIT, 10), (LIMIT + 1, 3)];
    for (start, code) in starts {
        let mut trial = Trial::new("trial 13", pair)?;
        trial.lent.log[..64].copy_from_slice(&header(SHAPE, start));
        trial.expect(Kind::Open, 0, 0, code)?;
    }
    Ok(())
}
