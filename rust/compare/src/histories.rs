//! Calls over valid histories with cuts, compared one by one.
//! Clauses: [S-7, S-20, S-24, S-25, S-33, S-34, S-35, S-38, S-50, S-54, S-55, S-56]

use crate::pair::{runner, Pair};
use harness::damage::damage_lengths;
use harness::player::{random_crash, random_odd, Profile};
use harness::rng::Rng;
use harness::world::{Call, World};
use reference::layout::{Shape, START_LIMIT};
use reference::lent::{ample, Kind, Lent};
use reference::Answer;
use std::cell::RefCell;
use std::rc::Rc;

pub const MOST_GROUPS: u64 = 1024;

/// What the histories came to.
#[derive(Default)]
pub struct Played {
    pub histories: u64,
    pub cuts: u64,
    pub brought_back: u64,
    /// Settles that wrote a home, and trims that moved the start.
    pub settles: u64,
    pub trims: u64,
    pub near_limit: u64,
    pub large_calls: u64,
}

/// Small sizes often, so that most calls cost little; around 12 often, where a list of rights begins to fit.
pub fn random_homes(rng: &mut Rng) -> u64 {
    match rng.below(100) {
        0..=19 => 1,
        20..=39 => 7,
        40..=64 => 13,
        65..=69 => rng.between(8, 12),
        70..=84 => 64,
        85..=94 => rng.between(2, 70),
        95..=98 => 4096,
        _ => 65535,
    }
}

pub fn random_shape(rng: &mut Rng) -> Shape {
    let groups = match rng.below(100) {
        0..=54 => 4,
        55..=79 => 5,
        80..=91 => 64,
        _ => rng.between(6, 63),
    };
    Shape { groups, homes: random_homes(rng) }
}

/// Often 0, else around the highest start, or anywhere.
fn random_start(rng: &mut Rng, groups: u64) -> u64 {
    match rng.below(20) {
        0..=2 => START_LIMIT - groups - rng.below(5 * groups),
        3 => START_LIMIT - rng.below(groups + 2),
        4 => rng.below(START_LIMIT / 2),
        _ => 0,
    }
}

/// A number mostly out of range, such that a shortened one would fall within.
pub fn far(rng: &mut Rng, limit: u64, near: u64) -> u64 {
    let high = rng.pick(&[1 << 8, 1 << 16, 1 << 31, 1 << 32, 1 << 63]);
    rng.pick(&[limit, limit + 1, high, high | near, high | near, 1 << 32, 1 << 63, u64::MAX])
}

/// Plays histories until `calls` calls are compared, `large` in a thousand of
/// them with the largest log.
pub fn play(
    seed: u64,
    calls: u64,
    large: u64,
    pair: &Rc<RefCell<Pair>>,
    mut progress: impl FnMut(u64, &Played),
) -> Result<Played, String> {
    let mut rng = Rng::new(seed);
    let mut played = Played::default();
    let first = pair.borrow().case;
    loop {
        let done = pair.borrow().case - first;
        progress(done.min(calls), &played);
        if done >= calls {
            return Ok(played);
        }
        let most = calls - done;
        let is_large = played.large_calls * 1000 < large * done;
        let outcome = history(&mut rng, is_large, most, pair, &mut played);
        pair.borrow().verdict()?;
        outcome.map_err(|what| format!("case {}: {what}", pair.borrow().case))?;
    }
}

fn history(rng: &mut Rng, large: bool, most: u64, pair: &Rc<RefCell<Pair>>, played: &mut Played) -> Result<(), String> {
    let shape = match large {
        true => Shape { groups: MOST_GROUPS, homes: rng.pick(&[1, 7, 64, 4096, 65535]) },
        false => random_shape(rng),
    };
    let first = pair.borrow().case;
    format(rng, shape, pair);
    let start = random_start(rng, shape.groups);
    let mut player = Player::new(rng, World::with_runner(shape, start, runner(pair)));
    played.histories += 1;
    played.near_limit += u64::from(start > START_LIMIT / 2);
    if large {
        pair.borrow_mut().comparing = false;
        let steps = rng.pick(&[0, 500, 4000, 10_000]);
        player.fill(rng, steps)?;
        pair.borrow_mut().comparing = true;
    }
    let steps = rng.pick(&[40, 100, 200, 400]) * shape.groups.clamp(8, 32) / 8;
    let last = first + most.min(if large { 150 } else { steps });
    while player.goes_on && pair.borrow().case < last && pair.borrow().difference.is_none() {
        let done = player.step(rng)?;
        played.count(done);
    }
    if large {
        played.large_calls += pair.borrow().case - first;
    }
    Ok(())
}

impl Played {
    fn count(&mut self, done: Option<(Kind, Answer)>) {
        match done {
            None => self.cuts += 1,
            Some((Kind::Open, answer)) => self.brought_back += answer.figure,
            Some((Kind::Settle, answer)) => self.settles += u64::from(answer.len > 2),
            Some((Kind::Trim, answer)) => self.trims += u64::from(answer.len > 0),
            _ => {}
        }
    }
}

/// A format of memory full of anything, now and then with a wrong length.
fn format(rng: &mut Rng, shape: Shape, pair: &Rc<RefCell<Pair>>) {
    let mut lent = Lent::new(shape.groups, shape.homes);
    let (log, data) = (rng.next() as u8, rng.next() as u8);
    lent.log.fill(log);
    lent.data.fill(data);
    let need = ample(shape.groups, shape.homes);
    let len = rng.pick(&[need, need, need + 1, need + 70, need - 1, need / 2, 0]);
    lent.batch = vec![0xcc; len];
    if rng.chance(15) {
        damage_lengths(rng, &mut lent);
    }
    pair.borrow_mut().run(&mut lent, Kind::Format, 0, 0);
}

/// A history under way.
pub struct Player {
    pub world: World,
    profile: Profile,
    /// Cuts in a thousand steps.
    cuts: u64,
    /// False once no opening can be done any more.
    pub goes_on: bool,
}

impl Player {
    pub fn new(rng: &mut Rng, world: World) -> Player {
        let (profile, cuts) = (Profile::random(rng), rng.pick(&[3, 10, 20, 50]));
        Player { world, profile, cuts, goes_on: true }
    }

    /// Fills a large log to some part, without cuts.
    pub fn fill(&mut self, rng: &mut Rng, steps: u64) -> Result<(), String> {
        let filling = Profile::filling(rng);
        let profile = std::mem::replace(&mut self.profile, filling);
        let cuts = std::mem::replace(&mut self.cuts, 0);
        let mut left = steps;
        while left > 0 && self.goes_on {
            self.step(rng)?;
            left -= 1;
        }
        self.profile = profile;
        self.cuts = cuts;
        Ok(())
    }

    /// One call, or a cut.
    pub fn step(&mut self, rng: &mut Rng) -> Result<Option<(Kind, Answer)>, String> {
        let chance = if self.world.opened { self.cuts } else { 3 * self.cuts };
        if rng.below(1000) < chance {
            random_crash(rng, &mut self.world)?;
            return Ok(None);
        }
        if !self.world.opened && rng.chance(50) {
            self.world.lent.state.fill_with(|| rng.next() as u8);
            self.world.lent.newest.fill_with(|| rng.next() as u8);
        }
        let mut call = Call::random(rng, &self.profile, &self.world);
        adjust(rng, &self.world, &mut call);
        let answer = self.world.perform(&call, false).map_err(|what| format!("{call:?}: {what}"))?;
        self.goes_on &= call.kind != Kind::Open || answer.code != 10;
        Ok(Some((call.kind, answer)))
    }
}

/// Sometimes a number out of range or a wrong length; a batch that just
/// suffices, a little more, or too short.
fn adjust(rng: &mut Rng, world: &World, call: &mut Call) {
    if call.kind.takes_writer() && rng.chance(2) {
        call.writer = far(rng, 8, call.writer);
    }
    if call.kind.takes_home() && rng.chance(2) {
        call.home = far(rng, world.shape.homes, call.home);
    }
    if call.odd.is_none() && rng.chance(1) {
        call.odd = Some(random_odd(rng, call.kind, world));
    }
    let need = world.expected(call).len;
    call.batch_len = match rng.below(20) {
        0 => need.saturating_sub(1),
        1 => rng.below(need as u64 + 1) as usize,
        2..=9 => need,
        10 => call.batch_len,
        _ => need + rng.below(70) as usize,
    };
}
