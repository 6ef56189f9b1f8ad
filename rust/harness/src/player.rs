//! Random histories: calls, refused ones included, and crashes.

use crate::lists::random_block;
use crate::rng::Rng;
use crate::world::{Call, Odd, World};
use reference::batch::HOME_WRITE_LEN;
use reference::layout::{refuse, Answer, Shape, START_LIMIT};
use reference::lent::{ample, Kind, Lent, Runner};
use reference::rights::{has_room, of_list, LIST_HOME, LIST_HOMES};

/// What a number of histories came to.
#[derive(Clone, Debug, Default)]
pub struct Tally {
    pub histories: u64,
    pub calls: u64,
    pub crashes: u64,
    pub openings: u64,
    pub brought_back: u64,
    pub commits: u64,
    pub commits_lost: u64,
    pub trims: u64,
    pub settles: u64,
    /// Rounds begun, their steps, and those that left homes for later.
    pub rounds: u64,
    pub steps: u64,
    pub part_steps: u64,
    /// Calls under a committed list of rights.
    pub listed: u64,
    /// Answers by number.
    pub answers: [u64; refuse::END],
}

const LIVE: [Kind; 12] = [
    Kind::Begin,
    Kind::Reserve,
    Kind::Abort,
    Kind::Store,
    Kind::Commit,
    Kind::Flush,
    Kind::Confirm,
    Kind::Settle,
    Kind::Trim,
    Kind::Read,
    Kind::BeginRound,
    Kind::StepRound,
];

/// How likely each thing is in one history.
#[derive(Clone, Debug)]
pub struct Profile {
    weights: [u64; 12],
    /// Crashes in a thousand steps.
    crash: u64,
    /// Unusual arguments in a hundred calls.
    odd: u64,
    writers: u64,
}

impl Profile {
    pub fn random(rng: &mut Rng) -> Profile {
        let base = [9, 4, 2, 40, 12, 5, 3, 4, 4, 6, 1, 12];
        let mut weights = base.map(|weight| 1 + weight * rng.pick(&[1, 2, 2, 2, 4]) / 2);
        for weight in &mut weights[4..9] {
            *weight *= rng.pick(&[1, 1, 1, 2, 5]);
        }
        if rng.chance(50) {
            // Few fences, so that several groups are under way at a crash.
            weights = [11, 5, 2, rng.pick(&[60, 150]), rng.pick(&[8, 30]), 1, 1, 1, 1, 3, 1, 4];
        }
        Profile {
            weights,
            crash: rng.pick(&[3, 10, 20, 50]),
            odd: rng.pick(&[0, 2, 5, 10]),
            writers: rng.pick(&[1, 2, 3, 8, 8]),
        }
    }

    /// One that fills a large log.
    pub fn filling(rng: &mut Rng) -> Profile {
        let mut profile = Profile::random(rng);
        profile.weights = [6, 4, 1, rng.pick(&[60, 200]), 10, 1, 1, 1, 1, 2, 1, 4];
        profile.crash = 1;
        profile
    }
}

pub fn random_shape(rng: &mut Rng) -> Shape {
    let groups = match rng.below(10) {
        0..=5 => 4,
        6 | 7 => rng.between(5, 8),
        8 => rng.between(9, 20),
        _ => rng.between(21, 60),
    };
    let homes = match rng.below(10) {
        0..=3 => rng.between(1, 8),
        4..=6 => rng.between(9, 16),
        7 | 8 => rng.between(9, 70),
        _ => rng.between(71, 300),
    };
    Shape { groups, homes }
}

/// Mostly 0; now and then near the highest start.
pub fn random_start(rng: &mut Rng, groups: u64) -> u64 {
    match rng.below(20) {
        0 => START_LIMIT - rng.below(6 * groups),
        1 => rng.below(START_LIMIT / 2),
        _ => 0,
    }
}

impl Call {
    pub fn random(rng: &mut Rng, profile: &Profile, world: &World) -> Call {
        let mut kind = if world.opened { LIVE[rng.weighted(&profile.weights)] } else { Kind::Open };
        let idle = world.book.writers.iter().all(|writer| writer.is_none());
        if idle && matches!(kind, Kind::Abort | Kind::Store | Kind::Commit) && rng.chance(90) {
            kind = Kind::Begin;
        }
        if rng.chance(80) {
            kind = within_round(kind, world);
        }
        let groups = world.shape.groups;
        let mut call = Call {
            kind,
            writer: rng.below(profile.writers),
            home: rng.below(world.shape.homes),
            block: block_of(world.calls),
            batch_len: ample(if kind == Kind::Open { groups } else { groups.min(60) }, world.shape.homes),
            odd: None,
        };
        if matches!(kind, Kind::Store) && rng.chance(30) {
            call.home = rng.below(2).min(world.shape.homes - 1);
        }
        if kind == Kind::Reserve {
            call.home = random_places(rng, world);
        }
        if kind == Kind::StepRound {
            call.home = rng.pick(&[1, 1, 1, 1, 1, 1, 1, 2, 2, 2, 3, 3, 8, 0, u64::MAX]);
        }
        if kind.takes_writer() && kind != Kind::Read && rng.chance(80) {
            call.writer = likely_writer(rng, profile, world, kind);
        }
        if kind.takes_home() {
            call.respect(rng, world);
        }
        if rng.chance(profile.odd) {
            call.distort(rng, world);
        }
        call
    }

    /// Writer 0 stores a list now and then; most other homes are such as the
    /// list lets the writer touch.
    fn respect(&mut self, rng: &mut Rng, world: &World) {
        let homes = world.shape.homes;
        let stores = self.kind == Kind::Store;
        if has_room(homes) && rng.chance(if self.writer == 0 { 15 } else { 2 }) {
            self.home = LIST_HOME + rng.below(LIST_HOMES);
        }
        if stores && of_list(self.home) && has_room(homes) {
            self.block = random_block(rng, homes);
        }
        let list = world.list();
        let may = |home: u64| match stores {
            true => list.may_store(self.writer, home),
            false => list.may_read(self.writer, home),
        };
        let mut tries = rng.pick(&[0, 8, 8, 8]);
        while tries > 0 && !may(self.home) {
            self.home = rng.below(homes);
            tries -= 1;
        }
    }

    /// Makes one argument unusual.
    fn distort(&mut self, rng: &mut Rng, world: &World) {
        match rng.below(5) {
            0 => self.writer = rng.pick(&[8, 9, 255, 256, 1 << 32, u64::MAX]),
            1 => self.home = rng.pick(&[world.shape.homes, 4096, 65535, 65536, 1 << 32, u64::MAX]),
            2 | 3 => {
                let need = world.expected(self).len as u64;
                let short = [0, 1, need.saturating_sub(1), need / 2, need, need + 1];
                self.batch_len = rng.pick(&short) as usize;
            }
            _ => self.odd = Some(random_odd(rng, self.kind, world)),
        }
    }
}

/// A block that tells its call: one fill byte, with the higher bytes in front.
fn block_of(call: usize) -> [u8; 64] {
    let number = (call as u32).to_le_bytes();
    let mut block = [number[0]; 64];
    block[0] = number[1];
    block[1] = number[2];
    block
}

/// Settling that goes with the round under way, or with none.
fn within_round(kind: Kind, world: &World) -> Kind {
    match (kind, world.shadow.round.is_some()) {
        (Kind::Settle | Kind::BeginRound, true) => Kind::StepRound,
        (Kind::StepRound, false) if world.below(world.shadow.fenced) > world.untrimmed() => Kind::BeginRound,
        (Kind::StepRound, false) => Kind::Flush,
        _ => kind,
    }
}

/// Places to reserve: few, or about all that are free.
fn random_places(rng: &mut Rng, world: &World) -> u64 {
    let free = world.free_places();
    match rng.below(10) {
        0 => rng.pick(&[0, free + 1, 1 << 16, 1 << 32 | 1, u64::MAX]),
        1 | 2 => free,
        3 => free / 2,
        _ => rng.between(1, 6),
    }
}

/// A writer for which the call is likely to be done.
fn likely_writer(rng: &mut Rng, profile: &Profile, world: &World, kind: Kind) -> u64 {
    let mut writer = 0;
    for _ in 0..6 {
        writer = rng.below(profile.writers);
        let open = world.book.writers[writer as usize].is_some();
        if open != kind.begins() {
            break;
        }
    }
    writer
}

pub fn random_odd(rng: &mut Rng, kind: Kind, world: &World) -> Odd {
    let near = |rng: &mut Rng, len: usize| rng.pick(&[0, len - 1, len + 1, len + 63]);
    match rng.below(4) {
        0 if kind.takes_state() => Odd::State(near(rng, world.lent.state.len())),
        1 if kind.takes_block() => Odd::Block(near(rng, 64)),
        3 if kind.takes_newest() => Odd::Newest(near(rng, world.lent.newest.len())),
        2 => Odd::Data(near(rng, world.lent.data.len())),
        _ => Odd::Log(near(rng, world.lent.log.len())),
    }
}

/// A crash by the landing rule, with random choices.
pub fn random_crash(rng: &mut Rng, world: &mut World) -> Result<(), String> {
    let (low, high) = (world.submitted.confirmed as u64, world.submitted.fences as u64);
    let passed = match rng.below(6) {
        0 => low,
        1..=3 => high,
        4 => high.saturating_sub(1).max(low),
        _ => rng.between(low, high),
    };
    let percent = rng.pick(&[0, 20, 50, 80, 95, 100]);
    let whole = rng.chance(25);
    let mut last = (None, false);
    world.crash(passed as usize, |record, _| {
        // A quarter of the crashes land whole records or none of them.
        if !whole || last.0 != record.target() {
            last = (record.target(), rng.chance(percent));
        }
        last.1
    })
}

/// In a thousand: more often between openings and just after one.
fn crash_chance(profile: &Profile, world: &World) -> u64 {
    let just_opened = world.submitted.fences <= 3 && world.book.row.is_empty();
    match (world.opened, just_opened) {
        (false, _) => 60,
        (true, true) => 20 + profile.crash,
        (true, false) => profile.crash,
    }
}

/// One step of a history: a call or a crash.
pub fn step(
    rng: &mut Rng,
    profile: &Profile,
    world: &mut World,
    tally: &mut Tally,
    deep: bool,
) -> Result<Option<(Call, Answer)>, String> {
    if rng.below(1000) < crash_chance(profile, world) {
        let before = world.book.commits.len() as u64;
        random_crash(rng, world)?;
        tally.crashes += 1;
        tally.commits_lost += before - world.book.commits.len() as u64;
        return Ok(None);
    }
    if !world.opened {
        fill_state(rng, &mut world.lent.state);
        fill_state(rng, &mut world.lent.newest);
    }
    let call = Call::random(rng, profile, world);
    let answer = world.perform(&call, deep).map_err(|what| format!("{call:?}: {what}"))?;
    tally.count(&call, answer);
    tally.listed += u64::from(world.list().is_there());
    Ok(Some((call, answer)))
}

/// An opening may find anything in the state.
fn fill_state(rng: &mut Rng, state: &mut [u8]) {
    if rng.chance(50) {
        state.fill_with(|| rng.next() as u8);
    }
}

impl Tally {
    fn count(&mut self, call: &Call, answer: Answer) {
        self.calls += 1;
        self.answers[answer.code as usize] += 1;
        if answer.code != 0 {
            return;
        }
        match call.kind {
            Kind::Open => {
                self.openings += 1;
                self.brought_back += answer.figure;
            }
            Kind::Commit if answer.figure > 0 => self.commits += 1,
            Kind::Trim if answer.len > 0 => self.trims += 1,
            Kind::Settle => self.settles += 1,
            Kind::BeginRound => self.rounds += 1,
            Kind::StepRound => {
                self.steps += 1;
                self.part_steps += u64::from(answer.len % HOME_WRITE_LEN == 0);
            }
            _ => {}
        }
    }
}

/// Plays on until the steps are done or no opening can be.
fn play(
    mut rng: Rng,
    profile: &Profile,
    (shape, steps): (Shape, u64),
    tally: &mut Tally,
    deep: impl Fn(u64) -> bool,
    runner: Runner,
) -> Result<(), String> {
    let start = random_start(&mut rng, shape.groups);
    let mut world = World::with_runner(shape, start, runner);
    tally.histories += 1;
    for at in 0..steps {
        let done = step(&mut rng, profile, &mut world, tally, deep(at))
            .map_err(|what| format!("{shape:?}, step {at}: {what}"))?;
        if matches!(done, Some((Call { kind: Kind::Open, .. }, Answer { code: 10, .. }))) {
            break;
        }
    }
    Ok(())
}

/// Plays one history from its own seed.
pub fn history(seed: u64, tally: &mut Tally) -> Result<(), String> {
    history_with(seed, tally, Box::new(Lent::run))
}

/// The same, all calls being performed by `runner`.
pub fn history_with(seed: u64, tally: &mut Tally, runner: Runner) -> Result<(), String> {
    let mut rng = Rng::new(seed);
    let profile = Profile::random(&mut rng);
    let shape = random_shape(&mut rng);
    let small = shape.groups <= 8;
    let steps = rng.pick(&[40, 100, 200, 400]) * if small { 1 } else { 2 };
    play(rng, &profile, (shape, steps), tally, |at| small || at % 16 == 0, runner)
}

/// Plays one long history of the largest log, now and then looked at deeply.
pub fn large_history(seed: u64, tally: &mut Tally) -> Result<(), String> {
    large_history_with(seed, tally, Box::new(Lent::run))
}

/// The same, all calls being performed by `runner`.
pub fn large_history_with(seed: u64, tally: &mut Tally, runner: Runner) -> Result<(), String> {
    let mut rng = Rng::new(seed);
    let homes = if rng.chance(8) { 65535 } else { rng.pick(&[1, 40, 4096]) };
    let shape = Shape { groups: 1024, homes };
    let profile = Profile::filling(&mut rng);
    play(rng, &profile, (shape, 12_000), tally, |at| at % 1000 == 999, runner)
}
