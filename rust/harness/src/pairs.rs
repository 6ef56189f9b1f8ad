//! Pairs of histories: alike but for bytes in homes that a writer may at no
//! time read. Every call must be answered the same in both, and the writer's
//! reads must give the same blocks.
//! Clauses: [S-61]

use crate::book::Block;
use crate::landing::{parse, Areas, Submitted};
use crate::lists::random_list;
use crate::player::Profile;
use crate::rng::Rng;
use crate::world::{Call, World};
use reference::layout::{Answer, Shape};
use reference::lent::{ample, Kind, Lent, Runner};
use reference::rights::{List, LIST_HOME, LIST_HOMES, RANGES};
use std::collections::BTreeSet;

/// What happened: a call, or a crash after so many fences whose choices come from a seed.
#[derive(Clone, Copy)]
pub enum Event {
    Call(Call),
    Crash { passed: usize, seed: u64 },
}

/// One history, and the homes that each writer could at no time read from `begin` on.
pub struct Script {
    pub shape: Shape,
    pub events: Vec<Event>,
    pub begin: usize,
    hidden: [BTreeSet<u64>; 8],
    list: List,
    /// Lists committed from `begin` on.
    changes: u64,
}

/// What the pairs came to.
#[derive(Clone, Debug, Default)]
pub struct Pairs {
    pub pairs: u64,
    pub calls: u64,
    /// Reads by the writer, done and refused.
    pub reads: u64,
    pub refused: u64,
    /// Stores whose bytes differ.
    pub stores: u64,
    /// Lists committed after the two histories begin.
    pub changes: u64,
}

impl Script {
    /// A history of the reference implementation: with crashes, then a list by
    /// writer 0, and from there on without a crash.
    pub fn random(rng: &mut Rng) -> Result<Script, String> {
        let shape = Shape { groups: rng.pick(&[4, 4, 5, 9]), homes: rng.between(12, 20) };
        let mut world = World::new(shape, 0);
        let profile = Profile::random(rng);
        let hidden = std::array::from_fn(|_| (0..shape.homes).collect());
        let mut script = Script { shape, events: Vec::new(), begin: 0, hidden, list: List::NONE, changes: 0 };
        for _ in 0..rng.pick(&[0, 20, 60]) {
            script.step(rng, &profile, &mut world, true)?;
        }
        script.commit_list(rng, &mut world)?;
        script.begin = script.events.len();
        script.note(world.list());
        script.changes = 0;
        for _ in 0..rng.pick(&[20, 60, 150]) {
            script.step(rng, &profile, &mut world, false)?;
            script.note(world.list());
            if rng.chance(4) {
                script.withdraw_list(rng, &mut world)?;
            }
            if rng.chance(50) {
                let (writer, home) = (rng.below(8), rng.below(shape.homes));
                script.call(&mut world, plain(shape, Kind::Read, (writer, home), [0xaa; 64]))?;
            }
        }
        Ok(script)
    }

    fn call(&mut self, world: &mut World, call: Call) -> Result<Answer, String> {
        self.events.push(Event::Call(call));
        world.perform(&call, false)
    }

    fn step(&mut self, rng: &mut Rng, profile: &Profile, world: &mut World, crashes: bool) -> Result<(), String> {
        if crashes && rng.chance(5) {
            let passed = rng.between(world.submitted.confirmed as u64, world.submitted.fences as u64) as usize;
            let seed = rng.next();
            self.events.push(Event::Crash { passed, seed });
            let mut choices = Rng::new(seed);
            return world.crash(passed, |_, _| choices.chance(50));
        }
        let call = Call::random(rng, profile, world);
        self.call(world, call).map(|_| ())
    }

    /// Writer 0 ends what it has begun and commits a list.
    fn commit_list(&mut self, rng: &mut Rng, world: &mut World) -> Result<(), String> {
        let shape = self.shape;
        let list = random_list(rng, shape.homes);
        let mut kinds =
            vec![Kind::Open, Kind::Abort, Kind::Flush, Kind::StepRound, Kind::Settle, Kind::Trim, Kind::Begin];
        if world.opened {
            kinds.remove(0);
        }
        for kind in kinds {
            self.call(world, plain(shape, kind, (0, u64::MAX), [0; 64]))?;
        }
        for (block, home) in list.0.iter().zip(LIST_HOME..LIST_HOME + LIST_HOMES) {
            self.call(world, plain(shape, Kind::Store, (0, home), *block))?;
        }
        self.call(world, plain(shape, Kind::Commit, (0, 0), [0; 64])).map(|_| ())
    }

    /// Writer 0 stores a list that would let it read all, reads, and takes it back.
    fn withdraw_list(&mut self, rng: &mut Rng, world: &mut World) -> Result<(), String> {
        let shape = self.shape;
        let mut list = List::NONE;
        list.put(0, RANGES, 0, 65535);
        for kind in [Kind::Abort, Kind::Begin] {
            self.call(world, plain(shape, kind, (0, 0), [0; 64]))?;
        }
        self.call(world, plain(shape, Kind::Store, (0, LIST_HOME), list.0[0]))?;
        for _ in 0..3 {
            self.call(world, plain(shape, Kind::Read, (0, rng.below(shape.homes)), [0xaa; 64]))?;
        }
        self.call(world, plain(shape, Kind::Abort, (0, 0), [0; 64])).map(|_| ())
    }

    /// The homes that this list lets a writer read are not hidden from it.
    fn note(&mut self, list: List) {
        self.changes += u64::from(self.list != list);
        self.list = list;
        for (writer, hidden) in self.hidden.iter_mut().enumerate() {
            hidden.retain(|&home| !list.may_read(writer as u64, home));
        }
    }
}

/// A call with a batch that suffices.
fn plain(shape: Shape, kind: Kind, (writer, home): (u64, u64), block: Block) -> Call {
    Call { kind, writer, home, block, batch_len: ample(shape.groups, shape.homes), odd: None }
}

/// Memory that a runner performs a script on.
struct Replay<'a> {
    lent: Lent,
    image: Areas,
    submitted: Submitted,
    runner: &'a mut Runner,
}

impl Replay<'_> {
    fn new(shape: Shape, runner: &mut Runner) -> Replay<'_> {
        let mut lent = Lent::new(shape.groups, shape.homes);
        let answer = runner(&mut lent, Kind::Format, 0, 0);
        let mut image = Areas::zeros(shape.groups, shape.homes);
        parse(&lent.batch[..answer.len]).unwrap().iter().for_each(|record| image.land(record));
        Replay { lent, image, submitted: Submitted::default(), runner }
    }

    /// The answer of a call, and the block after it.
    fn perform(&mut self, event: Event, number: usize, changed: Option<&BTreeSet<u64>>) -> (Answer, Vec<u8>) {
        match event {
            Event::Crash { passed, seed } => {
                let mut choices = Rng::new(seed);
                let submitted = std::mem::take(&mut self.submitted);
                let passed = passed.clamp(submitted.confirmed, submitted.fences);
                submitted.crash(passed, &mut self.image, |_, _| choices.chance(50));
                (Answer::DONE, Vec::new())
            }
            Event::Call(call) => self.call(call, number, changed),
        }
    }

    fn call(&mut self, call: Call, number: usize, changed: Option<&BTreeSet<u64>>) -> (Answer, Vec<u8>) {
        let mut lent = &mut self.lent;
        let mut copy;
        if call.kind == Kind::Open {
            lent.log.copy_from_slice(&self.image.log);
            lent.data.copy_from_slice(&self.image.data);
        }
        lent.block = call.block.to_vec();
        if call.kind == Kind::Store && changed.map_or(false, |homes| homes.contains(&call.home)) {
            lent.block.iter_mut().for_each(|byte| *byte ^= 0xff);
        }
        lent.batch = vec![0xcc; call.batch_len];
        if let Some(odd) = call.odd {
            copy = lent.clone();
            crate::check::cut_to_odd(&mut copy, odd);
            lent = &mut copy;
        }
        let answer = (self.runner)(lent, call.kind, call.writer, call.home);
        if answer.code == 0 {
            self.submitted.add(number, parse(&lent.batch[..answer.len]).expect("batch"));
            if call.kind == Kind::Confirm {
                self.submitted.confirm();
            }
        }
        (answer, lent.block.clone())
    }
}

/// Plays one script twice, the second time with other bytes in the homes that
/// one of the writers may not read.
pub fn pair(seed: u64, pairs: &mut Pairs, runner: &mut Runner) -> Result<(), String> {
    let mut rng = Rng::new(seed);
    let script = Script::random(&mut rng)?;
    let writers: Vec<u64> = (0..8).filter(|&w| !script.hidden[w as usize].is_empty()).collect();
    if writers.is_empty() {
        return Ok(());
    }
    let writer = rng.pick(&writers);
    let hidden = &script.hidden[writer as usize];
    let one = told(&script, None, runner);
    let other = told(&script, Some(hidden), runner);
    pairs.pairs += 1;
    pairs.changes += script.changes;
    for (at, (one, other)) in one.iter().zip(&other).enumerate() {
        let call = match script.events[at] {
            Event::Call(call) => call,
            _ => continue,
        };
        let name = format!("event {at}, {} by writer {} of home {}", call.kind.name(), call.writer, call.home);
        if one.0 != other.0 {
            return Err(format!("{name}: {:?} and {:?}", one.0, other.0));
        }
        let reads = call.kind == Kind::Read && call.writer == writer && at >= script.begin;
        if reads && one.1 != other.1 {
            return Err(format!("{name}: two blocks, hidden {hidden:?}"));
        }
        pairs.calls += 1;
        pairs.reads += u64::from(reads);
        pairs.refused += u64::from(reads && one.0.code == 20);
        pairs.stores += u64::from(call.kind == Kind::Store && one.0.code == 0 && hidden.contains(&call.home));
    }
    Ok(())
}

/// Every answer of a script, and the block after each call.
fn told(script: &Script, changed: Option<&BTreeSet<u64>>, runner: &mut Runner) -> Vec<(Answer, Vec<u8>)> {
    let mut replay = Replay::new(script.shape, runner);
    script.events.iter().enumerate().map(|(at, &event)| replay.perform(event, at, changed)).collect()
}
