//! Random histories with the calls on units in them: after every step,
//! cuts included, tables, hours and alarms are what the labels of the book's
//! list say.

use crate::book::Block;
use crate::check::{cut_to_odd, must};
use crate::landing::Record;
use crate::player::{random_crash, random_odd, random_start, Profile};
use crate::rng::Rng;
use crate::unit_book::{blocks_after, expected, homes_of, label_of, last_table, open_alarms, Label, Room};
use crate::world::{Call, Odd, World};
use reference::alarms;
use reference::layout::{Answer, Shape, BLOCK};
use reference::lent::{ample, Kind, Lent, Runner};
use reference::rights::of_list;
use reference::units::{of_units, Ask, Told, UnitRunner, ALARM_HOME, ALARM_HOMES, PUMPS};

/// What a number of histories came to.
#[derive(Clone, Debug, Default)]
pub struct UnitTally {
    pub histories: u64,
    pub calls: u64,
    pub crashes: u64,
    /// Labels that a cut took away, and cuts that left some and took others.
    pub lost: u64,
    pub parted: u64,
    /// The most alarms open at a time.
    pub most_open: usize,
    /// Calls by name and answer.
    pub answers: [[u64; 26]; Ask::NAMES.len()],
}

/// A history under way.
pub struct UnitPlayer<'a> {
    pub world: World,
    labels: Vec<Label>,
    runner: UnitRunner,
    profile: Profile,
    habits: Habits,
    tally: &'a mut UnitTally,
}

/// How one history goes.
struct Habits {
    /// Cuts in a thousand steps.
    cuts: u64,
    /// Of the calls, how many in a hundred are on units.
    on_units: u64,
    /// Arrivals and clearings among those, in a hundred.
    alarms: u64,
    identities: u64,
    /// Are lists of rights stored?
    lists: bool,
    odd: u64,
}

impl Habits {
    fn random(rng: &mut Rng) -> Habits {
        Habits {
            cuts: rng.pick(&[0, 5, 20, 50]),
            on_units: rng.pick(&[30, 60, 85]),
            alarms: rng.pick(&[20, 50, 90]),
            identities: rng.pick(&[3, 60, 60]),
            lists: rng.chance(30),
            odd: rng.pick(&[0, 3, 8]),
        }
    }
}

impl UnitPlayer<'_> {
    pub fn new<'a>(rng: &mut Rng, tally: &'a mut UnitTally, runner: Runner, units: UnitRunner) -> UnitPlayer<'a> {
        let groups = rng.pick(&[4, 4, 5, 8, 16]);
        let homes = rng.pick(&[30, 30, 31, 40, 29, 25, 24, 17, 15, 14, 13, 12, 8]);
        let homes = if rng.chance(70) { 30 } else { homes };
        let start = random_start(rng, groups);
        let world = World::with_runner(Shape { groups, homes }, start, runner);
        let (profile, habits) = (Profile::random(rng), Habits::random(rng));
        tally.histories += 1;
        UnitPlayer { world, labels: Vec::new(), runner: units, profile, habits, tally }
    }

    /// One step; false once no opening can be done any more.
    pub fn step(&mut self, rng: &mut Rng, deep: bool) -> Result<bool, String> {
        let cuts = if self.world.opened { self.habits.cuts } else { 3 * self.habits.cuts };
        if rng.below(1000) < cuts {
            self.cut(rng)?;
            return Ok(true);
        }
        if !self.world.opened || !rng.chance(self.habits.on_units) {
            return self.plain(rng, deep);
        }
        let ask = random_ask(rng, &self.labels, &self.habits, self.world.shape.homes);
        let writer = self.random_writer(rng);
        let told = self.ask(rng, &ask, writer)?;
        if told.code == 8 && rng.chance(70) {
            self.make_room()?;
        }
        if told.code == 0 && ask.stores() {
            self.claims(rng)?;
            self.world.check_state()?;
            if deep {
                self.world.lent.block = vec![0; BLOCK];
                self.world.check_areas()?;
            }
        }
        Ok(true)
    }

    fn cut(&mut self, rng: &mut Rng) -> Result<(), String> {
        random_crash(rng, &mut self.world)?;
        let run = self.world.book.commits.len();
        let labelled = |labels: &[Label]| labels.iter().filter(|&label| *label != Label::Plain).count() as u64;
        let (kept, lost) = (labelled(&self.labels[..run]), labelled(&self.labels[run..]));
        self.labels.truncate(run);
        self.tally.crashes += 1;
        self.tally.lost += lost;
        self.tally.parted += u64::from(kept > 0 && lost > 0);
        Ok(())
    }

    /// A call of the store's own; it names no home of the units to store.
    fn plain(&mut self, rng: &mut Rng, deep: bool) -> Result<bool, String> {
        if !self.world.opened && rng.chance(50) {
            self.world.lent.state.fill_with(|| rng.next() as u8);
            self.world.lent.newest.fill_with(|| rng.next() as u8);
        }
        let mut call = Call::random(rng, &self.profile, &self.world);
        if call.kind == Kind::Store && (of_units(call.home) || of_list(call.home) && !self.habits.lists) {
            call.home = rng.below(8).min(self.world.shape.homes - 1);
        }
        let answer = self.perform(&call, deep)?;
        if call.kind == Kind::Open && answer.code == 0 {
            self.claims(rng)?;
        }
        Ok(call.kind != Kind::Open || answer.code != 10)
    }

    fn perform(&mut self, call: &Call, deep: bool) -> Result<Answer, String> {
        let answer = self.world.perform(call, deep).map_err(|what| format!("{call:?}: {what}"))?;
        self.labels.resize(self.world.book.commits.len(), Label::Plain);
        Ok(answer)
    }

    fn make_room(&mut self) -> Result<(), String> {
        let settle = if self.world.shadow.round.is_some() { Kind::StepRound } else { Kind::Settle };
        for kind in [Kind::Flush, settle, Kind::Trim] {
            let batch_len = ample(4, self.world.shape.homes);
            let home = u64::MAX;
            self.perform(&Call { kind, writer: 0, home, block: [0; BLOCK], batch_len, odd: None }, false)?;
        }
        Ok(())
    }

    /// Mostly one with nothing open.
    fn random_writer(&self, rng: &mut Rng) -> u64 {
        if rng.chance(self.habits.odd) {
            return rng.pick(&[8, 9, 255, 1 << 32, u64::MAX]);
        }
        let writer = rng.below(8);
        let idle = |writer: &u64| self.world.book.writers[*writer as usize].is_none();
        let some_idle = (0..8).map(|add| (writer + add) % 8).find(idle);
        if rng.chance(90) {
            some_idle.unwrap_or(writer)
        } else {
            writer
        }
    }

    /// Performs a call and holds it to what book and labels say.
    fn ask(&mut self, rng: &mut Rng, ask: &Ask, writer: u64) -> Result<Told, String> {
        self.tally.calls += 1;
        self.world.calls += 1;
        let blocks = rng.between(1, 7);
        let mut block = vec![0; BLOCK * blocks as usize];
        block.fill_with(|| rng.next() as u8);
        self.world.lent.block = block;
        let ample_room = Room { blocks, batch: usize::MAX, odd: false };
        let need = expected(&self.world, &self.labels, ask, writer, ample_room).size as usize;
        let batch = match rng.below(20) {
            0 => need.saturating_sub(1),
            1..=9 => need,
            _ => need + rng.below(70) as usize,
        };
        self.world.lent.batch = vec![0xcc; batch];
        let odd = rng.chance(self.habits.odd).then(|| odd_part(rng, ask, &self.world));
        let room = Room { blocks, batch, odd: odd.is_some() };
        let want = expected(&self.world, &self.labels, ask, writer, room);
        let told =
            self.run(ask, writer, want, odd).map_err(|what| format!("{ask:?}, writer {writer}, {room:?}: {what}"))?;
        self.tally.answers[ask.index()][told.code as usize] += 1;
        Ok(told)
    }

    fn run(&mut self, ask: &Ask, writer: u64, want: Told, odd: Option<Odd>) -> Result<Told, String> {
        let mut lent = self.world.lent.clone();
        if let Some(odd) = odd {
            cut_to_odd(&mut lent, odd);
        }
        let before = lent.clone();
        let told = (self.runner)(&mut lent, ask, writer);
        must(told == want, &format!("{told:?}, expected {want:?}"))?;
        if told.code != 0 {
            must(lent == before, "a refused call changed something")?;
        } else if !ask.stores() {
            lent.block = self.read_blocks(ask, writer, &lent, &before)?;
            must(lent == before, "a call that reads changed something")?;
        } else {
            must(lent.batch[told.size as usize..] == before.batch[told.size as usize..], "batch past its length")?;
            must(lent.data == before.data && lent.block == before.block, "area or block changed")?;
            self.world.lent = lent;
            self.feed(ask, writer, told)?;
        }
        Ok(told)
    }

    /// What fetch and revise read is what the book says; gives the block from before.
    fn read_blocks(&self, ask: &Ask, writer: u64, lent: &Lent, before: &Lent) -> Result<Vec<u8>, String> {
        if matches!(ask, Ask::Fetch { .. } | Ask::Revise { .. }) {
            let homes = homes_of(ask, (before.block.len() / BLOCK) as u64);
            let want = (0..homes.count).flat_map(|index| self.world.book.read(writer, homes.first + index));
            must(lent.block.iter().copied().eq(want), "blocks read")?;
            return Ok(before.block.clone());
        }
        Ok(lent.block.clone())
    }

    /// A done call is, in the book, its begin, its stores by rising home and its commit.
    fn feed(&mut self, ask: &Ask, writer: u64, told: Told) -> Result<(), String> {
        self.labels.push(label_of(ask));
        let mut blocks = blocks_after(&self.labels);
        if blocks.is_empty() {
            blocks = self.world.lent.block.clone();
        }
        let homes = homes_of(ask, (blocks.len() / BLOCK) as u64);
        let mut records = self.world.submit(told.size as usize)?;
        let call = |kind, home, block: Block| Call { kind, writer, home, block, batch_len: 0, odd: None };
        self.world.follow(&call(Kind::Begin, 0, [0; BLOCK]), Answer::DONE, &[]);
        for (block, home) in blocks.chunks_exact(BLOCK).zip(homes.first..) {
            let logs = home > homes.first;
            let written = self.group_written(logs, &mut records);
            let block = block.try_into().expect("a block");
            self.world.follow(&call(Kind::Store, home, block), Answer::DONE, &written);
        }
        let written = self.group_written(true, &mut records);
        let answer = Answer { code: 0, figure: told.figures[0], len: 0 };
        self.world.follow(&call(Kind::Commit, 0, [0; BLOCK]), answer, &written);
        must(records.is_empty(), "more records than groups filled")?;
        must(self.world.book.commits.len() == self.labels.len(), "one commit")
    }

    /// The record of a group that an entry fills.
    fn group_written(&self, logs: bool, records: &mut Vec<Record>) -> Vec<Record> {
        let fills = logs && self.world.book.row.len() == 6;
        records.drain(..usize::from(fills).min(records.len())).collect()
    }

    /// The claims of the labels, by calls of any writer.
    fn claims(&mut self, rng: &mut Rng) -> Result<(), String> {
        let writer = rng.below(8);
        for pump in 0..PUMPS {
            self.ask(rng, &Ask::Hours { pump }, writer)?;
        }
        for _ in 0..3 {
            let ask = Ask::LookUp(random_depth(rng, &self.labels));
            self.ask(rng, &ask, writer)?;
        }
        self.ask(rng, &Ask::Gravest, writer)?;
        let open = open_alarms(&self.labels);
        self.tally.most_open = self.tally.most_open.max(open.len());
        if self.world.shape.homes >= ALARM_HOME + ALARM_HOMES {
            let homes = ALARM_HOME..ALARM_HOME + ALARM_HOMES;
            let held: Vec<u8> = homes.flat_map(|home| self.world.book.committed(home)).collect();
            let held = held.try_into().expect("six blocks");
            must(alarms::list(&held) == open, "the list is the alarms not cleared")?;
        }
        Ok(())
    }
}

fn odd_part(rng: &mut Rng, ask: &Ask, world: &World) -> Odd {
    let lent_blocks = matches!(ask, Ask::Fetch { .. } | Ask::Revise { .. } | Ask::Transact { .. });
    if lent_blocks && rng.chance(40) {
        return Odd::Block(rng.pick(&[0, 1, 63, 65, 64 * 7 + 1, 64 * 8, 64 * 8 - 1]));
    }
    match random_odd(rng, Kind::Commit, world) {
        Odd::Block(len) => Odd::State(len),
        odd => odd,
    }
}

/// A depth, often at an end of a row.
fn random_depth(rng: &mut Rng, labels: &[Label]) -> u64 {
    let depth = match last_table(labels) {
        Some(rows) if rng.chance(70) => {
            let at = 5 * rng.below(rows.len() as u64 / 5) as usize + rng.pick(&[0, 2]);
            u64::from(u16::from_le_bytes([rows[at], rows[at + 1]])).saturating_add(rng.below(3)).saturating_sub(1)
        }
        _ => rng.below(10_000),
    };
    if rng.chance(5) {
        rng.pick(&[0, 9_999, 10_000, 65_535, 65_536, 1 << 32, u64::MAX])
    } else {
        depth
    }
}

/// Rows that part the depths, in any order; now and then a wrong table.
pub fn random_table(rng: &mut Rng) -> Vec<u8> {
    let mut ends: Vec<u16> = (0..rng.pick(&[0, 1, 3, 8, 31])).map(|_| rng.below(9_999) as u16).collect();
    ends.push(9_999);
    ends.sort_unstable();
    ends.dedup();
    let mut rows: Vec<[u8; 5]> = Vec::new();
    let mut from = 0u16;
    for to in ends {
        let ([a, b], [c, d]) = (from.to_le_bytes(), to.to_le_bytes());
        rows.insert(rng.below(rows.len() as u64 + 1) as usize, [a, b, c, d, rng.below(5) as u8]);
        from = to + 1;
    }
    let mut strip = rows.concat();
    if rng.chance(20) {
        match rng.below(5) {
            0 => strip.truncate(rng.below(strip.len() as u64 + 1) as usize),
            1 => strip.extend_from_within(..5),
            2 => strip.clear(),
            _ => {
                let at = rng.below(strip.len() as u64) as usize;
                strip[at] = strip[at].wrapping_add(rng.pick(&[1, 255, 128]));
            }
        }
    }
    strip
}

fn random_second(rng: &mut Rng, labels: &[Label]) -> u32 {
    let last = labels.iter().rev().find_map(|label| match label {
        Label::Pump(_, reference::hours::Event::Start(second) | reference::hours::Event::Stop(second)) => Some(*second),
        Label::Arrival(alarm) => Some(alarm.second),
        _ => None,
    });
    let last = last.unwrap_or(0);
    match rng.below(40) {
        0 => rng.pick(&[0, u32::MAX, 1 << 31]),
        1..=4 => last,
        5 | 6 => last.saturating_sub(rng.below(10) as u32),
        _ => last.saturating_add(rng.below(5_000) as u32),
    }
}

fn random_ask(rng: &mut Rng, labels: &[Label], habits: &Habits, homes: u64) -> Ask {
    let second = random_second(rng, labels);
    if rng.chance(habits.alarms) {
        let identity = match rng.below(habits.identities) as u16 {
            0 => u16::MAX,
            number => number - 1,
        };
        let class = if rng.chance(habits.odd) {
            rng.pick(&[0, 10, 255, 257, 1 << 32 | 1, u64::MAX])
        } else {
            rng.between(1, 9)
        };
        let clears = rng.chance(if habits.identities > 3 { 12 } else { 40 });
        return if clears { Ask::Clear { identity } } else { Ask::Arrive { identity, class, second } };
    }
    let far = rng.chance(habits.odd);
    let pumps = rng.pick(&[2, 8]);
    let pump = if far { rng.pick(&[8, 9, 256, 1 << 32, u64::MAX]) } else { rng.below(pumps) };
    let home = rng.below(homes + 1);
    match rng.below(14) {
        0 => Ask::SetTable(random_table(rng)),
        1 => Ask::LookUp(random_depth(rng, labels)),
        2..=5 => Ask::Start { pump, second },
        6..=9 => Ask::Stop { pump, second },
        10 => Ask::Services { pump, interval: rng.pick(&[0, 1, 60, 3_600, 1 << 32, u64::MAX]) },
        11 => Ask::Fetch { home: if far { pump } else { home } },
        12 => Ask::Revise { home },
        // Seven blocks from there on touch no unit, and no list of rights.
        _ => Ask::Transact { home: rng.pick(&[0, 1, 30, homes]) },
    }
}

/// Plays one history from its own seed.
pub fn unit_history(seed: u64, tally: &mut UnitTally) -> Result<(), String> {
    unit_history_with(seed, tally, Box::new(Lent::run), Box::new(Lent::ask))
}

/// The same, all calls being performed by the runners.
pub fn unit_history_with(seed: u64, tally: &mut UnitTally, runner: Runner, units: UnitRunner) -> Result<(), String> {
    let mut rng = Rng::new(seed);
    let mut player = UnitPlayer::new(&mut rng, tally, runner, units);
    for at in 0..rng.pick(&[40, 100, 200, 400]) {
        let goes_on = player.step(&mut rng, at % 8 == 0).map_err(|what| format!("step {at}: {what}"))?;
        if !goes_on {
            break;
        }
    }
    Ok(())
}
