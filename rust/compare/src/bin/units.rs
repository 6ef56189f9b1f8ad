//! The units on the store, by shared objects of them and by the reference
//! implementation on equal memory, byte for byte: over histories with cuts, where
//! what it tells is also held to the events in the book's list, and over damaged
//! images, homes, strips and lengths.

#![deny(warnings)]

use bindings::part::Part;
use bindings::unit_calls::UnitCalls;
use harness::craft::craft;
use harness::damage::{damage_group, damage_lengths, damage_newest, damage_state};
use harness::options::Words;
use harness::player::{step, Profile, Tally};
use harness::rng::Rng;
use harness::unit_player::{random_table, unit_history_with, UnitTally};
use harness::world::World;
use reference::layout::{Shape, BLOCK};
use reference::lent::Lent;
use reference::units::{Ask, Told, ALARM_HOME, PUMP_HOME, TABLE_HOME};
use std::cell::RefCell;
use std::process::ExitCode;
use std::rc::Rc;

const USAGE: &str = "\
usage: units [--seed S] [--histories H] [--damaged M] [--tight] --build FILE...
  --seed S       repeats a run exactly (1)
  --histories H  histories with cuts, each call compared and held to the book (300)
  --damaged M    damaged images, homes, strips and lengths, all calls on each (10000)
  --tight        no guard bytes, so that a memory checker sees reads outside
  --build FILE   a shared object with the calls on units; may be given again";

const FIELDS: [&str; 7] = ["log", "area", "state", "newest", "block", "batch", "rows"];

/// One build, with the memory that is lent to it.
struct Build {
    name: String,
    calls: UnitCalls,
    parts: [Part; 7],
}

struct Pair {
    builds: Vec<Build>,
    compared: u64,
    /// By call and answer.
    counts: [[u64; 26]; Ask::NAMES.len()],
    difference: Option<String>,
}

fn views<'a>(lent: &'a Lent, rows: &'a [u8]) -> [&'a [u8]; 7] {
    [&lent.log, &lent.data, &lent.state, &lent.newest, &lent.block, &lent.batch, rows]
}

impl Build {
    fn new(path: &str, guarded: bool) -> Result<Build, String> {
        let parts = [(); 7].map(|()| Part::new(guarded));
        Ok(Build { name: path.into(), calls: UnitCalls::load(path)?, parts })
    }

    fn perform(&mut self, lent: &Lent, rows: &[u8], ask: &Ask, writer: u64) -> Told {
        for (part, bytes) in self.parts.iter_mut().zip(views(lent, rows)) {
            part.set(bytes);
        }
        let [a, b, c, d, e, f, g] = &mut self.parts;
        self.calls.call([a, b, c, d, e, f, g].map(Part::bytes_mut), ask, writer)
    }

    /// The first field that differs, with its place and both values.
    fn compare(&self, told: Told, want: Told, lent: &Lent, rows: &[u8]) -> Option<String> {
        if told != want {
            return Some(format!("{} {told:?}, reference {want:?}", self.name));
        }
        for ((field, part), want) in FIELDS.iter().zip(&self.parts).zip(views(lent, rows)) {
            if let Some((at, byte)) = part.broken_guard() {
                return Some(format!("{} wrote {byte:#04x} outside {field}, at offset {at}", self.name));
            }
            if let Some(at) = part.bytes().iter().zip(want).position(|(a, b)| a != b) {
                let (got, want) = (part.bytes()[at], want[at]);
                return Some(format!("{field}, offset {at}: {} {got:#04x}, reference {want:#04x}", self.name));
            }
        }
        None
    }
}

impl Pair {
    /// Performs the call with all; the lent memory becomes what the reference implementation makes of it.
    fn run(&mut self, lent: &mut Lent, ask: &Ask, writer: u64) -> Told {
        let rows = if let Ask::SetTable(rows) = ask { rows.clone() } else { Vec::new() };
        let told: Vec<Told> = self.builds.iter_mut().map(|build| build.perform(lent, &rows, ask, writer)).collect();
        let want = lent.ask(ask, writer);
        self.compared += 1;
        self.counts[ask.index()][want.code as usize] += 1;
        for (build, told) in self.builds.iter().zip(told) {
            if let Some(what) = build.compare(told, want, lent, &rows) {
                self.difference.get_or_insert(format!("{ask:?}, writer {writer}: {what}"));
            }
        }
        want
    }

    fn verdict(&self) -> Result<(), String> {
        self.difference.clone().map_or(Ok(()), Err)
    }
}

/// Lent memory of a store under way, or made up.
fn random_lent(rng: &mut Rng) -> Lent {
    let shape = Shape {
        groups: rng.pick(&[4, 4, 5, 9]),
        homes: rng.pick(&[30, 30, 30, 31, 33, 29, 25, 24, 17, 16, 15, 14, 12, 5]),
    };
    if rng.chance(40) {
        return craft(rng, shape);
    }
    let mut world = World::new(shape, 0);
    let profile = Profile::random(rng);
    let mut tally = Tally::default();
    for _ in 0..rng.between(2, 40) {
        step(rng, &profile, &mut world, &mut tally, false).expect("history");
    }
    world.lent
}

/// Homes of the units: a table, pumps and alarms that are right, nearly right or any bytes.
fn fill_homes(rng: &mut Rng, lent: &mut Lent) {
    let homes = lent.data.len() / BLOCK;
    let mut put = |first: u64, bytes: &[u8]| {
        let from = BLOCK * first as usize;
        if from + bytes.len() <= BLOCK * homes {
            lent.data[from..from + bytes.len()].copy_from_slice(bytes);
        }
    };
    let table = random_table(rng);
    if table.len() <= 160 {
        put(TABLE_HOME, &reference::bands::pack(&table));
    }
    let mut alarms = [0; reference::alarms::BYTES];
    alarms.fill_with(|| rng.next() as u8);
    alarms[0] = rng.pick(&[0, 1, 5, 47, 48, 49, 255]);
    put(ALARM_HOME, &alarms);
    for pump in 0..8 {
        let mut block = [0; BLOCK];
        block.fill_with(|| rng.next() as u8);
        let edge = rng.pick(&[0, 1, 255, 128]);
        for byte in &mut block[rng.pick(&[0, 4, 8])..12] {
            *byte = edge;
        }
        block[12] = rng.pick(&[0, 0, 1, 1, 2, 255]);
        put(PUMP_HOME + pump, &block);
    }
    for _ in 0..rng.below(4) {
        let at = rng.below(lent.data.len() as u64) as usize;
        lent.data[at] ^= 1 << rng.below(8);
    }
}

fn damage(rng: &mut Rng, lent: &mut Lent) {
    let shape = Shape { groups: (lent.log.len() / 512) as u64, homes: (lent.data.len() / BLOCK) as u64 };
    if rng.chance(70) {
        fill_homes(rng, lent);
    }
    if rng.chance(30) {
        damage_group(rng, lent, shape);
    }
    if rng.chance(30) {
        damage_state(rng, lent);
    }
    if rng.chance(40) {
        damage_newest(rng, lent);
    }
    if rng.chance(10) {
        damage_lengths(rng, lent);
    }
}

/// One call of each kind, with numbers at and beyond their limits.
fn asks(rng: &mut Rng, lent: &Lent) -> Vec<Ask> {
    let homes = (lent.data.len() / BLOCK) as u64;
    let pump = rng.pick(&[0, 1, 2, 3, 4, 5, 6, 7, 7, 8, 256, 1 << 32, u64::MAX]);
    let home = rng.pick(&[0, 1, 8, 12, 16, 24, homes.saturating_sub(3), homes, 1 << 32, u64::MAX]);
    let random_second = rng.next() as u32;
    let second = rng.pick(&[0, 1, u32::MAX, 1 << 31, 0x0101_0101, random_second, random_second]);
    let first = BLOCK * ALARM_HOME as usize + 8;
    let open = lent.data.get(first..first + 2).map_or(0, |id| u16::from_le_bytes([id[0], id[1]]));
    let any = rng.next() as u16;
    let identity = rng.pick(&[open, open, 0, u16::MAX, any]);
    let class = rng.pick(&[1, 2, 5, 9, 9, 0, 10, 256, 257, u64::MAX]);
    let mm = rng.pick(&[0, 1, 5_000, 9_999, 10_000, 65_535, 65_536, u64::MAX]);
    let interval = rng.pick(&[0, 1, 3_600, u64::from(u32::MAX), 1 << 32, u64::MAX]);
    vec![
        Ask::SetTable(random_table(rng)),
        Ask::LookUp(mm),
        Ask::Start { pump, second },
        Ask::Stop { pump, second },
        Ask::Hours { pump },
        Ask::Services { pump, interval },
        Ask::Arrive { identity, class, second },
        Ask::Clear { identity },
        Ask::Gravest,
        Ask::Fetch { home },
        Ask::Revise { home },
        Ask::Transact { home },
    ]
}

fn damaged(seed: u64, images: u64, pair: &mut Pair) -> Result<(), String> {
    let mut rng = Rng::new(seed ^ 0x756e_6974_7321);
    for image in 0..images {
        let mut lent = random_lent(&mut rng);
        damage(&mut rng, &mut lent);
        for ask in asks(&mut rng, &lent) {
            let mut lent = lent.clone();
            let blocks = rng.pick(&[64, 64, 192, 384, 448, 0, 63, 65, 512]);
            lent.block = vec![rng.next() as u8; blocks];
            lent.batch = vec![0xcc; rng.pick(&[516, 516, 516, 515, 0, 1, 517, 600])];
            let writer = rng.pick(&[0, 1, 2, 3, 4, 5, 6, 7, 7, 8, 1 << 32, u64::MAX]);
            pair.run(&mut lent, &ask, writer);
            pair.verdict().map_err(|what| format!("image {image}: {what}"))?;
        }
    }
    Ok(())
}

fn histories(seed: u64, count: u64, pair: &Rc<RefCell<Pair>>) -> Result<UnitTally, String> {
    let mut tally = UnitTally::default();
    for one in (0..count).map(|at| seed.wrapping_add(at)) {
        let compared = Rc::clone(pair);
        let units = Box::new(move |lent: &mut Lent, ask: &Ask, writer| compared.borrow_mut().run(lent, ask, writer));
        let outcome = unit_history_with(one, &mut tally, Box::new(Lent::run), units);
        pair.borrow().verdict().and(outcome).map_err(|what| format!("history of seed {one}: {what}"))?;
    }
    Ok(tally)
}

fn run(words: &mut Words) -> Result<(), String> {
    let seed = words.number("--seed", 1);
    let (count, images) = (words.number("--histories", 300), words.number("--damaged", 10_000));
    let guarded = !words.flag("--tight");
    let paths = words.texts("--build");
    if paths.is_empty() {
        return Err("no build is named; --build FILE".into());
    }
    let builds = paths.iter().map(|path| Build::new(path, guarded)).collect::<Result<Vec<Build>, String>>()?;
    let pair = Pair { builds, compared: 0, counts: Default::default(), difference: None };
    let pair = Rc::new(RefCell::new(pair));
    let tally = histories(seed, count, &pair)?;
    damaged(seed, images, &mut pair.borrow_mut())?;
    let pair = pair.borrow();
    println!(
        "{count} histories with {} cuts, {images} damaged images: {} calls compared, by answer",
        tally.crashes, pair.compared
    );
    for (name, answers) in Ask::NAMES.iter().zip(&pair.counts) {
        let met = answers.iter().enumerate().filter(|(_, times)| **times > 0);
        let met: Vec<String> = met.map(|(answer, times)| format!("{answer}: {times}")).collect();
        println!("  {name:14} {}", met.join(", "));
    }
    Ok(())
}

fn main() -> ExitCode {
    let mut words = Words::new(USAGE);
    match run(&mut words) {
        Ok(()) => {
            words.done();
            println!("no difference");
            ExitCode::SUCCESS
        }
        Err(what) => {
            println!("DIFFERENCE: {what}");
            ExitCode::FAILURE
        }
    }
}
