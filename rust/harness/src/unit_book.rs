//! What the labels of the book's commits say: the last table, a pump's events,
//! the alarms not cleared; and the answers that they lead one to expect.
//! Clauses: [S-63, S-65, S-66, S-67, S-68, S-69, S-70]

use crate::world::World;
use reference::alarms::{self, Alarm};
use reference::bands;
use reference::batch::GROUP_WRITE_LEN;
use reference::hours::{Event, Pump};
use reference::units::{Ask, Told, ALARM_HOME, ALARM_HOMES, PUMPS, PUMP_HOME, TABLE_HOME, TABLE_HOMES};

/// What a commit of the book stands for.
#[derive(Clone, Debug, PartialEq, Eq)]
pub enum Label {
    /// A transaction of the store's own calls.
    Plain,
    Table(Vec<u8>),
    Pump(u64, Event),
    Arrival(Alarm),
    Clearing(u16),
}

/// The homes that a call is about, and which rights it needs.
pub struct Homes {
    pub first: u64,
    pub count: u64,
    pub stores: bool,
    pub reads: bool,
}

pub fn homes_of(ask: &Ask, blocks: u64) -> Homes {
    let on = |first, count, stores, reads| Homes { first, count, stores, reads };
    match *ask {
        Ask::SetTable(_) => on(TABLE_HOME, TABLE_HOMES, true, false),
        Ask::LookUp(_) => on(TABLE_HOME, TABLE_HOMES, false, true),
        Ask::Start { pump, .. } | Ask::Stop { pump, .. } => on(PUMP_HOME + pump, 1, true, true),
        Ask::Hours { pump } | Ask::Services { pump, .. } => on(PUMP_HOME + pump, 1, false, true),
        Ask::Arrive { .. } | Ask::Clear { .. } => on(ALARM_HOME, ALARM_HOMES, true, true),
        Ask::Gravest => on(ALARM_HOME, 1, false, true),
        Ask::Fetch { home } => on(home, blocks, false, true),
        Ask::Revise { home } => on(home, blocks, true, true),
        Ask::Transact { home } => on(home, blocks, true, false),
    }
}

/// The rows of the last table.
pub fn last_table(labels: &[Label]) -> Option<&[u8]> {
    labels.iter().rev().find_map(|label| match label {
        Label::Table(rows) => Some(&rows[..]),
        _ => None,
    })
}

fn pump_events(labels: &[Label], pump: u64) -> Vec<Event> {
    let of_pump = |label: &Label| match label {
        Label::Pump(which, event) if *which == pump => Some(*event),
        _ => None,
    };
    labels.iter().filter_map(of_pump).collect()
}

/// Number of starts and sum of stop less start over the finished runs.
pub fn pump_figures(labels: &[Label], pump: u64) -> (u64, u64) {
    let events = pump_events(labels, pump);
    let starts = events.iter().filter(|event| matches!(event, Event::Start(_))).count() as u64;
    let run = |pair: &[Event]| match pair {
        [Event::Start(from), Event::Stop(to)] => u64::from(to - from),
        _ => 0,
    };
    (starts, events.windows(2).map(run).sum())
}

/// 15 and 16 by the events so far.
fn pump_answer(labels: &[Label], pump: u64, event: Event) -> u64 {
    let (last, running) = match pump_events(labels, pump).last() {
        None => (0, false),
        Some(&Event::Start(second)) => (second, true),
        Some(&Event::Stop(second)) => (second, false),
    };
    let (second, starts) = match event {
        Event::Start(second) => (second, true),
        Event::Stop(second) => (second, false),
    };
    let mut with = labels.to_vec();
    with.push(Label::Pump(pump, event));
    if running == starts {
        15
    } else if second < last {
        16
    } else {
        let (starts, total) = pump_figures(&with, pump);
        if starts.max(total) >> 32 > 0 {
            16
        } else {
            0
        }
    }
}

/// The arrivals that no later clearing names, in the order of their arrival.
pub fn open_alarms(labels: &[Label]) -> Vec<Alarm> {
    let cleared = |from: usize, identity: u16| labels[from..].contains(&Label::Clearing(identity));
    let open = |(at, label): (usize, &Label)| match label {
        Label::Arrival(alarm) if !cleared(at, alarm.identity) => Some(*alarm),
        _ => None,
    };
    labels.iter().enumerate().filter_map(open).collect()
}

fn alarm_answer(labels: &[Label], label: &Label) -> u64 {
    let open = open_alarms(labels);
    let among = |identity: u16| open.iter().any(|alarm| alarm.identity == identity);
    match label {
        Label::Arrival(alarm) if among(alarm.identity) => 24,
        Label::Arrival(_) if open.len() >= 48 => 25,
        Label::Clearing(identity) if !among(*identity) => 24,
        _ => 0,
    }
}

/// The label of a done call that stores.
pub fn label_of(ask: &Ask) -> Label {
    match *ask {
        Ask::SetTable(ref rows) => Label::Table(rows.clone()),
        Ask::Start { pump, second } => Label::Pump(pump, Event::Start(second)),
        Ask::Stop { pump, second } => Label::Pump(pump, Event::Stop(second)),
        Ask::Arrive { identity, class, second } => Label::Arrival(Alarm { class: class as u8, second, identity }),
        Ask::Clear { identity } => Label::Clearing(identity),
        _ => Label::Plain,
    }
}

/// The blocks of the unit that a label belongs to, as the labels leave them.
pub fn blocks_after(labels: &[Label]) -> Vec<u8> {
    match labels.last().expect("a label") {
        Label::Plain => Vec::new(),
        Label::Table(rows) => bands::pack(rows).to_vec(),
        Label::Pump(pump, event) => {
            let (starts, total) = pump_figures(labels, *pump);
            let (last, running) = match *event {
                Event::Start(second) => (second, true),
                Event::Stop(second) => (second, false),
            };
            Pump { starts: starts as u32, total: total as u32, last, running }.block().to_vec()
        }
        Label::Arrival(_) | Label::Clearing(_) => alarms::blocks(&open_alarms(labels)).to_vec(),
    }
}

/// Asked before the store's questions: 11, 12, 13, 14, and 24 for the class.
fn first_question(ask: &Ask) -> Result<(), Told> {
    let code = match *ask {
        Ask::SetTable(ref rows) => {
            let verdict = bands::judge(rows);
            let figures = [verdict.millimetre, 0, 0];
            return if verdict.code == 0 { Ok(()) } else { Err(Told { code: verdict.code, figures, size: 0 }) };
        }
        Ask::LookUp(millimetre) if millimetre > 9999 => 11,
        Ask::Services { interval: 0, .. } => 14,
        Ask::Start { pump, .. } | Ask::Stop { pump, .. } | Ask::Hours { pump } | Ask::Services { pump, .. }
            if pump >= PUMPS =>
        {
            14
        }
        Ask::Arrive { class, .. } if class == 0 || class > 9 => 24,
        _ => return Ok(()),
    };
    Err(Told::refused(code))
}

/// Asked after the store's 1, 2, 4, 5, 19 and 20.
fn own_question(ask: &Ask, labels: &[Label]) -> u64 {
    match *ask {
        Ask::LookUp(_) if last_table(labels).is_none() => 11,
        Ask::Start { pump, second } => pump_answer(labels, pump, Event::Start(second)),
        Ask::Stop { pump, second } => pump_answer(labels, pump, Event::Stop(second)),
        Ask::Arrive { .. } | Ask::Clear { .. } => alarm_answer(labels, &label_of(ask)),
        _ => 0,
    }
}

/// The figures of a done call that reads.
fn figures(ask: &Ask, labels: &[Label]) -> [u64; 3] {
    match *ask {
        Ask::LookUp(millimetre) => {
            let rows = last_table(labels).expect("a table").chunks_exact(5);
            let word = |row: &[u8], at: usize| u64::from(row[at]) + 256 * u64::from(row[at + 1]);
            let mut holding = rows.filter(|row| (word(row, 0)..=word(row, 2)).contains(&millimetre));
            let row = holding.next().expect("one row");
            assert!(holding.next().is_none(), "one row only");
            [word(row, 0), word(row, 2), row[4].into()]
        }
        Ask::Hours { pump } => {
            let (starts, total) = pump_figures(labels, pump);
            [starts, total, 0]
        }
        Ask::Services { pump, interval } => {
            let (_, total) = pump_figures(labels, pump);
            [total / interval, total % interval, 0]
        }
        Ask::Gravest => {
            let open = open_alarms(labels);
            let key = |alarm: &&Alarm| (alarm.class, alarm.second, alarm.identity);
            let gravest = open.iter().min_by_key(key).copied().unwrap_or_default();
            [gravest.identity.into(), gravest.class.into(), gravest.second.into()]
        }
        _ => [0; 3],
    }
}

/// What is lent to the call beside the store's own parts.
#[derive(Clone, Copy, Debug)]
pub struct Room {
    /// Home blocks of the strip of fetch, revise and transact.
    pub blocks: u64,
    pub batch: usize,
    /// Is a length wrong?
    pub odd: bool,
}

/// The answer that book, list of rights and labels lead one to expect.
pub fn expected(world: &World, labels: &[Label], ask: &Ask, writer: u64, room: Room) -> Told {
    if let Err(told) = first_question(ask) {
        return told;
    }
    let homes = homes_of(ask, room.blocks);
    let code = store_questions(world, &homes, writer, room.odd);
    let code = if code == 0 { own_question(ask, labels) } else { code };
    if code != 0 {
        return Told::refused(code);
    }
    if !ask.stores() {
        return Told::figures(figures(ask, labels));
    }
    let groups = (world.book.row.len() as u64 + homes.count) / 7;
    let size = GROUP_WRITE_LEN as u64 * groups;
    if world.book.writers[writer as usize].is_some() {
        Told::refused(6)
    } else if homes.count > world.free_places() {
        Told::refused(8)
    } else if size > room.batch as u64 {
        Told::refused(9)
    } else {
        Told { code: 0, figures: [world.next_position() + homes.count, 0, 0], size }
    }
}

/// 1, 4, 5, 19 and 20, each for all homes; 2 is not met in a history.
fn store_questions(world: &World, homes: &Homes, writer: u64, odd: bool) -> u64 {
    if odd {
        return 1;
    }
    if writer > 7 {
        return 4;
    }
    let all = homes.first..homes.first.saturating_add(homes.count);
    if all.end > world.shape.homes {
        return 5;
    }
    let list = world.list();
    if homes.stores && !all.clone().all(|home| list.may_store(writer, home)) {
        return 19;
    }
    if homes.reads && !all.clone().all(|home| list.may_read(writer, home)) {
        return 20;
    }
    0
}
