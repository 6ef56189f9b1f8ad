//! All that is measured, in order.

use crate::rings::{filled, half_settled, held_back, shared_first};
use crate::script::{reads, single, step, Recorder, Script, Step};
use crate::steady;
use reference::lent::{Kind, Lent};

/// The tables that cases belong to.
#[derive(Clone, Copy, PartialEq, Eq, Debug)]
pub enum Table {
    Calls,
    Durable,
    Worst,
    Size,
    Use,
}

impl Table {
    /// Times are taken for the tables that show them.
    pub fn is_timed(self) -> bool {
        matches!(self, Table::Calls | Table::Durable | Table::Worst)
    }
}

pub struct Case {
    pub table: Table,
    pub name: String,
    /// Groups of the ring, and those in use at the start.
    pub groups: u64,
    pub used: u64,
    pub scripts: Vec<Script>,
}

impl Case {
    pub fn steps(&self) -> impl Iterator<Item = &Step> {
        self.scripts.iter().flat_map(|script| &script.steps)
    }
}

const GROUPS: u64 = 1024;
const HOMES: u64 = 4096;
/// Blocks of a transaction, where nothing else is said.
const BLOCKS: u64 = 4;
/// How often the ring fills in a steady state.
const FILLINGS: u64 = 2;
/// Commits that a flush makes durable in a steady state, where not each has its own.
const COMMITS_PER_FLUSH: u64 = 8;

pub type Visit<'a> = &'a mut dyn FnMut(Case);

/// Visits each case.
pub fn each(seed: u64, visit: Visit) {
    for blocks in [1, 4, 16] {
        visit(steady_state(seed, Table::Calls, "", blocks, COMMITS_PER_FLUSH));
    }
    for blocks in [1, 4, 16] {
        visit(steady_state(seed, Table::Durable, ", flush after each", blocks, 1));
    }
    whole_rings(seed, visit);
    worst_logs(seed, visit);
    sizes(seed, visit);
    uses(seed, visit);
}

fn steady_state(seed: u64, table: Table, detail: &str, blocks: u64, commits_per_flush: u64) -> Case {
    let name = format!("steady, {blocks} block{}{detail}", if blocks == 1 { "" } else { "s" });
    let scripts = vec![steady::script(seed, GROUPS, HOMES, blocks, commits_per_flush, FILLINGS)];
    Case { table, name, groups: GROUPS, used: 0, scripts }
}

fn whole_rings(seed: u64, visit: Visit) {
    let empty = Recorder::opened(seed, GROUPS, HOMES).lent;
    let half = filled(seed, GROUPS, HOMES, GROUPS / 2, BLOCKS);
    let full = filled(seed, GROUPS, HOMES, GROUPS, BLOCKS);
    let mut one = |name: &str, used, script| {
        let (table, name, scripts) = (Table::Calls, name.to_string(), vec![script]);
        visit(Case { table, name, groups: GROUPS, used, scripts });
    };
    one("new store", 0, single(Kind::Format, &Lent::new(GROUPS, HOMES)));
    one("full log", GROUPS, single(Kind::Open, &full));
    one("full log", GROUPS, single(Kind::Settle, &full));
    one("full log", GROUPS, single(Kind::BeginRound, &full));
    one("full log, 1 home", GROUPS, step(1, &full));
    one("full log, 8 homes", GROUPS, step(8, &full));
    one("empty log", 0, reads(seed, 256, &empty));
    one("half-full log", GROUPS / 2, reads(seed, 256, &half));
    one("full log", GROUPS, reads(seed, 256, &full));
}

/// Open, settle and trim of a log, and some reads.
fn four(seed: u64, lent: &Lent, count: u64) -> Vec<Script> {
    let mut recorder = Recorder::new(seed, lent.clone());
    recorder.call(Kind::Settle, 0, 0);
    recorder.call(Kind::Trim, 0, 0);
    vec![single(Kind::Open, lent), recorder.finish(), reads(seed, count, lent)]
}

fn worst_logs(seed: u64, visit: Visit) {
    let overlapping = filled(seed, GROUPS, HOMES, GROUPS, 7 * GROUPS / 8);
    let shared = shared_first(seed, GROUPS, HOMES);
    for (name, lent) in [("eight overlap", overlapping), ("shared first", shared)] {
        let (table, name) = (Table::Worst, name.to_string());
        visit(Case { table, name, groups: GROUPS, used: GROUPS, scripts: four(seed, &lent, 8) });
    }
    let trims = [
        ("half settled", half_settled(seed, GROUPS, HOMES, BLOCKS)),
        ("open since group 0", held_back(seed, GROUPS, HOMES, 0, BLOCKS)),
        ("open since group 1", held_back(seed, GROUPS, HOMES, 1, BLOCKS)),
    ];
    for (name, lent) in trims {
        let (table, name, scripts) = (Table::Worst, name.to_string(), vec![single(Kind::Trim, &lent)]);
        visit(Case { table, name, groups: GROUPS, used: GROUPS, scripts });
    }
}

/// The smallest and larger rings, with one group in use and full.
fn sizes(seed: u64, visit: Visit) {
    for groups in [4, 64, 256, 1024] {
        for (name, used) in [("one group", 1), ("full", groups)] {
            let lent = filled(seed, groups, HOMES, used, BLOCKS);
            let (table, name) = (Table::Size, name.to_string());
            visit(Case { table, name, groups, used, scripts: four(seed, &lent, 32) });
        }
    }
}

/// The largest ring by sixteenths, for the plot.
fn uses(seed: u64, visit: Visit) {
    for sixteenth in 0..=16 {
        let used = (GROUPS * sixteenth / 16).max(1);
        let lent = filled(seed, GROUPS, HOMES, used, BLOCKS);
        let (table, name) = (Table::Use, "ring use".to_string());
        visit(Case { table, name, groups: GROUPS, used, scripts: four(seed, &lent, 32) });
    }
}
