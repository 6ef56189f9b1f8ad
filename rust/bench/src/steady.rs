//! A station in steady state: eight writers take steps in random order, with
//! transactions of equal length, of which four in a hundred are aborted in
//! place of their commit. After every eighth commit, or after each, there is a
//! flush and a confirm. When three quarters of the ring are in use, no
//! transaction begins until the open ones have ended, for trim frees no group
//! that one reaches across; then come flush, confirm, settle, confirm and trim.

use crate::rings::other_home;
use crate::script::{Recorder, Script};
use reference::lent::Kind;

const ABORTS_PER_HUNDRED: u64 = 4;

#[derive(Clone, Copy)]
struct Task {
    open: bool,
    /// Blocks still to store.
    left: u64,
    last_home: u64,
}

struct Station {
    recorder: Recorder,
    tasks: [Task; 8],
    groups: u64,
    blocks: u64,
    commits_per_flush: u64,
    commits: u64,
    trims: u64,
}

/// A script of `trims` fillings of the ring; one more goes before.
pub fn script(seed: u64, groups: u64, homes: u64, blocks: u64, commits_per_flush: u64, trims: u64) -> Script {
    let recorder = Recorder::opened(seed, groups, homes);
    let tasks = [Task { open: false, left: 0, last_home: 0 }; 8];
    let mut station = Station { recorder, tasks, groups, blocks, commits_per_flush, commits: 0, trims: 0 };
    while station.trims < 1 {
        station.step();
    }
    station.recorder.start_here();
    while station.trims < 1 + trims {
        station.step();
    }
    station.recorder.finish()
}

impl Station {
    fn step(&mut self) {
        let full = 4 * self.recorder.groups_used() >= 3 * self.groups;
        if full && self.tasks.iter().all(|task| !task.open) {
            self.make_room();
        }
        let writer = self.recorder.rng.below(8);
        if full && !self.tasks[writer as usize].open {
            return;
        }
        let task = self.tasks[writer as usize];
        let next = if !task.open {
            self.recorder.call(Kind::Begin, writer, 0);
            Task { open: true, left: self.blocks, last_home: u64::MAX }
        } else if task.left > 0 {
            let home = other_home(&mut self.recorder, task.last_home);
            self.recorder.call(Kind::Store, writer, home);
            Task { left: task.left - 1, last_home: home, ..task }
        } else {
            self.end(writer);
            Task { open: false, ..task }
        };
        self.tasks[writer as usize] = next;
    }

    fn end(&mut self, writer: u64) {
        if self.recorder.rng.chance(ABORTS_PER_HUNDRED) {
            self.recorder.call(Kind::Abort, writer, 0);
            return;
        }
        self.recorder.call(Kind::Commit, writer, 0);
        self.commits += 1;
        if self.commits % self.commits_per_flush == 0 {
            self.recorder.call(Kind::Flush, 0, 0);
            self.recorder.call(Kind::Confirm, 0, 0);
        }
    }

    fn make_room(&mut self) {
        for kind in [Kind::Flush, Kind::Confirm, Kind::Settle, Kind::Confirm, Kind::Trim] {
            self.recorder.call(kind, 0, 0);
        }
        self.trims += 1;
    }
}
