//! One line of the results: a call in a case.

use crate::cases::{Case, Table};
use reference::lent::Kind;

/// All calls of a steady state, shared out among the commits.
pub const PER_COMMIT: &str = "per commit";

#[derive(Clone)]
pub struct Row {
    pub table: Table,
    pub case: String,
    /// Groups of the ring, and those in use at the start.
    pub groups: u64,
    pub used: u64,
    /// A call's name, or `PER_COMMIT`.
    pub call: &'static str,
    pub calls: u64,
    /// Bytes of batch in all.
    pub batch: u64,
    /// Instructions in all: library, reference, floor.
    pub counts: Option<[u64; 3]>,
    /// Median nanoseconds: library, reference.
    pub times: Option<[u64; 2]>,
}

/// The rows of a case, without figures.
pub fn rows(case: &Case) -> Vec<Row> {
    let row = |call, calls, batch| {
        let &Case { table, groups, used, .. } = case;
        Row { table, case: case.name.clone(), groups, used, call, calls, batch, counts: None, times: None }
    };
    let figures = |kind| {
        let steps = || case.steps().filter(|step| step.kind == kind);
        (steps().count() as u64, steps().map(|step| step.answer.len as u64).sum())
    };
    let mut rows = Vec::new();
    for kind in Kind::ALL {
        let (calls, batch) = figures(kind);
        if calls > 0 {
            rows.push(row(kind.name(), calls, batch));
        }
    }
    let (commits, _) = figures(Kind::Commit);
    if commits > 0 {
        let batch = rows.iter().map(|row| row.batch).sum();
        rows.push(row(PER_COMMIT, commits, batch));
    }
    rows
}

impl Row {
    pub fn mean_batch(&self) -> f64 {
        self.batch as f64 / self.calls as f64
    }

    /// Instructions per call in one column.
    pub fn mean(&self, column: usize) -> Option<f64> {
        self.counts.map(|counts| counts[column] as f64 / self.calls as f64)
    }

    /// Instructions of the library to those of another column.
    pub fn ratio(&self, column: usize) -> Option<f64> {
        Some(self.mean(0)? / self.mean(column)?)
    }

    pub fn time_ratio(&self) -> Option<f64> {
        self.times.filter(|times| times[1] > 0).map(|times| times[0] as f64 / times[1] as f64)
    }
}
