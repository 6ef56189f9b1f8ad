//! What the paper says of rounds: answers to expect, and what must hold after
//! each step and at the end.
//! Clauses: [S-40, S-41, S-42]

use crate::check::must;
use crate::landing::{parse, Record};
use crate::world::{Call, World};
use reference::batch::{FENCE_LEN, HOME_WRITE_LEN};
use reference::layout::{home_range, Answer};
use reference::lent::{ample, Kind};

/// A round, followed from answers and batches alone.
#[derive(Clone, Debug)]
pub struct Round {
    pub fixed: u64,
    pub cursor: u64,
    /// Homes touched at its beginning, less those that the steps since could do.
    left: u64,
    /// Has the log's start moved since?
    trimmed: bool,
    written: Vec<Record>,
    /// What a settle in place of its beginning would have given.
    settled: Settled,
}

/// Data copy, home writes and settled position of a settle.
#[derive(Clone, Debug)]
struct Settled {
    data: Vec<u8>,
    written: Vec<Record>,
    position: u64,
}

impl World {
    pub fn foresee_begin_round(&self) -> Result<Answer, u32> {
        if self.shadow.round.is_some() {
            Err(21)
        } else {
            Ok(Answer::DONE)
        }
    }

    pub fn foresee_step(&self, homes: u64) -> Result<Answer, u32> {
        let round = self.shadow.round.as_ref().filter(|_| homes > 0).ok_or(21u32)?;
        let due = self.touched(round.fixed).range(round.cursor..).count() as u64;
        let fence = if due <= homes { FENCE_LEN } else { 0 };
        Ok(Answer::wrote(due.min(homes) as usize * HOME_WRITE_LEN + fence))
    }

    /// Before a round begins: what a settle would do in its place, on a copy.
    pub fn foresee_round(&mut self, call: &Call, expected: Answer) -> Result<(), String> {
        if call.kind != Kind::BeginRound || expected.code != 0 {
            return Ok(());
        }
        let mut copy = self.lent.clone();
        copy.batch = vec![0; ample(0, self.shape.homes)];
        let answer = (self.runner)(&mut copy, Kind::Settle, 0, 0);
        let mut written = parse(&copy.batch[..answer.len]).ok_or("settle: batch does not parse")?;
        must(answer.code == 0 && written.pop() == Some(Record::Fence), "settle in place of a round")?;
        let fixed = self.shadow.fenced;
        self.shadow.round = Some(Round {
            fixed,
            cursor: 0,
            left: self.touched(fixed).len() as u64,
            trimmed: false,
            written: Vec::new(),
            settled: Settled { data: copy.data, written, position: fixed },
        });
        Ok(())
    }

    pub fn follow_step(&mut self, homes: u64, records: &[Record]) {
        let round = match self.shadow.round.as_mut() {
            Some(round) => round,
            None => return,
        };
        round.left = round.left.saturating_sub(homes);
        let mut over = false;
        for record in records {
            match record {
                Record::Home { home, .. } => {
                    round.cursor = *home as u64 + 1;
                    round.written.push(record.clone());
                }
                _ => over = true,
            }
        }
        if over {
            self.shadow.settled = round.fixed;
            self.ended = self.shadow.round.take();
        }
    }

    pub fn follow_trim(&mut self, records: &[Record]) {
        if let Some(round) = self.shadow.round.as_mut() {
            round.trimmed |= !records.is_empty();
        }
    }

    /// A round is over after as many steps as its homes need, and leaves what
    /// a settle at its beginning would have left.
    pub fn check_step(&mut self) -> Result<(), String> {
        self.check_homes()?;
        let round = match self.ended.take() {
            Some(round) => round,
            None => {
                let left = self.shadow.round.as_ref().map_or(0, |round| round.left);
                return must(left > 0, "round: more steps than its homes need");
            }
        };
        must(self.lent.data == round.settled.data, "round: data copy is not a settle's")?;
        must(self.shadow.settled == round.settled.position, "round: settled position is not a settle's")?;
        let same = round.written == round.settled.written;
        must(round.trimmed || same, "round: home writes are not a settle's")
    }

    /// The data copy home by home: the commits below the fixed F where the
    /// round has been, else those below the settled position.
    pub fn check_homes(&self) -> Result<(), String> {
        let homes = self.shape.homes;
        let after = |position: u64| self.book.homes_after(self.below(position), homes);
        let mut want = after(self.shadow.settled);
        if let Some(round) = &self.shadow.round {
            let done = 0..home_range(round.cursor as usize).start;
            want[done.clone()].copy_from_slice(&after(round.fixed)[done]);
        }
        must(self.lent.data == want, "data copy, home by home")
    }
}
