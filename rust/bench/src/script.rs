//! A script: the memory that its calls start from, the calls, and what they
//! must answer and leave. The reference implementation writes it; both play it.

use crate::floor::Before;
use harness::rng::Rng;
use reference::layout::{word, BLOCK};
use reference::lent::{Kind, Lent};
use reference::rights::of_list;
use reference::state::at;
use reference::Answer;

pub struct Step {
    pub kind: Kind,
    pub writer: u64,
    pub home: u64,
    pub block: [u8; BLOCK],
    pub answer: Answer,
    /// Bytes that the call must move.
    pub moved: usize,
}

pub struct Script {
    pub start: Lent,
    pub steps: Vec<Step>,
    pub end: Lent,
}

/// Writes a script by performing its calls.
pub struct Recorder {
    pub rng: Rng,
    pub lent: Lent,
    start: Lent,
    steps: Vec<Step>,
}

impl Recorder {
    pub fn new(seed: u64, lent: Lent) -> Recorder {
        Recorder { rng: Rng::new(seed), start: lent.clone(), lent, steps: Vec::new() }
    }

    /// A store just formatted and opened, not part of the script.
    pub fn opened(seed: u64, groups: u64, homes: u64) -> Recorder {
        let mut lent = Lent::new(groups, homes);
        for kind in [Kind::Format, Kind::Open] {
            assert_eq!(lent.run(kind, 0, 0).code, 0);
        }
        Recorder::new(seed, lent)
    }

    /// Performs a call and writes it down.
    pub fn call(&mut self, kind: Kind, writer: u64, home: u64) {
        if kind == Kind::Store {
            self.fill_block();
        }
        let block = self.lent.block[..].try_into().unwrap();
        let before = Before::of(&self.lent, writer);
        let answer = self.lent.run(kind, writer, home);
        assert_eq!(answer.code, 0, "{}", kind.name());
        let moved = before.moved(kind, home, answer.len);
        self.steps.push(Step { kind, writer, home, block, answer, moved });
    }

    fn fill_block(&mut self) {
        for eight in self.lent.block.chunks_mut(8) {
            eight.copy_from_slice(&self.rng.next().to_le_bytes());
        }
    }

    /// Not one of the list of rights, to which only writer 0 may store.
    pub fn random_home(&mut self) -> u64 {
        loop {
            let home = self.rng.below(word(&self.lent.state, at::HOMES));
            if !of_list(home) {
                return home;
            }
        }
    }

    /// Forgets the steps so far: the script starts from here.
    pub fn start_here(&mut self) {
        self.steps.clear();
        self.start = self.lent.clone();
    }

    /// Groups in use, a part-filled one among them.
    pub fn groups_used(&self) -> u64 {
        let number = |place| word(&self.lent.state, place);
        number(at::NEXT) - number(at::START) + number(at::FILLED).min(1)
    }

    pub fn finish(self) -> Script {
        Script { start: self.start, steps: self.steps, end: self.lent }
    }
}

/// A script of one call.
pub fn single(kind: Kind, lent: &Lent) -> Script {
    let mut recorder = Recorder::new(0, lent.clone());
    recorder.call(kind, 0, 0);
    recorder.finish()
}

/// A script of one step of a round that has begun on this log.
pub fn step(homes: u64, lent: &Lent) -> Script {
    let mut begun = lent.clone();
    assert_eq!(begun.run(Kind::BeginRound, 0, 0).code, 0);
    let mut recorder = Recorder::new(0, begun);
    recorder.call(Kind::StepRound, 0, homes);
    recorder.finish()
}

/// A script of reads of random homes by writer 0.
pub fn reads(seed: u64, count: u64, lent: &Lent) -> Script {
    let mut recorder = Recorder::new(seed, lent.clone());
    for _ in 0..count {
        let home = recorder.random_home();
        recorder.call(Kind::Read, 0, home);
    }
    recorder.finish()
}
