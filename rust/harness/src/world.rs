//! A store under play: the memory lent to its calls, the lasting memory, the
//! book, and the positions the paper speaks of, kept apart from the state.

use crate::book::{Block, Book};
use crate::landing::{parse, Areas, Piece, Record, Submitted, Target};
use crate::round_check::Round;
use reference::layout::{header, word, Answer, Shape, HEADER};
use reference::lent::{Kind, Lent, Runner};
use std::collections::HashSet;

/// One call with its arguments.
#[derive(Clone, Copy, Debug)]
pub struct Call {
    pub kind: Kind,
    pub writer: u64,
    /// The places of a reserve, the homes of a step.
    pub home: u64,
    pub block: Block,
    pub batch_len: usize,
    /// A part lent with a wrong length, if any.
    pub odd: Option<Odd>,
}

#[derive(Clone, Copy, Debug, PartialEq, Eq)]
pub enum Odd {
    Log(usize),
    Data(usize),
    State(usize),
    Newest(usize),
    Block(usize),
}

/// The paper's positions, followed from answers and batches alone.
#[derive(Clone, Debug, Default)]
pub struct Shadow {
    pub start: u64,
    pub next: u64,
    pub settled: u64,
    pub fenced: u64,
    pub durable: u64,
    /// First position of each writer's logged entries.
    pub first: [Option<u64>; 8],
    /// Places that the reserve of each open transaction was granted.
    pub granted: [u64; 8],
    /// The round under way.
    pub round: Option<Round>,
}

/// Where a commit lies: first position and commit entry's position.
pub type Span = (u64, u64);

pub struct World {
    pub shape: Shape,
    pub lent: Lent,
    /// Lasting memory as of the last crash, or format.
    pub image: Areas,
    /// Lasting memory if all that was submitted had landed.
    pub full: Areas,
    pub submitted: Submitted,
    pub book: Book,
    pub shadow: Shadow,
    /// A round that the last call has ended.
    pub ended: Option<Round>,
    /// One for each commit of the book.
    pub spans: Vec<Span>,
    /// Commits of the book when the last done opening ended.
    pub brought: usize,
    /// Commits, from the first on, confirmed durable.
    pub confirmed: usize,
    pub opened: bool,
    pub calls: usize,
    pub(crate) runner: Runner,
    since_fence: HashSet<Target>,
}

impl World {
    /// A finished format. A `start` above 0 stands for a long past.
    pub fn new(shape: Shape, start: u64) -> World {
        World::with_runner(shape, start, Box::new(Lent::run))
    }

    /// The same, all calls being performed by `runner`.
    pub fn with_runner(shape: Shape, start: u64, mut runner: Runner) -> World {
        let mut lent = Lent::new(shape.groups, shape.homes);
        let answer = runner(&mut lent, Kind::Format, 0, 0);
        assert_eq!(answer.code, 0);
        let mut image = Areas::zeros(shape.groups, shape.homes);
        for record in parse(&lent.batch[..answer.len]).unwrap() {
            image.land(&record);
        }
        assert!(image.log == lent.log && image.data == lent.data);
        image.log[..HEADER].copy_from_slice(&header(shape, start));
        World {
            shape,
            lent,
            full: image.clone(),
            image,
            submitted: Submitted::default(),
            book: Book::default(),
            shadow: Shadow::default(),
            ended: None,
            spans: Vec::new(),
            brought: 0,
            confirmed: 0,
            opened: false,
            calls: 0,
            runner,
            since_fence: HashSet::new(),
        }
    }

    pub fn next_position(&self) -> u64 {
        7 * self.shadow.next + self.book.row.len() as u64
    }

    /// Places promised to a writer: what it was granted less what it has logged.
    pub fn promise(&self, writer: u64) -> u64 {
        let open = self.book.writers[writer as usize].as_ref();
        let logged = open.map_or(0, |open| open.logged.len() as u64);
        self.shadow.granted[writer as usize].saturating_sub(logged)
    }

    pub fn promised(&self) -> u64 {
        (0..8).map(|writer| self.promise(writer)).sum()
    }

    /// Places up to the end of the last group in reach.
    pub fn places(&self) -> u64 {
        7 * (self.shadow.start + self.shape.groups) - self.next_position()
    }

    pub fn free_places(&self) -> u64 {
        self.places() - self.promised()
    }

    /// The copies of both areas, loaded afresh for an opening.
    pub fn load(&mut self) {
        self.lent.log.copy_from_slice(&self.image.log);
        self.lent.data.copy_from_slice(&self.image.data);
    }

    /// Keeps the batch of a done call; a block must not be written twice
    /// between two fences.
    pub fn submit(&mut self, len: usize) -> Result<Vec<Record>, String> {
        let records = parse(&self.lent.batch[..len]).ok_or("batch does not parse")?;
        for record in &records {
            match record.target() {
                None => self.since_fence.clear(),
                Some(target) if self.since_fence.insert(target) => {}
                Some(target) => return Err(format!("{target:?} written twice")),
            }
            self.full.land(record);
        }
        self.submitted.add(self.calls, records.clone());
        Ok(records)
    }

    /// Feeds a done call to the book and the shadow.
    pub fn follow(&mut self, call: &Call, answer: Answer, records: &[Record]) {
        let position = self.next_position();
        match call.kind {
            Kind::Begin | Kind::Reserve => self.book.begin(call.writer),
            Kind::Abort => self.book.abort(call.writer),
            Kind::Store => {
                if self.book.store_logs(call.writer, call.home) {
                    self.shadow.first[call.writer as usize].get_or_insert(position);
                }
                self.book.store(self.calls, call.writer, call.home, call.block);
            }
            Kind::Commit => {
                if self.book.commit(self.calls, call.writer) {
                    let first = self.shadow.first[call.writer as usize].unwrap_or(position);
                    self.spans.push((first, answer.figure - 1));
                }
            }
            Kind::Flush => self.book.flush(self.calls),
            Kind::Confirm => self.confirm(answer.figure),
            Kind::Settle => self.shadow.settled = self.shadow.fenced,
            Kind::StepRound => self.follow_step(call.home, records),
            Kind::Trim => self.follow_trim(records),
            _ => {}
        }
        if call.kind.begins() || matches!(call.kind, Kind::Abort | Kind::Commit) {
            let granted = if call.kind == Kind::Reserve { call.home } else { 0 };
            self.shadow.first[call.writer as usize] = None;
            self.shadow.granted[call.writer as usize] = granted;
        }
        self.follow_records(records);
        if call.kind == Kind::Open {
            self.follow_open();
        }
    }

    fn follow_records(&mut self, records: &[Record]) {
        for record in records {
            match record {
                Record::Group { .. } => self.shadow.next += 1,
                Record::Header { bytes } => self.shadow.start = word(bytes, 0) >> 16,
                Record::Home { .. } => {}
                Record::Fence => self.shadow.fenced = 7 * self.shadow.next,
            }
        }
    }

    fn follow_open(&mut self) {
        let start = self.shadow.start;
        let position = 7 * start;
        self.shadow = Shadow {
            start,
            next: start,
            settled: position,
            fenced: position,
            durable: position,
            first: [None; 8],
            granted: [0; 8],
            round: None,
        };
        self.opened = true;
        self.brought = self.book.commits.len();
    }

    fn confirm(&mut self, mark: u64) {
        self.shadow.durable = mark;
        self.submitted.confirm();
        while self.confirmed < self.spans.len() && self.spans[self.confirmed].1 < mark {
            self.confirmed += 1;
        }
    }

    /// A crash, each block landing by itself; checks that the surviving prefix
    /// holds what it must.
    pub fn crash(&mut self, passed: usize, choose: impl FnMut(&Record, Piece) -> bool) -> Result<(), String> {
        let submitted = std::mem::take(&mut self.submitted);
        let landed = submitted.crash(passed, &mut self.image, choose);
        self.book.crash(&landed);
        self.spans.truncate(self.book.commits.len());
        self.full = self.image.clone();
        self.since_fence.clear();
        self.opened = false;
        self.check_owed(self.book.commits.len())
    }

    /// A run of this length has all that is owed.
    pub fn check_owed(&self, run: usize) -> Result<(), String> {
        if run < self.confirmed {
            return Err("a commit confirmed durable is lost".to_string());
        }
        if run < self.brought {
            return Err("a commit brought back earlier is lost".to_string());
        }
        Ok(())
    }

    /// Commits of this opening that are not trimmed: those at and after this one.
    pub fn untrimmed(&self) -> usize {
        let start = 7 * self.shadow.start;
        self.spans.iter().position(|span| span.1 >= start).unwrap_or(self.spans.len())
    }
}
