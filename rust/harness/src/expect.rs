//! The answer that the book and the shadow lead one to expect of a call.

use crate::literal;
use crate::world::{Call, World};
use reference::batch::{FENCE_LEN, GROUP_WRITE_LEN, HEADER_WRITE_LEN, HOME_WRITE_LEN};
use reference::layout::{Answer, START_LIMIT};
use reference::lent::Kind;
use reference::rights::{has_room, List, LIST_HOME};
use std::collections::BTreeSet;

impl World {
    pub fn expected(&self, call: &Call) -> Answer {
        match self.foresee(call) {
            Ok(answer) if answer.len <= call.batch_len => answer,
            Ok(_) => Answer { code: 9, figure: 0, len: 0 },
            Err(code) => Answer { code, figure: 0, len: 0 },
        }
    }

    /// The answer with a batch that suffices.
    fn foresee(&self, call: &Call) -> Result<Answer, u32> {
        if call.odd.is_some() {
            return Err(1);
        }
        if call.kind.takes_writer() && call.writer >= 8 {
            return Err(4);
        }
        if call.kind.takes_home() && call.home >= self.shape.homes {
            return Err(5);
        }
        if call.kind == Kind::Store && !self.may_store(call.writer, call.home) {
            return Err(19);
        }
        if call.kind == Kind::Read && !self.may_read(call.writer, call.home) {
            return Err(20);
        }
        match call.kind {
            Kind::Open => self.foresee_open(),
            Kind::Begin | Kind::Reserve | Kind::Abort | Kind::Store | Kind::Commit => self.foresee_writer(call),
            Kind::Flush => self.foresee_flush(),
            Kind::Confirm => Ok(Answer { code: 0, figure: self.shadow.fenced, len: 0 }),
            Kind::Settle => self.foresee_settle(),
            Kind::BeginRound => self.foresee_begin_round(),
            Kind::StepRound => self.foresee_step(call.home),
            Kind::Trim => self.foresee_trim(),
            Kind::Read => Ok(Answer::DONE),
            Kind::Format => unreachable!(),
        }
    }

    /// The list that the book has committed.
    pub fn list(&self) -> List {
        let mut list = List::NONE;
        if has_room(self.shape.homes) {
            list.0 = std::array::from_fn(|index| self.book.committed(LIST_HOME + index as u64));
        }
        list
    }

    pub fn may_store(&self, writer: u64, home: u64) -> bool {
        self.list().may_store(writer, home)
    }

    pub fn may_read(&self, writer: u64, home: u64) -> bool {
        self.list().may_read(writer, home)
    }

    /// The bytes of a group write if at least this many places are filled.
    fn group_write(&self, places: usize) -> usize {
        if self.book.row.len() >= places {
            GROUP_WRITE_LEN
        } else {
            0
        }
    }

    /// A part-filled group passes over the places behind it.
    fn foresee_flush(&self) -> Result<Answer, u32> {
        let row = self.book.row.len() as u64;
        if row > 0 && self.places() - (7 - row) < self.promised() {
            return Err(18);
        }
        Ok(Answer::wrote(self.group_write(1) + FENCE_LEN))
    }

    fn foresee_writer(&self, call: &Call) -> Result<Answer, u32> {
        let open = self.book.writers[call.writer as usize].as_ref();
        if call.kind.begins() {
            let fits = (1..=self.free_places()).contains(&call.home);
            return match open {
                Some(_) => Err(6),
                None if call.kind == Kind::Reserve && !fits => Err(17),
                None => Ok(Answer::DONE),
            };
        }
        let open = open.ok_or(7u32)?;
        let logs = match call.kind {
            Kind::Store => self.book.store_logs(call.writer, call.home),
            Kind::Commit => open.held.is_some(),
            _ => false,
        };
        if !logs {
            return Ok(Answer::DONE);
        }
        if self.promise(call.writer) == 0 && self.free_places() == 0 {
            return Err(8);
        }
        let ticket = self.next_position() + 1;
        let figure = if call.kind == Kind::Commit { ticket } else { 0 };
        Ok(Answer { code: 0, figure, len: self.group_write(6) })
    }

    fn foresee_settle(&self) -> Result<Answer, u32> {
        if self.shadow.round.is_some() {
            return Err(21);
        }
        let homes = self.touched(self.shadow.fenced).len();
        Ok(Answer::wrote(homes * HOME_WRITE_LEN + FENCE_LEN))
    }

    /// Homes of untrimmed commits below a position.
    pub fn touched(&self, position: u64) -> BTreeSet<u64> {
        let from = self.untrimmed();
        let below = self.below(position).max(from);
        let entries = self.book.commits[from..below].iter().flatten();
        entries.map(|&index| self.book.entries[index].home).collect()
    }

    /// How many commits, from the first on, lie below a position.
    pub fn below(&self, position: u64) -> usize {
        self.spans.iter().take_while(|span| span.1 < position).count()
    }

    fn foresee_trim(&self) -> Result<Answer, u32> {
        let start = self.shadow.start;
        let spans = &self.spans[self.untrimmed()..];
        let fits = |s: u64| {
            let straddled = spans.iter().any(|span| span.0 < 7 * s && 7 * s <= span.1);
            let opened = self.shadow.first.iter().flatten().any(|&first| first < 7 * s);
            !straddled && !opened
        };
        let best = (start..=self.shadow.settled / 7).rev().find(|&s| fits(s)).unwrap();
        if best > START_LIMIT {
            return Err(10);
        }
        let moves = best > start;
        Ok(Answer::wrote(if moves { HEADER_WRITE_LEN + FENCE_LEN } else { 0 }))
    }

    /// By the literal commit rule over the image; the book must agree.
    fn foresee_open(&self) -> Result<Answer, u32> {
        let log = &self.image.log;
        let start = literal::good_header(log, &self.image.data).ok_or(3u32)?;
        if start + self.shape.groups > START_LIMIT {
            return Err(10);
        }
        let list = literal::committed(&literal::present(log, self.shape.homes, start, None), start);
        let homes = literal::replay(&list).len();
        let blanks = self.shape.groups as usize * GROUP_WRITE_LEN;
        let len = homes * HOME_WRITE_LEN + HEADER_WRITE_LEN + blanks + 3 * FENCE_LEN;
        Ok(Answer { code: 0, figure: list.len() as u64, len })
    }
}
