//! What must hold after a call: demands 2 and 3, and the state in order.
//! Clauses: [S-4, S-6, S-51, S-53, S-54, S-55, S-56]

use crate::literal;
use crate::world::{Call, Odd, World};
use reference::layout::{word, Answer};
use reference::lent::Kind;
use reference::newest::{position, NONE};
use reference::rights::has_room;
use reference::state::{at, mode, pending_range, promise, State, Writer};
use reference::usage::{usage, Usage};
use std::collections::BTreeMap;

pub fn must(holds: bool, what: &str) -> Result<(), String> {
    if holds {
        Ok(())
    } else {
        Err(what.to_string())
    }
}

impl World {
    /// Performs a call and checks all that the paper says of it. `deep` asks
    /// for the checks that look at whole areas.
    pub fn perform(&mut self, call: &Call, deep: bool) -> Result<Answer, String> {
        self.calls += 1;
        if call.kind == Kind::Open {
            self.load();
        }
        self.lent.block = call.block.to_vec();
        self.lent.batch = vec![0xcc; call.batch_len];
        let expected = self.expected(call);
        if call.odd.is_some() || (deep && expected.code != 0) {
            return self.perform_refused(call, expected);
        }
        self.foresee_round(call, expected)?;
        let answer = (self.runner)(&mut self.lent, call.kind, call.writer, call.home);
        must(answer == expected, &format!("answer {answer:?}, expected {expected:?}"))?;
        must(self.lent.batch[answer.len..].iter().all(|&b| b == 0xcc), "batch past its length")?;
        if answer.code == 0 {
            self.check_done(call, answer, deep)?;
        }
        Ok(answer)
    }

    /// A refused call gives the number and changes no lent byte.
    fn perform_refused(&mut self, call: &Call, expected: Answer) -> Result<Answer, String> {
        let mut lent = self.lent.clone();
        if let Some(odd) = call.odd {
            cut_to_odd(&mut lent, odd);
        }
        let before = lent.clone();
        let answer = (self.runner)(&mut lent, call.kind, call.writer, call.home);
        must(answer == expected, &format!("answer {answer:?}, expected {expected:?}"))?;
        must(lent == before, "a refused call changed something")?;
        Ok(answer)
    }

    fn check_done(&mut self, call: &Call, answer: Answer, deep: bool) -> Result<(), String> {
        let below_fence = self.below(self.shadow.fenced);
        let header_before = literal::header_start(&self.image.log);
        let records = self.submit(answer.len)?;
        self.follow(call, answer, &records);
        self.check_state()?;
        match call.kind {
            Kind::Read => {
                let want = self.book.read(call.writer, call.home);
                must(self.lent.block == want, "read")?;
            }
            Kind::Open => self.check_open(answer, header_before)?,
            Kind::Settle => {
                let want = self.book.homes_after(below_fence, self.shape.homes);
                must(self.lent.data == want, "settle: data copy")?;
            }
            Kind::StepRound => self.check_step()?,
            _ => {}
        }
        if call.kind != Kind::Read {
            must(self.lent.block == call.block, "block changed")?;
        }
        if deep {
            self.check_areas()
        } else {
            Ok(())
        }
    }

    /// Demand 3, and that the count is of the untrimmed commits.
    fn check_open(&self, answer: Answer, start: u64) -> Result<(), String> {
        let run = self.book.commits.len();
        let want = self.book.homes_after(run, self.shape.homes);
        must(self.lent.data == want, "open: data copy is not the homes after the run")?;
        let back = self.spans.iter().filter(|span| span.1 >= 7 * start).count();
        must(answer.figure == back as u64, "open: number brought back")?;
        must(self.shadow.start == start + self.shape.groups, "open: new start")
    }

    /// The state's fields by the shadow and the book.
    pub(crate) fn check_state(&self) -> Result<(), String> {
        let bytes = &self.lent.state;
        let state = State::load(&self.lent.log, &self.lent.data, bytes)
            .map_err(|code| format!("state not in order: {code}"))?;
        let last = self.spans[self.brought..].last().map_or(0, |span| span.1 + 1);
        let want = State {
            shape: self.shape,
            start: self.shadow.start,
            next: self.shadow.next,
            filled: self.book.row.len() as u64,
            settled: self.shadow.settled,
            fenced: self.shadow.fenced,
            durable: self.shadow.durable,
            last_closing: if last > 7 * self.shadow.start { last } else { 0 },
            round: self.shadow.round.as_ref().map_or(0, |round| round.fixed + 1),
            cursor: self.shadow.round.as_ref().map_or(0, |round| round.cursor),
        };
        must(state == want, &format!("state {state:?}, expected {want:?}"))?;
        must(bytes[at::LISTED..at::LISTED_END] == self.listed(), "positions of the list in the state")?;
        must(self.sign_fits(word(bytes, at::SIGN)), "sign of the list in the state")?;
        (0..8).try_for_each(|writer| self.check_writer(writer))?;
        self.check_usage()
    }

    /// What fills the log, counted by the book.
    fn check_usage(&self) -> Result<(), String> {
        let untrimmed = &self.book.commits[self.untrimmed().max(self.brought)..];
        let open = self.book.writers.iter().flatten().map(|open| open.logged.len());
        let live = untrimmed.iter().map(Vec::len).chain(open).sum::<usize>() as u64;
        let places = 7 * self.shape.groups;
        let used = self.next_position() - 7 * self.shadow.start;
        let firsts = (0..8).filter_map(|writer| self.shadow.first[writer as usize].map(|first| (first, writer)));
        let (first, holder) = firsts.min().unwrap_or((0, 8));
        let promised = (0..8).map(|writer| self.promise(writer)).sum();
        let want = Usage { code: 0, live, dead: used - live, free: places - used, promised, holder, first };
        let got = usage(&self.lent.log, &self.lent.data, &self.lent.state);
        must(got == want, &format!("usage {got:?}, by the book {want:?}"))
    }

    /// The newest positions of the list's homes, none where D is too small for it.
    fn listed(&self) -> [u8; 32] {
        let mut listed = [0xff; 32];
        if has_room(self.shape.homes) {
            listed.copy_from_slice(&self.lent.newest[64..96]);
        }
        listed
    }

    /// The sign is that of the list which the book has, 0 where D is too small for one.
    fn sign_fits(&self, sign: u64) -> bool {
        match sign {
            0 => !has_room(self.shape.homes),
            1 => has_room(self.shape.homes) && !self.list().is_there(),
            2 => self.list().is_there(),
            _ => false,
        }
    }

    fn check_writer(&self, writer: u64) -> Result<(), String> {
        let record = Writer::load(&self.lent.state, writer);
        let mut want = Writer::IDLE;
        if let Some(open) = &self.book.writers[writer as usize] {
            want.mode = mode::OPEN;
            if let Some((home, block)) = open.held {
                want.mode = mode::HOLDING;
                want.home = home;
                must(self.lent.state[pending_range(writer)] == block, "pending block")?;
            }
            if let Some(first) = self.shadow.first[writer as usize] {
                want.mode = mode::LOGGING;
                want.first = first;
                want.count = open.logged.len() as u64;
            }
        }
        must(record == want, &format!("writer {writer}: {record:?}, expected {want:?}"))?;
        must(promise(&self.lent.state, writer) == self.promise(writer), "promise")
    }

    /// Demand 2 over the whole copies.
    pub(crate) fn check_areas(&mut self) -> Result<(), String> {
        must(self.lent.data == self.full.data, "data copy and submitted writes differ")?;
        if self.book.row.is_empty() {
            must(self.lent.log == self.full.log, "log copy and submitted writes differ")?;
        }
        self.check_homes()?;
        let start = self.shadow.start;
        must(word(&self.lent.log, 0) >> 16 == start, "start in the log copy")?;
        let next = self.next_position();
        for next in [Some(next), None] {
            let present = literal::present(&self.lent.log, self.shape.homes, start, next);
            let committed = literal::committed(&present, start);
            self.check_commits(&committed)?;
            self.check_newest(&present, &committed)?;
        }
        if self.shape.homes <= 13 {
            for at in 0..8 * self.shape.homes {
                self.check_read(at / self.shape.homes, at % self.shape.homes)?;
            }
        }
        Ok(())
    }

    /// The kept positions are those of the newest committed entries.
    fn check_newest(
        &self,
        present: &BTreeMap<i128, literal::Found>,
        committed: &[literal::Transaction],
    ) -> Result<(), String> {
        let mut want = vec![NONE; self.shape.homes as usize];
        for transaction in committed {
            for (&position, entry) in present.range(transaction.first..=transaction.closing) {
                if entry.first == transaction.first {
                    want[entry.home as usize] = position as u64;
                }
            }
        }
        let kept = |home: usize| position(&self.lent.newest, home as u64);
        must((0..want.len()).all(|home| kept(home) == want[home]), "newest positions")
    }

    /// What the log reads back as: the committed, untrimmed transactions.
    fn check_commits(&self, list: &[literal::Transaction]) -> Result<(), String> {
        let from = self.untrimmed().max(self.brought);
        must(list.len() == self.spans.len() - from, "number of committed in the log copy")?;
        for (index, transaction) in list.iter().enumerate() {
            let entries = self.book.commits[from + index].iter().map(|&i| &self.book.entries[i]);
            let want: Vec<(u64, Vec<u8>)> = entries.map(|e| (e.home, e.block.to_vec())).collect();
            must(transaction.entries == want, "entries of a committed transaction")?;
            let span = (transaction.first as u64, transaction.closing as u64);
            must(span == self.spans[from + index], "place of a committed transaction")?;
        }
        Ok(())
    }

    fn check_read(&mut self, writer: u64, home: u64) -> Result<(), String> {
        self.lent.block.fill(0xaa);
        let answer = (self.runner)(&mut self.lent, Kind::Read, writer, home);
        if !self.may_read(writer, home) {
            must(answer.code == 20 && self.lent.block == [0xaa; 64], "read without the right")?;
            return Ok(());
        }
        must(answer == Answer::DONE, "read refused")?;
        must(self.lent.block == self.book.read(writer, home), "read differs from the book")
    }
}

pub(crate) fn cut_to_odd(lent: &mut reference::lent::Lent, odd: Odd) {
    match odd {
        Odd::Log(len) => lent.log.resize(len, 0),
        Odd::Data(len) => lent.data.resize(len, 0),
        Odd::State(len) => lent.state.resize(len, 0),
        Odd::Newest(len) => lent.newest.resize(len, 0),
        Odd::Block(len) => lent.block.resize(len, 0),
    }
}
