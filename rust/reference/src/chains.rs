//! Calls on one to seven homes in a row under one verdict, for what stands
//! above the store: fetch reads them, revise too and asks whether they may be
//! stored, transact begins, stores them by rising home and commits.

use crate::batch::{check_batch, GROUP_WRITE_LEN};
use crate::calls::{close, hold, show};
use crate::layout::{refuse, Answer, Shape, BLOCK, PLACES};
use crate::newest::check_newest;
use crate::rights::{newest_rights, Rights};
use crate::state::{check_writer, mode, promised, State, Writer};
use crate::walk::View;

/// One of these calls.
#[derive(Clone, Copy, Debug, PartialEq, Eq)]
pub enum Chain {
    Fetch,
    Revise,
    Transact,
}

impl Chain {
    pub const COUNT: usize = 3;
    pub const ALL: [Chain; Chain::COUNT] = [Chain::Fetch, Chain::Revise, Chain::Transact];

    pub fn name(self) -> &'static str {
        match self {
            Chain::Fetch => "fetch",
            Chain::Revise => "revise",
            Chain::Transact => "transact",
        }
    }
}

/// The homes of a call: `number` of them from `first` on, for a writer.
struct Homes {
    first: u64,
    number: u64,
    writer: u64,
}

impl Homes {
    /// Questions 1, 2, 4 and 5, the last for all homes.
    fn check(
        log: &[u8],
        data: &[u8],
        bytes: &[u8],
        newest: &[u8],
        blocks: &[u8],
        (writer, first): (u64, u64),
    ) -> Result<(State, Homes), u32> {
        check_newest(Shape::of(log.len(), data.len())?, newest)?;
        let number = (blocks.len() / BLOCK) as u64;
        if blocks.len() % BLOCK != 0 || !(1..=PLACES).contains(&number) {
            return Err(refuse::LENGTHS);
        }
        let state = State::load(log, data, bytes)?;
        check_writer(writer)?;
        let homes = state.shape.homes;
        if first > homes || number > homes - first {
            return Err(refuse::HOME);
        }
        Ok((state, Homes { first, number, writer }))
    }

    fn each(&self) -> std::ops::Range<u64> {
        self.first..self.first + self.number
    }

    fn check_store(&self, list: &Rights) -> Result<(), u32> {
        let all = self.each().all(|home| list.may_store(self.writer, home));
        if all {
            Ok(())
        } else {
            Err(refuse::STORE_RIGHT)
        }
    }

    fn check_read(&self, list: &Rights) -> Result<(), u32> {
        let all = self.each().all(|home| list.may_read(self.writer, home));
        if all {
            Ok(())
        } else {
            Err(refuse::READ_RIGHT)
        }
    }
}

pub fn fetch(
    log: &[u8],
    data: &[u8],
    state: &[u8],
    newest: &[u8],
    blocks: &mut [u8],
    writer: u64,
    home: u64,
) -> Answer {
    Answer::of(try_fetch(log, data, state, newest, blocks, (writer, home), false))
}

/// As fetch; 19 comes before 20.
pub fn revise(
    log: &[u8],
    data: &[u8],
    state: &[u8],
    newest: &[u8],
    blocks: &mut [u8],
    writer: u64,
    home: u64,
) -> Answer {
    Answer::of(try_fetch(log, data, state, newest, blocks, (writer, home), true))
}

fn try_fetch(
    log: &[u8],
    data: &[u8],
    bytes: &[u8],
    newest: &[u8],
    blocks: &mut [u8],
    who: (u64, u64),
    stores: bool,
) -> Result<Answer, u32> {
    let (state, homes) = Homes::check(log, data, bytes, newest, blocks, who)?;
    let view = View::live(log, &state);
    let list = newest_rights(&view, data, bytes, newest);
    if stores {
        homes.check_store(&list)?;
    }
    homes.check_read(&list)?;
    for (home, block) in homes.each().zip(blocks.chunks_mut(BLOCK)) {
        show(&view, data, bytes, newest, block, (homes.writer, home));
    }
    Ok(Answer::DONE)
}

#[allow(clippy::too_many_arguments)]
pub fn transact(
    log: &mut [u8],
    data: &[u8],
    state: &mut [u8],
    newest: &mut [u8],
    blocks: &[u8],
    batch: &mut [u8],
    writer: u64,
    home: u64,
) -> Answer {
    Answer::of(try_transact(log, data, state, newest, blocks, batch, (writer, home)))
}

fn try_transact(
    log: &mut [u8],
    data: &[u8],
    bytes: &mut [u8],
    newest: &mut [u8],
    blocks: &[u8],
    batch: &mut [u8],
    who: (u64, u64),
) -> Result<Answer, u32> {
    let (state, homes) = Homes::check(log, data, bytes, newest, blocks, who)?;
    homes.check_store(&newest_rights(&View::live(log, &state), data, bytes, newest))?;
    if Writer::load(bytes, homes.writer).mode != mode::IDLE {
        return Err(refuse::NOT_IDLE);
    }
    if homes.number > state.places() - promised(bytes) {
        return Err(refuse::FULL);
    }
    let groups = (state.filled + homes.number) / PLACES;
    check_batch(batch, GROUP_WRITE_LEN * groups as usize)?;
    Writer::OPEN.save(bytes, homes.writer);
    let mut len = 0;
    for (home, block) in homes.each().zip(blocks.chunks(BLOCK)) {
        let state = State::read(state.shape, bytes);
        len += hold(log, state, bytes, block, &mut batch[len..], homes.writer, home);
    }
    let state = State::read(state.shape, bytes);
    let answer = close(log, data, state, bytes, newest, &mut batch[len..], homes.writer);
    Ok(Answer { len: len + answer.len, ..answer })
}
