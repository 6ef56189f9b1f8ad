//! The calls that rewrite homes or the header: format, open, settle, trim.

use crate::batch::{check_batch, Batch, FENCE_LEN, GROUP_WRITE_LEN, HEADER_WRITE_LEN, HOME_WRITE_LEN};
use crate::layout::{
    blank_slot, header, header_start, home_range, refuse, slot_range, Answer, Shape, BLOCK, HEADER, PLACES,
    START_LIMIT, STATE, WRITERS,
};
use crate::newest::{check_newest, forget};
use crate::rights::{carry_listed, sign_opened};
use crate::rounds::check_no_round;
use crate::state::{State, Writer};
use crate::walk::{trim_point, Newest, View};

pub fn format(log: &mut [u8], data: &mut [u8], batch: &mut [u8]) -> Answer {
    Answer::of(try_format(log, data, batch))
}

fn try_format(log: &mut [u8], data: &mut [u8], batch: &mut [u8]) -> Result<Answer, u32> {
    let shape = Shape::of(log.len(), data.len())?;
    let (groups, homes) = (shape.groups as usize, shape.homes as usize);
    let writes = groups * GROUP_WRITE_LEN + homes * HOME_WRITE_LEN + 2 * HEADER_WRITE_LEN;
    check_batch(batch, writes + 3 * FENCE_LEN)?;
    data.fill(0);
    let mut out = Batch::new(batch);
    out.header(&[0; HEADER]);
    out.fence();
    put_blanks(log, &mut out, shape, 0);
    for home in 0..homes {
        out.home(home, &[0; BLOCK]);
    }
    out.fence();
    put_header(log, &mut out, shape, 0);
    Ok(Answer::wrote(out.len()))
}

/// Every group blank, for a log with this start, into the log copy and the batch.
fn put_blanks(log: &mut [u8], out: &mut Batch, shape: Shape, start: u64) {
    for slot in 0..shape.groups as usize {
        blank_slot(log, shape, start, slot);
        out.group(slot, &log[slot_range(slot)]);
    }
}

/// The new header into the log copy and the batch, and a fence.
fn put_header(log: &mut [u8], out: &mut Batch, shape: Shape, start: u64) {
    let bytes = header(shape, start);
    log[..HEADER].copy_from_slice(&bytes);
    out.header(&bytes);
    out.fence();
}

/// The newest values into the data copy and the batch, homes rising, and a fence.
fn put_homes(view: &View, newest: &Newest, data: &mut [u8], out: &mut Batch) {
    newest.each(|home, offset| {
        let block = view.block(offset);
        data[home_range(home)].copy_from_slice(&block);
        out.home(home, &block);
    });
    out.fence();
}

/// Question 9.
fn check_start(start: u64) -> Result<(), u32> {
    if start <= START_LIMIT {
        Ok(())
    } else {
        Err(refuse::START)
    }
}

pub fn open(log: &mut [u8], data: &mut [u8], state: &mut [u8], newest: &mut [u8], batch: &mut [u8]) -> Answer {
    Answer::of(try_open(log, data, state, newest, batch))
}

fn try_open(
    log: &mut [u8],
    data: &mut [u8],
    bytes: &mut [u8],
    kept: &mut [u8],
    batch: &mut [u8],
) -> Result<Answer, u32> {
    let shape = Shape::of(log.len(), data.len())?;
    check_newest(shape, kept)?;
    if bytes.len() != STATE {
        return Err(refuse::LENGTHS);
    }
    let start = header_start(shape, log)?;
    let new_start = start + shape.groups;
    check_start(new_start)?;
    let view = View { log, shape, start, end: (PLACES * shape.groups) as u32 };
    let newest = Newest::gather(&view);
    let blanks = shape.groups as usize * GROUP_WRITE_LEN;
    let writes = newest.homes() * HOME_WRITE_LEN + HEADER_WRITE_LEN + blanks;
    check_batch(batch, writes + 3 * FENCE_LEN)?;
    let mut out = Batch::new(batch);
    put_homes(&view, &newest, data, &mut out);
    put_header(log, &mut out, shape, new_start);
    put_blanks(log, &mut out, shape, new_start);
    out.fence();
    State::save_fresh(bytes, shape, new_start);
    sign_opened(shape.homes, data, bytes);
    kept.fill(0xff);
    Ok(Answer { code: 0, figure: newest.commits, len: out.len() })
}

pub fn settle(log: &[u8], data: &mut [u8], state: &mut [u8], batch: &mut [u8]) -> Answer {
    Answer::of(try_settle(log, data, state, batch))
}

fn try_settle(log: &[u8], data: &mut [u8], bytes: &mut [u8], batch: &mut [u8]) -> Result<Answer, u32> {
    let mut state = State::load(log, data, bytes)?;
    check_no_round(&state)?;
    let end = (state.fenced - state.first_position()) as u32;
    let view = View { log, shape: state.shape, start: state.start, end };
    let newest = Newest::gather(&view);
    check_batch(batch, newest.homes() * HOME_WRITE_LEN + FENCE_LEN)?;
    let mut out = Batch::new(batch);
    put_homes(&view, &newest, data, &mut out);
    state.settled = state.fenced;
    state.fence();
    state.save(bytes);
    Ok(Answer::wrote(out.len()))
}

pub fn trim(log: &mut [u8], data: &[u8], state: &mut [u8], newest: &mut [u8], batch: &mut [u8]) -> Answer {
    Answer::of(try_trim(log, data, state, newest, batch))
}

fn try_trim(log: &mut [u8], data: &[u8], bytes: &mut [u8], kept: &mut [u8], batch: &mut [u8]) -> Result<Answer, u32> {
    check_newest(Shape::of(log.len(), data.len())?, kept)?;
    let mut state = State::load(log, data, bytes)?;
    let new_start = trimmed_start(log, &state, bytes);
    check_start(new_start)?;
    if new_start == state.start {
        return Ok(Answer::DONE);
    }
    check_batch(batch, HEADER_WRITE_LEN + FENCE_LEN)?;
    let mut out = Batch::new(batch);
    put_header(log, &mut out, state.shape, new_start);
    state.start = new_start;
    state.fence();
    if state.last_closing <= PLACES * new_start {
        state.last_closing = 0;
    }
    state.save(bytes);
    forget(kept, PLACES * new_start);
    carry_listed(state.shape.homes, kept, bytes);
    Ok(Answer::wrote(out.len()))
}

/// The largest start that the settled position and the open and committed
/// transactions allow.
fn trimmed_start(log: &[u8], state: &State, bytes: &[u8]) -> u64 {
    let mut limit = state.settled / PLACES;
    for writer in 0..WRITERS {
        if let Some((first, _)) = Writer::load(bytes, writer).logged() {
            limit = limit.min(first / PLACES);
        }
    }
    if limit == state.start {
        return state.start;
    }
    let view = View::live(log, state);
    state.start + u64::from(trim_point(&view, (limit - state.start) as u32))
}
