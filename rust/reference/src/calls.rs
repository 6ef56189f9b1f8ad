//! The calls of a writer, and those that only move the fence: begin, reserve,
//! abort, store, commit, flush, confirm, read.

use crate::batch::{check_batch, Batch, FENCE_LEN, GROUP_WRITE_LEN};
use crate::layout::{
    clear_group, group_head, home_range, put_word, refuse, set_top_bit, slot_range, top_bit, turn, Answer, Shape,
    BLOCK, PLACES,
};
use crate::newest::{check_newest, keep, position};
use crate::rights::{check_read, check_store, keep_list};
use crate::state::{check_home, check_writer, mode, pending_range, promise, promised, set_promise, State, Writer};
use crate::tag::{closing_tag, entry_tag, with_displaced};
use crate::walk::{kept_entry, newest_own, parts, View};

pub fn begin(log: &[u8], data: &[u8], state: &mut [u8], writer: u64) -> Answer {
    Answer::of(try_begin(log, data, state, writer))
}

fn try_begin(log: &[u8], data: &[u8], bytes: &mut [u8], writer: u64) -> Result<Answer, u32> {
    State::load(log, data, bytes)?;
    check_writer(writer)?;
    if Writer::load(bytes, writer).mode != mode::IDLE {
        return Err(refuse::NOT_IDLE);
    }
    Writer::OPEN.save(bytes, writer);
    Ok(Answer::DONE)
}

pub fn reserve(log: &[u8], data: &[u8], state: &mut [u8], writer: u64, places: u64) -> Answer {
    Answer::of(try_reserve(log, data, state, writer, places))
}

fn try_reserve(log: &[u8], data: &[u8], bytes: &mut [u8], writer: u64, places: u64) -> Result<Answer, u32> {
    let state = State::load(log, data, bytes)?;
    check_writer(writer)?;
    if Writer::load(bytes, writer).mode != mode::IDLE {
        return Err(refuse::NOT_IDLE);
    }
    if places == 0 || places > state.places() - promised(bytes) {
        return Err(refuse::NO_PLACES);
    }
    Writer::OPEN.save(bytes, writer);
    set_promise(bytes, writer, places);
    Ok(Answer::DONE)
}

pub fn abort(log: &[u8], data: &[u8], state: &mut [u8], writer: u64) -> Answer {
    Answer::of(try_abort(log, data, state, writer))
}

fn try_abort(log: &[u8], data: &[u8], bytes: &mut [u8], writer: u64) -> Result<Answer, u32> {
    State::load(log, data, bytes)?;
    check_writer(writer)?;
    load_open(bytes, writer)?;
    Writer::IDLE.save(bytes, writer);
    set_promise(bytes, writer, 0);
    Ok(Answer::DONE)
}

/// Question 7.
fn load_open(bytes: &[u8], writer: u64) -> Result<Writer, u32> {
    let record = Writer::load(bytes, writer);
    if record.mode == mode::IDLE {
        Err(refuse::NOT_OPEN)
    } else {
        Ok(record)
    }
}

pub fn store(
    log: &mut [u8],
    data: &[u8],
    state: &mut [u8],
    block: &[u8],
    batch: &mut [u8],
    writer: u64,
    home: u64,
) -> Answer {
    Answer::of(try_store(log, data, state, block, batch, writer, home))
}

fn try_store(
    log: &mut [u8],
    data: &[u8],
    bytes: &mut [u8],
    block: &[u8],
    batch: &mut [u8],
    writer: u64,
    home: u64,
) -> Result<Answer, u32> {
    let state = load_with_block(log, data, bytes, block)?;
    check_writer(writer)?;
    check_home(state.shape, home)?;
    check_store(&View::live(log, &state), data, bytes, writer, home)?;
    let record = load_open(bytes, writer)?;
    if record.holds() && record.home != home {
        check_room(&state, bytes, batch, writer)?;
    }
    Ok(Answer::wrote(hold(log, state, bytes, block, batch, writer, home)))
}

/// What a done store does. Gives the batch bytes written.
pub fn hold(
    log: &mut [u8],
    state: State,
    bytes: &mut [u8],
    block: &[u8],
    batch: &mut [u8],
    writer: u64,
    home: u64,
) -> usize {
    let record = Writer::load(bytes, writer);
    let mut len = 0;
    if !record.holds() {
        Writer::holding(home).save(bytes, writer);
    } else if record.home != home {
        let position = state.next_position();
        let (first, count) = record.logged().unwrap_or((position, 0));
        let tag = entry_tag(record.home, position - first);
        len = append(log, state, bytes, batch, writer, tag);
        Writer { mode: mode::LOGGING, home, first, count: count + 1 }.save(bytes, writer);
        set_promise(bytes, writer, promise(bytes, writer).saturating_sub(1));
    }
    bytes[pending_range(writer)].copy_from_slice(block);
    len
}

/// Questions 1 and 2 with a lent block.
fn load_with_block(log: &[u8], data: &[u8], bytes: &[u8], block: &[u8]) -> Result<State, u32> {
    if block.len() != BLOCK {
        return Err(refuse::LENGTHS);
    }
    State::load(log, data, bytes)
}

/// Questions 8 and 10 for a call that logs one entry: a place promised to the
/// writer is left, or one promised to nobody.
fn check_room(state: &State, bytes: &[u8], batch: &[u8], writer: u64) -> Result<(), u32> {
    if promise(bytes, writer) == 0 && state.places() <= promised(bytes) {
        return Err(refuse::FULL);
    }
    check_batch(batch, if state.filled == 6 { GROUP_WRITE_LEN } else { 0 })
}

/// Logs the writer's pending block at the next position, with the turn bit in
/// the block and the bit that it displaces in the tag; the seventh place
/// submits the group. Gives the batch bytes written.
pub(crate) fn append(
    log: &mut [u8],
    mut state: State,
    bytes: &mut [u8],
    batch: &mut [u8],
    writer: u64,
    tag: u64,
) -> usize {
    let slot = (state.next % state.shape.groups) as usize;
    let group = &mut log[slot_range(slot)];
    let turn = turn(state.shape, state.next);
    if state.filled == 0 {
        clear_group(group, turn);
        put_word(group, 0, group_head(state.next));
    }
    let place = state.filled as usize;
    let held = &bytes[pending_range(writer)];
    put_word(group, 8 + 8 * place, with_displaced(tag, top_bit(held)));
    let block = &mut group[BLOCK * (1 + place)..BLOCK * (2 + place)];
    block.copy_from_slice(held);
    set_top_bit(block, turn);
    let mut out = Batch::new(batch);
    state.filled += 1;
    if state.filled == 7 {
        out.group(slot, group);
        state.filled = 0;
        state.next += 1;
    }
    state.save(bytes);
    out.len()
}

pub fn commit(
    log: &mut [u8],
    data: &[u8],
    state: &mut [u8],
    newest: &mut [u8],
    batch: &mut [u8],
    writer: u64,
) -> Answer {
    Answer::of(try_commit(log, data, state, newest, batch, writer))
}

fn try_commit(
    log: &mut [u8],
    data: &[u8],
    bytes: &mut [u8],
    newest: &mut [u8],
    batch: &mut [u8],
    writer: u64,
) -> Result<Answer, u32> {
    check_newest(Shape::of(log.len(), data.len())?, newest)?;
    let state = State::load(log, data, bytes)?;
    check_writer(writer)?;
    if load_open(bytes, writer)?.holds() {
        check_room(&state, bytes, batch, writer)?;
    }
    Ok(close(log, data, state, bytes, newest, batch, writer))
}

/// What a done commit does.
pub fn close(
    log: &mut [u8],
    data: &[u8],
    mut state: State,
    bytes: &mut [u8],
    newest: &mut [u8],
    batch: &mut [u8],
    writer: u64,
) -> Answer {
    let record = Writer::load(bytes, writer);
    let mut answer = Answer::DONE;
    if record.holds() {
        let position = state.next_position();
        let (first, count) = record.logged().unwrap_or((position, 0));
        let linked = state.last_closing > state.first_position();
        let link = if linked { position + 1 - state.last_closing } else { 0 };
        let tag = closing_tag(record.home, position - first, link, count + 1);
        state.last_closing = position + 1;
        answer.figure = position + 1;
        answer.len = append(log, state, bytes, batch, writer, tag);
        let view = up_to(log, &state, position);
        keep_entries(&view, first, newest);
        keep_list(&view, data, newest, bytes);
    }
    Writer::IDLE.save(bytes, writer);
    set_promise(bytes, writer, 0);
    answer
}

/// The log up to an entry that was logged at the next position.
fn up_to<'a>(log: &'a [u8], state: &State, closing: u64) -> View<'a> {
    let end = (closing + 1 - state.first_position()) as u32;
    View { log, shape: state.shape, start: state.start, end }
}

/// The position of each entry of the transaction that begins at `first` and
/// ends the view, the later ones over the earlier.
fn keep_entries(view: &View, first: u64, newest: &mut [u8]) {
    let base = PLACES * view.start;
    view.each_from((first - base) as u32, |offset, tag| {
        let (home, begun) = parts(tag);
        if base + u64::from(begun) == first {
            keep(newest, u64::from(home), base + u64::from(offset));
        }
    });
}

pub fn flush(log: &[u8], data: &[u8], state: &mut [u8], batch: &mut [u8]) -> Answer {
    Answer::of(try_flush(log, data, state, batch))
}

fn try_flush(log: &[u8], data: &[u8], bytes: &mut [u8], batch: &mut [u8]) -> Result<Answer, u32> {
    let mut state = State::load(log, data, bytes)?;
    let part = state.filled > 0;
    if part && state.places() - (7 - state.filled) < promised(bytes) {
        return Err(refuse::PROMISED);
    }
    check_batch(batch, if part { GROUP_WRITE_LEN + FENCE_LEN } else { FENCE_LEN })?;
    let mut out = Batch::new(batch);
    if part {
        let slot = (state.next % state.shape.groups) as usize;
        out.group(slot, &log[slot_range(slot)]);
        state.filled = 0;
        state.next += 1;
    }
    out.fence();
    state.fence();
    state.save(bytes);
    Ok(Answer::wrote(out.len()))
}

pub fn confirm(log: &[u8], data: &[u8], state: &mut [u8]) -> Answer {
    Answer::of(try_confirm(log, data, state))
}

fn try_confirm(log: &[u8], data: &[u8], bytes: &mut [u8]) -> Result<Answer, u32> {
    let mut state = State::load(log, data, bytes)?;
    state.durable = state.fenced;
    state.save(bytes);
    Ok(Answer { code: 0, figure: state.durable, len: 0 })
}

pub fn read(log: &[u8], data: &[u8], state: &[u8], newest: &[u8], block: &mut [u8], writer: u64, home: u64) -> Answer {
    Answer::of(try_read(log, data, state, newest, block, writer, home))
}

fn try_read(
    log: &[u8],
    data: &[u8],
    bytes: &[u8],
    newest: &[u8],
    block: &mut [u8],
    writer: u64,
    home: u64,
) -> Result<Answer, u32> {
    check_newest(Shape::of(log.len(), data.len())?, newest)?;
    let state = load_with_block(log, data, bytes, block)?;
    check_writer(writer)?;
    check_home(state.shape, home)?;
    let view = View::live(log, &state);
    check_read(&view, data, bytes, newest, writer, home)?;
    show(&view, data, bytes, newest, block, (writer, home));
    Ok(Answer::DONE)
}

/// What a done read does: the writer's held block, else its newest own, else
/// the one at the kept position, else the data copy's.
pub fn show(view: &View, data: &[u8], bytes: &[u8], newest: &[u8], block: &mut [u8], (writer, home): (u64, u64)) {
    let record = Writer::load(bytes, writer);
    if record.holds() && record.home == home {
        return block.copy_from_slice(&bytes[pending_range(writer)]);
    }
    let own = record.logged().map(|(first, _)| (first - 7 * view.start) as u32);
    let own = own.and_then(|first| newest_own(view, home as u32, first));
    let found = own.or_else(|| kept_entry(view, home, position(newest, home)));
    match found {
        Some(offset) => block.copy_from_slice(&view.block(offset)),
        None => block.copy_from_slice(&data[home_range(home as usize)]),
    }
}
