//! Settling in small steps: a round fixes the F that it covers and goes on by
//! some homes a step; its last step fences and raises the settled position.

use crate::batch::{check_batch, Batch, FENCE_LEN, HOME_WRITE_LEN};
use crate::layout::{home_range, refuse, Answer};
use crate::state::State;
use crate::walk::{Newest, View};

/// Question 21 for a begin and a plain settle.
pub fn check_no_round(state: &State) -> Result<(), u32> {
    if state.round == 0 {
        Ok(())
    } else {
        Err(refuse::ROUND)
    }
}

pub fn begin_round(log: &[u8], data: &[u8], state: &mut [u8]) -> Answer {
    Answer::of(try_begin_round(log, data, state))
}

fn try_begin_round(log: &[u8], data: &[u8], bytes: &mut [u8]) -> Result<Answer, u32> {
    let mut state = State::load(log, data, bytes)?;
    check_no_round(&state)?;
    state.round = state.fenced + 1;
    state.cursor = 0;
    state.save(bytes);
    Ok(Answer::DONE)
}

pub fn step_round(log: &[u8], data: &mut [u8], state: &mut [u8], batch: &mut [u8], homes: u64) -> Answer {
    Answer::of(try_step_round(log, data, state, batch, homes))
}

fn try_step_round(log: &[u8], data: &mut [u8], bytes: &mut [u8], batch: &mut [u8], homes: u64) -> Result<Answer, u32> {
    let mut state = State::load(log, data, bytes)?;
    if state.round == 0 || homes == 0 {
        return Err(refuse::ROUND);
    }
    let fixed = state.round - 1;
    let end = (fixed - state.first_position()) as u32;
    let view = View { log, shape: state.shape, start: state.start, end };
    let due = due_from(&view, state.cursor);
    let last = due.len() as u64 <= homes;
    let now = &due[..due.len().min(homes as usize)];
    check_batch(batch, now.len() * HOME_WRITE_LEN + if last { FENCE_LEN } else { 0 })?;
    let mut out = Batch::new(batch);
    for &(home, offset) in now {
        let block = view.block(offset);
        data[home_range(home)].copy_from_slice(&block);
        out.home(home, &block);
        state.cursor = home as u64 + 1;
    }
    if last {
        out.fence();
        state.settled = fixed;
        state.fence();
        state.round = 0;
        state.cursor = 0;
    }
    state.save(bytes);
    Ok(Answer::wrote(out.len()))
}

/// The touched homes from the cursor on, each with the offset of its value.
fn due_from(view: &View, cursor: u64) -> Vec<(usize, u32)> {
    let mut due = Vec::new();
    Newest::gather(view).each(|home, offset| {
        if home as u64 >= cursor {
            due.push((home, offset));
        }
    });
    due
}
