//! The plain model of the other calls: format, begin, reserve, abort, store,
//! commit, flush, confirm. Tags are put together by sums, not by shifts.

use super::{blank_writes, head_write, keep, mode_of, number, places, promise, promised, put, shape, Outcome};
use reference::lent::{Kind, Lent};

pub fn format(before: &Lent, after: &mut Lent) -> Outcome {
    let shape = shape(before);
    after.data.fill(0);
    let mut batch = vec![0x4b, 0x57];
    batch.extend([0; 64]);
    batch.extend([0x46, 0x4e]);
    blank_writes(shape, 0, after, &mut batch);
    for home in 0..shape.homes {
        batch.extend([0x48, 0x57, home as u8, (home >> 8) as u8]);
        batch.extend([0; 64]);
    }
    batch.extend([0x46, 0x4e]);
    head_write(shape, 0, after, &mut batch);
    Ok((0, batch))
}

/// Home, first position and the entries logged after the first.
fn put_record(after: &mut Lent, writer: u64, mode: u8, numbers: [u64; 3]) {
    after.state[104 + writer as usize] = mode;
    for (index, value) in numbers.into_iter().enumerate() {
        put(&mut after.state, 128 + 24 * writer as usize + 8 * index, value);
    }
}

fn put_promise(after: &mut Lent, writer: u64, places: u64) {
    let at = 72 + 2 * writer as usize;
    after.state[at] = places as u8;
    after.state[at + 1] = (places >> 8) as u8;
}

pub fn writer_call(kind: Kind, writer: u64, home: u64, before: &Lent, after: &mut Lent) -> Outcome {
    let record = 128 + 24 * writer as usize;
    let mode = mode_of(&before.state, writer as usize);
    let [held, first, more] = [0, 8, 16].map(|at| number(&before.state, record + at));
    match kind {
        Kind::Begin | Kind::Reserve if mode != 0 => return Err(6),
        Kind::Reserve => {
            let free = places(&before.state) - promised(&before.state);
            if home == 0 || i128::from(home) > free {
                return Err(17);
            }
            put_record(after, writer, 1, [0; 3]);
            put_promise(after, writer, home);
        }
        Kind::Begin => put_record(after, writer, 1, [0; 3]),
        _ if mode == 0 => return Err(7),
        Kind::Abort => end(after, writer),
        Kind::Commit if mode == 1 => end(after, writer),
        Kind::Commit => {
            let (position, batch) = log_held(writer, true, before, after)?;
            put(&mut after.state, 64, position + 1);
            keep(after, number(&before.state, 16), if mode == 3 { first } else { position }, position);
            end(after, writer);
            return Ok((position + 1, batch));
        }
        _ => {
            let block = before.block.clone();
            let mut batch = Vec::new();
            if mode == 1 {
                put_record(after, writer, 2, [home, 0, 0]);
            } else if held != home {
                let (position, bytes) = log_held(writer, false, before, after)?;
                batch = bytes;
                let logged = if mode == 3 { [first, more + 1] } else { [position, 0] };
                put_record(after, writer, 3, [home, logged[0], logged[1]]);
                let left = (promise(&before.state, writer as usize) - 1).max(0);
                put_promise(after, writer, left as u64);
            }
            let block_at = 320 + 64 * writer as usize;
            after.state[block_at..block_at + 64].copy_from_slice(&block);
            return Ok((0, batch));
        }
    }
    Ok((0, Vec::new()))
}

/// The writer is idle, and nothing is promised to it.
fn end(after: &mut Lent, writer: u64) {
    put_record(after, writer, 0, [0; 3]);
    put_promise(after, writer, 0);
}

/// Logs the held block; gives its position and the batch.
fn log_held(writer: u64, closing: bool, before: &Lent, after: &mut Lent) -> Outcome {
    let state = &before.state;
    let (record, held) = (128 + 24 * writer as usize, 320 + 64 * writer as usize);
    let groups = shape(before).groups;
    let (start, next, filled, last) = (number(state, 16), number(state, 24), number(state, 32), number(state, 64));
    if promise(state, writer as usize) == 0 && places(state) <= promised(state) {
        return Err(8);
    }
    let position = 7 * next + filled;
    let logging = mode_of(state, writer as usize) == 3;
    let first = if logging { number(state, record + 8) } else { position };
    let mut tag = 1 + 4 * number(state, record) + (1 << 14) * (position - first);
    if closing {
        let link = if last <= 7 * start { 0 } else { position - (last - 1) };
        let count = 1 + if logging { number(state, record + 16) + 1 } else { 0 };
        tag += 2 + (1 << 27) * link + (1 << 40) * count;
    }
    let from = 64 + 512 * (next % groups) as usize;
    let group = &mut after.log[from..from + 512];
    let turn = (next / groups % 2) as u8;
    if filled == 0 {
        group.fill(0);
        put(group, 0, next * 65536 + 0x4750);
        for k in 0..7 {
            group[127 + 64 * k] = 128 * turn;
        }
    }
    let place = filled as usize;
    let last = state[held + 63];
    put(group, 8 + 8 * place, tag + (1 << 57) * u64::from(last / 128));
    group[64 + 64 * place..128 + 64 * place].copy_from_slice(&state[held..held + 64]);
    group[127 + 64 * place] = last % 128 + 128 * turn;
    let mut batch = Vec::new();
    put(&mut after.state, 32, filled + 1);
    if filled == 6 {
        hand_on(next, groups, after, &mut batch);
    }
    Ok((position, batch))
}

fn hand_on(next: u64, groups: u64, after: &mut Lent, batch: &mut Vec<u8>) {
    let place = next % groups;
    let from = 64 + 512 * place as usize;
    batch.extend([0x47, 0x57, place as u8, (place >> 8) as u8]);
    batch.extend(&after.log[from..from + 512]);
    put(&mut after.state, 24, next + 1);
    put(&mut after.state, 32, 0);
}

pub fn flush(before: &Lent, after: &mut Lent) -> Outcome {
    let mut batch = Vec::new();
    if number(&before.state, 32) > 0 {
        let left = 7 * (number(&before.state, 16) + shape(before).groups) - 7 * (number(&before.state, 24) + 1);
        if i128::from(left) < promised(&before.state) {
            return Err(18);
        }
        hand_on(number(&before.state, 24), shape(before).groups, after, &mut batch);
    }
    batch.extend([0x46, 0x4e]);
    let fenced = 7 * number(&after.state, 24);
    put(&mut after.state, 48, fenced);
    Ok((0, batch))
}

pub fn confirm(before: &Lent, after: &mut Lent) -> Outcome {
    let fenced = number(&before.state, 48);
    put(&mut after.state, 56, fenced);
    Ok((fenced, Vec::new()))
}
