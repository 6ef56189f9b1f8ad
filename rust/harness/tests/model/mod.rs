//! A plain model of the calls: here those that read groups, over the literal
//! commit rule (open, settle, rounds, trim, read); the others in `writers`, the
//! list of rights in `rights`, calls on several homes in `chains`. It gives the
//! answer and all lent memory after it.

#![allow(dead_code)]

pub mod chains;
mod rights;
mod writers;

use harness::literal::{committed, good_header, present, replay, trim_start, Transaction};
use reference::layout::{header, Shape};
use reference::lent::{Kind, Lent};
use reference::usage::Usage;
use reference::Answer;
use std::collections::BTreeMap;

/// Figure and batch, or the refusal.
type Outcome = Result<(u64, Vec<u8>), u32>;
type Values = BTreeMap<u64, Vec<u8>>;

fn number(bytes: &[u8], at: usize) -> u64 {
    u64::from_le_bytes(bytes[at..at + 8].try_into().unwrap())
}

fn big(bytes: &[u8], at: usize) -> i128 {
    i128::from(number(bytes, at))
}

fn put(bytes: &mut [u8], at: usize, value: u64) {
    bytes[at..at + 8].copy_from_slice(&value.to_le_bytes());
}

/// Question 1.
fn lengths(kind: Kind, lent: &Lent) -> bool {
    let log = (4..=1024).any(|g| lent.log.len() == 64 + 512 * g);
    let data = lent.data.len() % 64 == 0 && (1..=65535).contains(&(lent.data.len() / 64));
    let state = !kind.takes_state() || lent.state.len() == 1024;
    let newest = !kind.takes_newest() || lent.newest.len() == lent.data.len() / 8;
    let block = !kind.takes_block() || lent.block.len() == 64;
    log && data && state && newest && block
}

/// A writer's mode, one byte each from byte 104 on.
fn mode_of(state: &[u8], writer: usize) -> u8 {
    state[104 + writer]
}

/// The places promised to a writer, two bytes each from byte 72 on.
fn promise(state: &[u8], writer: usize) -> i128 {
    i128::from(state[72 + 2 * writer]) + 256 * i128::from(state[73 + 2 * writer])
}

fn promised(state: &[u8]) -> i128 {
    (0..8).map(|writer| promise(state, writer)).sum()
}

/// The places from the next position on.
fn places(state: &[u8]) -> i128 {
    7 * (big(state, 16) + big(state, 0)) - (7 * big(state, 24) + big(state, 32))
}

/// What fills the log, by the literal rule.
pub fn usage(lent: &Lent) -> Usage {
    let refused = |code| Usage { code, ..Usage::default() };
    if !lengths(Kind::Confirm, lent) {
        return refused(1);
    }
    if !in_order(lent) {
        return refused(2);
    }
    let s = &lent.state;
    let (start, homes) = (number(s, 16), lent.data.len() as u64 / 64);
    let next = 7 * number(s, 24) + number(s, 32);
    let list = committed(&present(&lent.log, homes, start, Some(next)), start);
    let mut live: u64 = list.iter().map(|transaction| transaction.entries.len() as u64).sum();
    let (mut holder, mut first) = (8, 0);
    for writer in (0..8).filter(|&writer| mode_of(s, writer) == 3) {
        let (from, count) = (number(s, 136 + 24 * writer), number(s, 144 + 24 * writer) + 1);
        live += count;
        if holder == 8 || from < first {
            (holder, first) = (writer as u64, from);
        }
    }
    let free = places(s) as u64;
    let dead = (next - 7 * start).saturating_sub(live);
    Usage { code: 0, live, dead, free, promised: promised(s) as u64, holder, first }
}

/// Question 2, in signed numbers that cannot wrap.
pub fn in_order(lent: &Lent) -> bool {
    let s = &lent.state;
    let (g, d) = ((lent.log.len() as i128 - 64) / 512, lent.data.len() as i128 / 64);
    let (start, next, filled) = (big(s, 16), big(s, 24), big(s, 32));
    let (settled, fenced, durable) = (big(s, 40), big(s, 48), big(s, 56));
    let (last, round) = (big(s, 64) - 1, big(s, 88) - 1);
    let position = 7 * next + filled;
    let writer = |w: usize| {
        let r = 128 + 24 * w;
        let (mode, home, first, count) = (mode_of(s, w), big(s, r), big(s, r + 8), big(s, r + 16) + 1);
        let holds = mode == 2 || mode == 3;
        let in_range = 7 * start <= first && first < position;
        mode <= 3
            && (mode > 0 || promise(s, w) == 0)
            && (!holds || home < d)
            && (mode != 3 || (in_range && 1 <= count && count <= position - first))
    };
    big(s, 0) == g
        && big(s, 8) == d
        && start <= 1 << 47
        && start <= next
        && next <= start + g
        && filled <= 6
        && (next != start + g || filled == 0)
        && 7 * start <= settled
        && settled <= fenced
        && fenced <= 7 * next
        && durable <= fenced
        && (last < 7 * start || last < position)
        && (round == -1 || (settled <= round && round <= fenced))
        && (0..8).all(writer)
        && promised(s) <= places(s)
}

pub fn run(kind: Kind, writer: u64, home: u64, before: &Lent) -> (Answer, Lent) {
    let mut after = before.clone();
    match attempt(kind, writer, home, before, &mut after) {
        Ok((figure, batch)) if batch.len() <= before.batch.len() => {
            after.batch[..batch.len()].copy_from_slice(&batch);
            (Answer { code: 0, figure, len: batch.len() }, after)
        }
        Ok(_) => (Answer { code: 9, figure: 0, len: 0 }, before.clone()),
        Err(code) => (Answer { code, figure: 0, len: 0 }, before.clone()),
    }
}

/// The outcome with a batch that suffices.
fn attempt(kind: Kind, writer: u64, home: u64, before: &Lent, after: &mut Lent) -> Outcome {
    if !lengths(kind, before) {
        return Err(1);
    }
    if !matches!(kind, Kind::Open | Kind::Format) && !in_order(before) {
        return Err(2);
    }
    if kind.takes_writer() && writer > 7 {
        return Err(4);
    }
    if kind.takes_home() && home >= before.data.len() as u64 / 64 {
        return Err(5);
    }
    if kind == Kind::Store && !rights::may_store(before, writer, home) {
        return Err(19);
    }
    if kind == Kind::Read && !rights::may_read(before, writer, home) {
        return Err(20);
    }
    match kind {
        Kind::Format => writers::format(before, after),
        Kind::Open => open(before, after),
        Kind::Settle => settle(before, after),
        Kind::BeginRound => begin_round(before, after),
        Kind::StepRound => step_round(home, before, after),
        Kind::Trim => trim(before, after),
        Kind::Read => read(before, after, writer, home),
        Kind::Flush => writers::flush(before, after),
        Kind::Confirm => writers::confirm(before, after),
        _ => writers::writer_call(kind, writer, home, before, after),
    }
}

fn shape(lent: &Lent) -> Shape {
    Shape { groups: (lent.log.len() as u64 - 64) / 512, homes: lent.data.len() as u64 / 64 }
}

fn home_writes(values: &Values, after: &mut Lent, batch: &mut Vec<u8>) {
    for (home, block) in values {
        batch.extend([0x48, 0x57, *home as u8, (home >> 8) as u8]);
        batch.extend(block);
        after.data[64 * *home as usize..64 * *home as usize + 64].copy_from_slice(block);
    }
}

fn head_write(shape: Shape, start: u64, after: &mut Lent, batch: &mut Vec<u8>) {
    let bytes = header(shape, start);
    after.log[..64].copy_from_slice(&bytes);
    batch.extend([0x4b, 0x57]);
    batch.extend(bytes);
    batch.extend([0x46, 0x4e]);
}

/// GW of every group, by rising ring place: zeros, but for turn bits opposite
/// to the turn of the group that comes there next.
fn blank_writes(shape: Shape, start: u64, after: &mut Lent, batch: &mut Vec<u8>) {
    for place in 0..shape.groups {
        let next = (start..).find(|number| number % shape.groups == place).unwrap();
        let turn = (next / shape.groups) % 2;
        let from = 64 + 512 * place as usize;
        after.log[from..from + 512].fill(0);
        for k in 0..7 {
            after.log[from + 127 + 64 * k] = 128 * (1 - turn as u8);
        }
        batch.extend([0x47, 0x57, place as u8, (place >> 8) as u8]);
        batch.extend(&after.log[from..from + 512]);
    }
}

fn open(before: &Lent, after: &mut Lent) -> Outcome {
    let shape = shape(before);
    let start = good_header(&before.log, &before.data).ok_or(3u32)?;
    let new_start = start + shape.groups;
    if new_start > 1 << 47 {
        return Err(10);
    }
    let list = committed(&present(&before.log, shape.homes, start, None), start);
    let mut batch = Vec::new();
    home_writes(&replay(&list), after, &mut batch);
    batch.extend([0x46, 0x4e]);
    head_write(shape, new_start, after, &mut batch);
    blank_writes(shape, new_start, after, &mut batch);
    batch.extend([0x46, 0x4e]);
    after.state = vec![0; 1024];
    for (at, value) in [(0, shape.groups), (8, shape.homes), (16, new_start), (24, new_start)] {
        put(&mut after.state, at, value);
    }
    for at in [40, 48, 56] {
        put(&mut after.state, at, 7 * new_start);
    }
    after.state[896..928].fill(255);
    if shape.homes >= 12 {
        put(&mut after.state, 928, if after.data[512..768] == [0; 256] { 1 } else { 2 });
    }
    after.newest.fill(255);
    Ok((list.len() as u64, batch))
}

/// Start, next position and the committed transactions below it.
fn live(before: &Lent) -> (u64, u64, Vec<Transaction>) {
    let start = number(&before.state, 16);
    let next = 7 * number(&before.state, 24) + number(&before.state, 32);
    let homes = shape(before).homes;
    (start, next, committed(&present(&before.log, homes, start, Some(next)), start))
}

/// The values of the committed transactions that close below a position.
fn values_below(before: &Lent, position: u64) -> Values {
    let (_, _, mut list) = live(before);
    list.retain(|transaction| transaction.closing < i128::from(position));
    replay(&list)
}

fn settle(before: &Lent, after: &mut Lent) -> Outcome {
    let fenced = number(&before.state, 48);
    if number(&before.state, 88) != 0 {
        return Err(21);
    }
    let mut batch = Vec::new();
    home_writes(&values_below(before, fenced), after, &mut batch);
    batch.extend([0x46, 0x4e]);
    put(&mut after.state, 40, fenced);
    put(&mut after.state, 48, 7 * number(&before.state, 24));
    Ok((0, batch))
}

fn begin_round(before: &Lent, after: &mut Lent) -> Outcome {
    if number(&before.state, 88) != 0 {
        return Err(21);
    }
    put(&mut after.state, 88, number(&before.state, 48) + 1);
    put(&mut after.state, 96, 0);
    Ok((0, Vec::new()))
}

fn step_round(k: u64, before: &Lent, after: &mut Lent) -> Outcome {
    let (round, cursor) = (number(&before.state, 88), number(&before.state, 96));
    if round == 0 || k == 0 {
        return Err(21);
    }
    let mut values = values_below(before, round - 1);
    values.retain(|home, _| *home >= cursor);
    let last = values.len() as u64 <= k;
    let now: Values = values.into_iter().take(k as usize).collect();
    let mut batch = Vec::new();
    home_writes(&now, after, &mut batch);
    if last {
        batch.extend([0x46, 0x4e]);
        for (at, value) in [(40, round - 1), (48, 7 * number(&before.state, 24)), (88, 0), (96, 0)] {
            put(&mut after.state, at, value);
        }
    } else {
        put(&mut after.state, 96, now.keys().last().unwrap() + 1);
    }
    Ok((0, batch))
}

fn trim(before: &Lent, after: &mut Lent) -> Outcome {
    let (start, _, list) = live(before);
    let state = &before.state;
    let logging = (0..8).filter(|&writer| mode_of(state, writer) == 3);
    let firsts: Vec<u64> = logging.map(|writer| number(state, 136 + 24 * writer)).collect();
    let new_start = trim_start(&list, start, number(state, 40), &firsts);
    if new_start > 1 << 47 {
        return Err(10);
    }
    let mut batch = Vec::new();
    if new_start > start {
        head_write(shape(before), new_start, after, &mut batch);
        put(&mut after.state, 16, new_start);
        put(&mut after.state, 48, 7 * number(state, 24));
        if big(state, 64) - 1 < 7 * i128::from(new_start) {
            put(&mut after.state, 64, 0);
        }
        for at in (0..after.newest.len()).step_by(8) {
            if number(&after.newest, at) < 7 * new_start {
                after.newest[at..at + 8].fill(255);
            }
        }
        rights::carry(after);
    }
    Ok((0, batch))
}

/// The last position of each home from the transaction's first to its closing
/// entry, as the log holds them now.
fn keep(after: &mut Lent, start: u64, first: u64, closing: u64) {
    let found = present(&after.log, shape(after).homes, start, Some(closing + 1));
    for (position, entry) in found.range(i128::from(first)..) {
        if entry.first == i128::from(first) {
            put(&mut after.newest, 8 * entry.home as usize, *position as u64);
        }
    }
    rights::carry_and_sign(after, start, closing);
}

fn read(before: &Lent, after: &mut Lent, writer: u64, home: u64) -> Outcome {
    let (start, next, _) = live(before);
    let (record, held) = (128 + 24 * writer as usize, 320 + 64 * writer as usize);
    let mode = mode_of(&before.state, writer as usize);
    let mut block = before.data[64 * home as usize..64 * home as usize + 64].to_vec();
    let found = present(&before.log, shape(before).homes, start, Some(next));
    if let Some(kept) = found.get(&big(&before.newest, 8 * home as usize)).filter(|entry| entry.home == home) {
        block = kept.block.clone();
    }
    if mode == 3 {
        let first = big(&before.state, record + 8);
        for entry in found.values() {
            if entry.first == first && entry.home == home {
                block = entry.block.clone();
            }
        }
    }
    if mode >= 2 && number(&before.state, record) == home {
        block = before.state[held..held + 64].to_vec();
    }
    after.block = block;
    Ok((0, Vec::new()))
}
