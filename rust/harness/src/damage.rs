//! Damage to a log or a state, at the limits the questions name.

use crate::craft::distort;
use crate::rng::Rng;
use reference::layout::{group_head, header, put_word, slot_range, word, Shape, BLOCK, START_LIMIT};
use reference::lent::Lent;
use reference::newest::{keep, position, NONE, POSITION};
use reference::rights::LIST_HOMES;
use reference::state::{at, promise, promised, set_promise, State};

pub fn damage_header(rng: &mut Rng, lent: &mut Lent, shape: Shape) {
    let start = word(&lent.log, 0) >> 16;
    let mut bytes = header(shape, start);
    match rng.below(7) {
        0 => bytes = header(shape, START_LIMIT + rng.below(3) - 1),
        1 => bytes = header(shape, START_LIMIT - shape.groups + rng.below(3) - 1),
        2 => bytes = header(shape, rng.next() >> 16),
        3 => bytes[rng.between(12, 63) as usize] = 1 << rng.below(8),
        4 => bytes[rng.between(8, 11) as usize] ^= 1 << rng.below(8),
        5 => bytes[1] = 0x48,
        _ => bytes[rng.below(64) as usize] ^= 1 << rng.below(8),
    }
    lent.log[..64].copy_from_slice(&bytes);
}

pub fn damage_group(rng: &mut Rng, lent: &mut Lent, shape: Shape) {
    let slot = rng.below(shape.groups) as usize;
    let group = &mut lent.log[slot_range(slot)];
    let number = word(group, 0) >> 16;
    let place = rng.below(7);
    let tag_at = 8 + 8 * place as usize;
    let tag = word(group, tag_at);
    match rng.below(11) {
        0 => group[rng.below(2) as usize] ^= 1 << rng.below(8),
        1 => put_word(group, 0, group_head(number.wrapping_add(shape.groups) & 0xffff_ffff_ffff)),
        2 => put_word(group, 0, word(group, 0) ^ 1 << rng.between(16, 63)),
        3 => put_word(group, tag_at, distort(rng, tag, place)),
        4 => put_word(group, tag_at, (tag ^ 1 << rng.between(27, 52)) | 3),
        5 => put_word(group, tag_at, tag ^ 1 << rng.between(2, 26)),
        6 => put_word(group, tag_at, word(group, 8 + 8 * rng.below(7) as usize)),
        7 => group[BLOCK * (2 + place as usize) - 1] ^= 0x80,
        8 => group.chunks_mut(BLOCK).skip(1).for_each(|block| block[BLOCK - 1] ^= 0x80),
        9 => put_word(group, tag_at, tag ^ 1 << 57),
        _ => group[rng.below(512) as usize] ^= 1 << rng.below(8),
    }
}

/// Sets one field of the state to a value at, or one off, a limit.
pub fn damage_state(rng: &mut Rng, lent: &mut Lent) {
    let bytes = &mut lent.state;
    let field = rng.pick(&FIELDS);
    match field {
        at::WRITER => return damage_writer(rng, bytes),
        at::PROMISE => return damage_promise(rng, bytes),
        at::MODE => return damage_modes(rng, bytes),
        _ => {}
    }
    let [groups, homes, start, next, filled, settled, fenced] =
        [0, 8, 16, 24, 32, 40, 48].map(|from| word(bytes, from));
    let position = next.wrapping_mul(7).wrapping_add(filled);
    let base = start.wrapping_mul(7);
    let limits: [u64; 4] = match field {
        at::GROUPS => [groups, 0, 1 << 32 | groups, u64::MAX],
        at::HOMES => [homes, 0, 1 << 32 | homes, u64::MAX],
        at::START => [START_LIMIT, next, next.wrapping_sub(groups), fenced / 7],
        at::NEXT => [start, start.wrapping_add(groups), fenced / 7, u64::MAX],
        at::FILLED => [0, 6, 7, u64::MAX],
        at::SETTLED => [base, fenced, base, u64::MAX],
        at::FENCED => [settled, next.wrapping_mul(7), next.wrapping_mul(7), u64::MAX],
        at::DURABLE => [fenced, fenced, 0, u64::MAX],
        at::ROUND => [1, settled.wrapping_add(1), fenced.wrapping_add(1), u64::MAX],
        at::CURSOR => [homes, homes / 2, 1 << 32, u64::MAX],
        _ => [base, position, 0, u64::MAX],
    };
    let off = rng.pick(&[0, 1, u64::MAX]);
    put_word(bytes, field, rng.pick(&limits).wrapping_add(off));
}

const FIELDS: [usize; 20] = [
    at::GROUPS,
    at::HOMES,
    at::START,
    at::NEXT,
    at::FILLED,
    at::SETTLED,
    at::FENCED,
    at::DURABLE,
    at::LAST_CLOSING,
    at::PROMISE,
    at::PROMISE,
    at::ROUND,
    at::ROUND,
    at::CURSOR,
    at::MODE,
    at::MODE,
    at::WRITER,
    at::WRITER,
    at::WRITER,
    at::WRITER,
];

/// A promise about as large as the others leave room for.
fn damage_promise(rng: &mut Rng, bytes: &mut [u8]) {
    let writer = rng.below(8);
    let [groups, start, next, filled] = [at::GROUPS, at::START, at::NEXT, at::FILLED].map(|from| word(bytes, from));
    let end = start.wrapping_add(groups).wrapping_mul(7);
    let places = end.wrapping_sub(next.wrapping_mul(7).wrapping_add(filled));
    let most = places.wrapping_sub(promised(bytes).wrapping_sub(promise(bytes, writer)));
    let off = rng.pick(&[0, 1, u64::MAX]);
    set_promise(bytes, writer, rng.pick(&[0, 1, most, 0xffff]).wrapping_add(off));
}

/// Any value in one writer's mode, one of its bits, or any modes of all writers.
fn damage_modes(rng: &mut Rng, bytes: &mut [u8]) {
    let mode = at::MODE + rng.below(8) as usize;
    match rng.below(4) {
        0 => bytes[mode] = rng.next() as u8,
        1 => bytes[mode] = rng.pick(&[0, 1, 2, 3, 4, 5, 0x80, 0xff]),
        2 => bytes[mode] ^= 1 << rng.below(8),
        _ => bytes[at::MODE..at::MODE + 8].fill_with(|| rng.below(4) as u8),
    }
}

/// One number of a record, or a record that logs.
fn damage_writer(rng: &mut Rng, bytes: &mut [u8]) {
    let writer = rng.below(8) as usize;
    let (mode, from) = (at::MODE + writer, at::WRITER + at::WRITER_SIZE * writer);
    let homes = word(bytes, at::HOMES);
    let base = word(bytes, at::START).wrapping_mul(7);
    let next = word(bytes, at::NEXT).wrapping_mul(7).wrapping_add(word(bytes, at::FILLED));
    let first = word(bytes, from + at::FIRST);
    let off = rng.pick(&[0, 1, u64::MAX]);
    match rng.below(5) {
        0 => put_word(bytes, from + at::HELD_HOME, homes.wrapping_add(off)),
        1 => put_word(bytes, from + at::FIRST, rng.pick(&[base, next]).wrapping_add(off)),
        2 => {
            let most = next.wrapping_sub(first).wrapping_sub(1);
            put_word(bytes, from + at::COUNT, rng.pick(&[0, most, u64::MAX]).wrapping_add(off));
        }
        _ => {
            let (first, most) = (base, next.wrapping_sub(base));
            bytes[mode] = 3;
            put_word(bytes, from + at::HELD_HOME, homes.wrapping_sub(1));
            put_word(bytes, from + at::FIRST, first);
            put_word(bytes, from + at::COUNT, rng.pick(&[0, most.wrapping_sub(1), most, u64::MAX]));
        }
    }
}

/// Newest positions that disagree with the log: any bytes, those of another
/// home, of any entry of the log, before its start, or at the next position.
pub fn damage_newest(rng: &mut Rng, lent: &mut Lent) {
    let homes = (lent.newest.len() / POSITION) as u64;
    let base = word(&lent.state, at::START).wrapping_mul(7);
    let next = word(&lent.state, at::NEXT).wrapping_mul(7).wrapping_add(word(&lent.state, at::FILLED));
    for _ in 0..rng.between(1, 2 * homes) {
        let home = rng.below(homes);
        let other = position(&lent.newest, rng.below(homes));
        let any = base.wrapping_add(rng.below(next.wrapping_sub(base).wrapping_add(2).max(1)));
        let values = [rng.next(), other, any, any, base.wrapping_sub(1), next, next.wrapping_sub(1), NONE];
        keep(&mut lent.newest, home, rng.pick(&values));
    }
}

/// Positions of the list's homes in the state that disagree with the log, or
/// with the newest positions.
pub fn damage_listed(rng: &mut Rng, lent: &mut Lent) {
    let base = word(&lent.state, at::START).wrapping_mul(7);
    let next = word(&lent.state, at::NEXT).wrapping_mul(7).wrapping_add(word(&lent.state, at::FILLED));
    for _ in 0..rng.between(1, 6) {
        let [index, other] = [(); 2].map(|()| at::LISTED + POSITION * rng.below(LIST_HOMES) as usize);
        let any = base.wrapping_add(rng.below(next.wrapping_sub(base).wrapping_add(2).max(1)));
        let values =
            [rng.next(), word(&lent.state, other), any, any, base.wrapping_sub(1), next, next.wrapping_sub(1), NONE];
        put_word(&mut lent.state, index, rng.pick(&values));
    }
    damage_sign(rng, lent);
}

/// A sign of the list that may be false of it, or none.
pub fn damage_sign(rng: &mut Rng, lent: &mut Lent) {
    if rng.chance(50) {
        let any = rng.next();
        put_word(&mut lent.state, at::SIGN, rng.pick(&[0, 1, 2, 3, 1 << 32 | 1, 1 << 32 | 2, any]));
    }
}

/// A wrong length for one part.
pub fn damage_lengths(rng: &mut Rng, lent: &mut Lent) {
    let part = match rng.below(5) {
        0 => &mut lent.log,
        1 => &mut lent.data,
        2 => &mut lent.state,
        3 => &mut lent.newest,
        _ => &mut lent.block,
    };
    let len = part.len();
    let wrong =
        [len.saturating_sub(1), len + 1, len.saturating_sub(64), len + 64, 0, len + 512, len.saturating_sub(512)];
    part.resize(rng.pick(&wrong), 0);
}

/// Is the state in order, by question 2?
pub fn in_order(lent: &Lent) -> bool {
    State::load(&lent.log, &lent.data, &lent.state).is_ok()
}
