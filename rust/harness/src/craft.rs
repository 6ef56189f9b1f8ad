//! Logs and states made up at random: in order by question 2, but such as no
//! history leaves, to try the commit rule on damaged contents.

use crate::damage::{damage_group, damage_lengths, damage_listed, damage_newest, damage_sign, damage_state};
use crate::lists::random_block;
use crate::rng::Rng;
use reference::layout::{group_head, header, put_word, set_top_bit, slot_range, turn, word, Shape, BLOCK, START_LIMIT};
use reference::lent::Lent;
use reference::newest::keep;
use reference::rights::{carry_listed, has_room, of_list};
use reference::state::{at, mode, pending_range, set_promise, State, Writer};
use reference::tag::{closing_tag, entry_tag, tag_home, with_displaced};

/// A made-up log, data area and state, with blocks of one byte each but for
/// turn bits, most of which fit.
pub fn craft(rng: &mut Rng, shape: Shape) -> Lent {
    let mut lent = Lent::new(shape.groups, shape.homes);
    let start = match rng.below(8) {
        0 => START_LIMIT,
        1 => START_LIMIT - rng.between(1, 2 * shape.groups),
        2 => 0,
        3 => rng.below(START_LIMIT),
        _ => rng.below(3 * shape.groups),
    };
    let tags = craft_tags(rng, shape, start);
    lent.log[..64].copy_from_slice(&header(shape, start));
    for (index, seven) in tags.chunks(7).enumerate() {
        craft_group(rng, &mut lent, shape, start + index as u64, seven);
    }
    for home in 0..shape.homes as usize {
        let block = craft_block(rng, shape, home as u64);
        lent.data[BLOCK * home..BLOCK * (home + 1)].copy_from_slice(&block);
    }
    craft_state(rng, &mut lent, shape, start, &tags);
    craft_kept(rng, &mut lent, shape, &tags);
    lent
}

/// Any bytes of one value, or for the list's homes most often ranges.
fn craft_block(rng: &mut Rng, shape: Shape, home: u64) -> [u8; BLOCK] {
    if has_room(shape.homes) && of_list(home) && rng.chance(85) {
        random_block(rng, shape.homes)
    } else {
        [rng.next() as u8; BLOCK]
    }
}

/// Positions of the last entry for each home, or of none; those of the list's
/// homes in the state as well, most often.
fn craft_kept(rng: &mut Rng, lent: &mut Lent, shape: Shape, tags: &[u64]) {
    lent.newest.fill(0xff);
    let base = 7 * word(&lent.state, at::START);
    let skip = rng.pick(&[0, 30, 100]);
    for (offset, &tag) in tags.iter().enumerate() {
        let home = tag_home(tag);
        if home < shape.homes && !rng.chance(skip) {
            keep(&mut lent.newest, home, base.wrapping_add(offset as u64));
        }
    }
    if rng.chance(85) {
        carry_listed(shape.homes, &lent.newest, &mut lent.state);
    }
    damage_sign(rng, lent);
}

fn craft_group(rng: &mut Rng, lent: &mut Lent, shape: Shape, number: u64, tags: &[u64]) {
    let slot = (number % shape.groups) as usize;
    let group = &mut lent.log[slot_range(slot)];
    let head = match rng.below(20) {
        0 => group_head(number) ^ 1 << rng.below(64),
        1 => group_head(number.wrapping_sub(shape.groups) & 0xffff_ffff_ffff),
        2 => group_head(number + shape.groups),
        _ => group_head(number),
    };
    put_word(group, 0, head);
    let torn = rng.pick(&[0, 0, 0, 10, 50]);
    for (place, &tag) in tags.iter().enumerate() {
        let displaced = if tag == 0 { false } else { rng.chance(50) };
        put_word(group, 8 + 8 * place, with_displaced(tag, displaced));
        let block = &mut group[BLOCK * (1 + place)..BLOCK * (2 + place)];
        block.copy_from_slice(&craft_block(rng, shape, tag_home(tag)));
        set_top_bit(block, turn(shape, number) != rng.chance(torn));
    }
}

/// Tags for every offset; most commit entries count and link rightly.
fn craft_tags(rng: &mut Rng, shape: Shape, start: u64) -> Vec<u64> {
    let total = 7 * shape.groups;
    let mut tags = Vec::new();
    let mut firsts: Vec<(u64, u64)> = Vec::new();
    let mut last = None;
    let (gap, close, wrong) = (rng.pick(&[0, 5, 30]), rng.pick(&[10, 30, 60]), rng.pick(&[0, 3, 20]));
    for offset in 0..total {
        if rng.chance(gap) {
            tags.push(0);
            continue;
        }
        let home = if rng.chance(wrong / 4) { rng.below(65536) } else { rng.below(shape.homes) };
        let index = rng.below(firsts.len() as u64 + 1) as usize;
        if index == firsts.len() {
            firsts.push((offset.saturating_sub(if rng.chance(wrong) { rng.below(4) } else { 0 }), 0));
        }
        firsts[index].1 += 1;
        let (first, count) = firsts[index];
        let mut tag = entry_tag(home, offset - first);
        if rng.chance(close) {
            let link = craft_link(rng, offset, start, last, wrong);
            let count = if rng.chance(wrong) { count + rng.below(3) - 1 } else { count };
            tag = closing_tag(home, offset - first, link, count);
            last = Some(offset);
            if rng.chance(70) {
                firsts.remove(index);
            }
        }
        tags.push(if rng.chance(wrong / 2) { distort(rng, tag, offset) } else { tag });
        if firsts.len() > 4 {
            firsts.remove(0);
        }
    }
    tags
}

fn craft_link(rng: &mut Rng, offset: u64, start: u64, last: Option<u64>, wrong: u64) -> u64 {
    let before = (offset + 1 + rng.below(5)).min(7167);
    let right = match last {
        Some(last) => offset - last,
        None if start > 0 && rng.chance(50) => before,
        None => 0,
    };
    if rng.chance(wrong) {
        rng.pick(&[0, 1, right + 1, before])
    } else {
        right
    }
}

/// Memory for a call on several homes, damaged at times, with a writer, most
/// often an idle one, and a home.
pub fn random_chain(rng: &mut Rng) -> (Lent, u64, u64) {
    let shape = Shape { groups: rng.between(4, 7), homes: rng.pick(&[1, 4, 8, 10, 12, 14, 20, 20]) };
    let mut lent = craft(rng, shape);
    if rng.chance(50) {
        damage_group(rng, &mut lent, shape);
    }
    if rng.chance(15) {
        damage_state(rng, &mut lent);
    }
    if rng.chance(40) {
        damage_newest(rng, &mut lent);
    }
    if rng.chance(30) {
        damage_listed(rng, &mut lent);
    }
    let blocks = rng.pick(&[1, 1, 1, 2, 3, 3, 6, 7, 7, 0, 8]);
    lent.block = vec![0; BLOCK * blocks];
    lent.block.chunks_mut(BLOCK).for_each(|block| block.fill(rng.next() as u8));
    if rng.chance(3) {
        lent.block.push(0);
    }
    if rng.chance(40) {
        lent.batch = vec![0xcc; rng.pick(&[0, 515, 515, 516, 517])];
    }
    let mut writer = rng.below(8);
    if rng.chance(70) {
        let idle = |writer: &u64| Writer::load(&lent.state, *writer).mode == mode::IDLE;
        writer = (0..8).map(|add| (writer + add) % 8).find(idle).unwrap_or(writer);
    }
    let mut home = rng.below(shape.homes.saturating_sub(blocks as u64) + 1);
    match rng.below(40) {
        0 => writer = rng.pick(&[8, 1 << 32, u64::MAX]),
        1 | 2 => home = rng.pick(&[shape.homes, shape.homes - 1, u64::MAX, u64::MAX - 3]),
        3 => damage_lengths(rng, &mut lent),
        _ => {}
    }
    (lent, writer, home)
}

/// Spoils a tag: a set zero bit, a distance past the start, any bit.
pub fn distort(rng: &mut Rng, tag: u64, offset: u64) -> u64 {
    match rng.below(6) {
        0 => tag | 1 << rng.between(53, 63),
        1 => tag & !(0x1fff << 14) | (offset + 1).min(8191) << 14,
        2 => tag & !(0x1fff << 40),
        3 => tag & !2,
        4 => tag ^ 2,
        _ => tag ^ 1 << rng.below(64),
    }
}

fn craft_state(rng: &mut Rng, lent: &mut Lent, shape: Shape, start: u64, tags: &[u64]) {
    let next = match rng.below(4) {
        0 => start + shape.groups,
        _ => start + rng.below(shape.groups + 1),
    };
    let filled = match rng.below(10) {
        _ if next == start + shape.groups => 0,
        0..=2 => 6,
        _ => rng.below(7),
    };
    let next_position = 7 * next + filled;
    let fenced = if rng.chance(40) { 7 * next } else { rng.between(7 * start, 7 * next) };
    let settled = if rng.chance(40) { fenced } else { rng.between(7 * start, fenced) };
    let used = next_position - 7 * start;
    let closings = tags[..used as usize].iter().rposition(|tag| tag & 3 == 3);
    let state = State {
        shape,
        start,
        next,
        filled,
        settled,
        fenced,
        durable: rng.between(fenced.saturating_sub(30), fenced),
        last_closing: match closings {
            Some(offset) if rng.chance(80) => 7 * start + offset as u64 + 1,
            _ if used > 0 && rng.chance(50) => 7 * start + 1 + rng.below(used),
            _ if rng.chance(50) => rng.between((7 * start).saturating_sub(30), 7 * start),
            _ => 0,
        },
        round: match rng.below(6) {
            0 => settled + 1,
            1 => fenced + 1,
            2 => 1 + rng.between(settled, fenced),
            _ => 0,
        },
        cursor: match rng.below(8) {
            0 => u64::MAX - rng.below(2),
            1..=3 => 0,
            _ => rng.below(shape.homes + 2),
        },
    };
    let spare = if rng.chance(50) { 0 } else { rng.next() as u8 };
    lent.state.fill(spare);
    put_word(&mut lent.state, at::GROUPS, shape.groups);
    put_word(&mut lent.state, at::HOMES, shape.homes);
    state.save(&mut lent.state);
    let modes = rng.pick(&[3, 4]);
    for writer in 0..8 {
        craft_writer(rng, lent, &state, tags, (writer, modes));
    }
    craft_promises(rng, lent, state.places());
}

/// Promises of the open writers: none, or up to all places there are.
fn craft_promises(rng: &mut Rng, lent: &mut Lent, places: u64) {
    let mut left = if rng.chance(50) { 0 } else { places };
    for writer in 0..8 {
        let open = Writer::load(&lent.state, writer).mode != mode::IDLE;
        let n = if open { rng.pick(&[0, 1, left / 2, left]).min(left) } else { 0 };
        set_promise(&mut lent.state, writer, n);
        left -= n;
    }
}

/// A record in order, of one of the first `modes` modes; a transaction that
/// logs often begins where one does in the log.
fn craft_writer(rng: &mut Rng, lent: &mut Lent, state: &State, tags: &[u64], (writer, modes): (u64, u64)) {
    let used = state.next_position() - state.first_position();
    let (mode, home) = (rng.below(modes), rng.below(state.shape.homes));
    let mut record = Writer { mode, ..Writer::holding(home) };
    if record.mode == mode::LOGGING && used == 0 || rng.chance(30) {
        record.mode = rng.below(3);
    }
    if record.mode == mode::LOGGING {
        let mut offset = rng.below(used);
        let back = tags[offset as usize] >> 14 & 0x1fff;
        if back <= offset && rng.chance(60) {
            offset -= back;
        }
        record.first = state.first_position() + offset;
        let most = used - offset;
        record.count = rng.pick(&[1, (most + 1) / 2, most]);
    } else if rng.chance(50) {
        record.first = 0xdead_beef;
        record.count = u64::MAX;
    }
    if record.mode < mode::HOLDING && rng.chance(50) {
        record.home = u64::MAX;
    }
    record.save(&mut lent.state, writer);
    lent.state[pending_range(writer)].fill(0xb0 + writer as u8);
}
