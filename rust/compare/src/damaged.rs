//! All calls on damaged images and strips.
//! Clauses: [S-1, S-2, S-3, S-8, S-9, S-10, S-13, S-15, S-17, S-18, S-37, S-48]

use crate::histories::{far, random_shape, Player, MOST_GROUPS};
use crate::pair::Pair;
use harness::craft::craft;
use harness::damage::{damage_group, damage_header, damage_lengths, damage_listed, damage_newest, damage_state};
use harness::rng::Rng;
use harness::world::World;
use reference::layout::{group_head, header, put_word, set_top_bit, slot_range, turn, word, Shape, BLOCK, START_LIMIT};
use reference::lent::{ample, Kind, Lent};
use reference::rights::LIST_HOME;
use reference::state::{at, promised, Writer};

/// A history that damaged images are taken from.
struct Source {
    player: Player,
    /// Images to take before the next history.
    left: u64,
    /// Strips of earlier moments.
    old: Vec<Vec<u8>>,
}

impl Source {
    fn new(rng: &mut Rng, shape: Shape) -> Source {
        let start = if rng.chance(20) { START_LIMIT - rng.below(4 * shape.groups) } else { 0 };
        let player = Player::new(rng, World::new(shape, start));
        let mut source = Source { player, left: rng.between(3, 20), old: Vec::new() };
        if shape.groups == MOST_GROUPS {
            source.player.fill(rng, 8000).expect("history");
        }
        source
    }

    fn image(&mut self, rng: &mut Rng) -> Lent {
        for _ in 0..rng.between(1, 25) {
            self.player.step(rng).expect("history");
        }
        self.left -= 1;
        let world = &mut self.player.world;
        self.old.push(world.lent.state.clone());
        if !world.opened && rng.chance(70) {
            world.load();
        }
        world.lent.clone()
    }
}

/// Compares calls on `images` damaged images, `large` in a thousand of them
/// with the largest log.
pub fn play(seed: u64, images: u64, large: u64, pair: &mut Pair, mut progress: impl FnMut(u64)) -> Result<(), String> {
    let mut rng = Rng::new(seed ^ 0xdada_6e00);
    let mut sources = [None, None];
    let mut large_done = 0;
    for done in 0..images {
        progress(done);
        let is_large = large_done * 1000 < large * done;
        large_done += u64::from(is_large);
        one(&mut rng, is_large, &mut sources[usize::from(is_large)], pair)?;
    }
    progress(images);
    Ok(())
}

fn one(rng: &mut Rng, large: bool, source: &mut Option<Source>, pair: &mut Pair) -> Result<(), String> {
    let shape_of = |rng: &mut Rng| match large {
        true => Shape { groups: MOST_GROUPS, homes: rng.pick(&[1, 64, 4096, 65535]) },
        false => random_shape(rng),
    };
    let (shape, mut lent) = if rng.chance(50) {
        let shape = shape_of(rng);
        (shape, craft(rng, shape))
    } else {
        if source.as_ref().map_or(true, |source| source.left == 0) {
            let shape = shape_of(rng);
            *source = Some(Source::new(rng, shape));
        }
        let source = source.as_mut().unwrap();
        (source.player.world.shape, source.image(rng))
    };
    let old = source.as_ref().map_or(&[][..], |source| &source.old[..]);
    damage(rng, &mut lent, shape, old);
    let costly = large || shape.homes > 300;
    let mut kinds = Kind::ALL.to_vec();
    while costly && kinds.len() > 3 {
        kinds.swap_remove(rng.below(kinds.len() as u64) as usize);
    }
    for kind in kinds {
        call(rng, &lent, shape, kind, pair);
        pair.verdict()?;
    }
    Ok(())
}

/// One call on a copy of the lent memory, with likely arguments and a batch
/// that suffices, just suffices, or does not.
fn call(rng: &mut Rng, lent: &Lent, shape: Shape, kind: Kind, pair: &mut Pair) {
    let (writer, home) = arguments(rng, kind, shape, lent);
    let mut lent = lent.clone();
    lent.block.fill(rng.next() as u8);
    lent.batch.resize(ample(shape.groups, shape.homes), 0);
    let need = lent.clone().run(kind, writer, home).len;
    let len = match rng.below(10) {
        0 => need.saturating_sub(1),
        1 => rng.below(need as u64 + 1) as usize,
        2..=5 => need,
        _ => need + rng.below(70) as usize,
    };
    lent.batch = vec![rng.next() as u8; len];
    pair.run(&mut lent, kind, writer, home);
}

fn arguments(rng: &mut Rng, kind: Kind, shape: Shape, lent: &Lent) -> (u64, u64) {
    let mut writer = rng.below(8);
    let mut home = rng.below(shape.homes);
    if lent.state.len() >= 1024 {
        let mode = |writer: u64| Writer::load(&lent.state, writer).mode;
        let fits = |writer: &u64| (mode(*writer) == 0) == kind.begins();
        if rng.chance(70) {
            writer = (0..8).map(|add| (writer + add) % 8).find(fits).unwrap_or(writer);
        }
        if rng.chance(15) {
            home = Writer::load(&lent.state, writer).home;
        }
        if kind == Kind::Reserve {
            let free = |bytes: &[u8]| {
                let [groups, start, next, filled] = [0, 16, 24, 32].map(|from| word(bytes, from));
                let end = start.wrapping_add(groups).wrapping_mul(7);
                let places = end.wrapping_sub(next.wrapping_mul(7)).wrapping_sub(filled);
                places.wrapping_sub(promised(bytes))
            };
            home = rng.pick(&[0, 1, 3, free(&lent.state), free(&lent.state).wrapping_add(1)]);
        }
    }
    if rng.chance(8) && shape.homes > LIST_HOME {
        home = LIST_HOME + rng.below((shape.homes - LIST_HOME).min(5));
    }
    if kind == Kind::StepRound {
        home = rng.pick(&[0, 1, 1, 2, 3, 8, shape.homes, 1 << 32, u64::MAX]);
    }
    if rng.chance(4) {
        writer = far(rng, 8, writer);
    }
    if rng.chance(4) {
        home = far(rng, shape.homes, home);
    }
    (writer, home)
}

/// Damage to the log, the strip or both, then perhaps a wrong length.
fn damage(rng: &mut Rng, lent: &mut Lent, shape: Shape, old: &[Vec<u8>]) {
    let parts = rng.below(10);
    if parts < 7 {
        for _ in 0..rng.between(1, 3) {
            damage_log(rng, lent, shape);
        }
    }
    if parts >= 6 {
        damage_strip(rng, lent, old);
    }
    match rng.below(4) {
        0 => {}
        1 => scribble(rng, &mut lent.newest),
        _ => damage_newest(rng, lent),
    }
    if rng.chance(30) {
        damage_listed(rng, lent);
    }
    if rng.chance(8) {
        damage_lengths(rng, lent);
    }
}

fn damage_log(rng: &mut Rng, lent: &mut Lent, shape: Shape) {
    match rng.below(20) {
        0 | 1 => damage_header(rng, lent, shape),
        2..=8 => damage_group(rng, lent, shape),
        9..=11 => flip(rng, &mut lent.log),
        12 => scribble(rng, &mut lent.log),
        13 => scribble(rng, &mut lent.log[64..]),
        14 => scribble(rng, &mut lent.data),
        15 => flip(rng, &mut lent.log[..64]),
        16 => copy_group(rng, lent, shape),
        17 => rewrite_groups(rng, lent, shape),
        _ => tags(rng, lent, shape),
    }
}

fn damage_strip(rng: &mut Rng, lent: &mut Lent, old: &[Vec<u8>]) {
    match rng.below(20) {
        0 => flip(rng, &mut lent.state),
        1 => flip(rng, &mut lent.state[..at::WRITER]),
        2 => scribble(rng, &mut lent.state),
        3 => scribble(rng, &mut lent.state[at::WRITER..]),
        4 => scribble(rng, &mut lent.state[896..]),
        5..=7 if !old.is_empty() => {
            lent.state = old[rng.below(old.len() as u64) as usize].clone();
        }
        8 => {
            let field = 8 * rng.pick(&[0, 1, 2, 3, 4, 5, 6, 7, 8, 11, 12, 13]);
            let wraps = u64::MAX / 7 + 1;
            let value = rng.pick(&[0, 1, 1 << 32, 1 << 47, 7 << 47, 1 << 63, u64::MAX, wraps]);
            put_word(&mut lent.state, field, value.wrapping_add(rng.below(3)).wrapping_sub(1));
        }
        9..=10 => settle_all(lent),
        11 => make_round(rng, lent),
        12 => {
            damage_state(rng, lent);
            damage_state(rng, lent);
        }
        _ => damage_state(rng, lent),
    }
}

/// Flips one to eight bits.
fn flip(rng: &mut Rng, bytes: &mut [u8]) {
    for _ in 0..rng.between(1, 8) {
        bytes[rng.below(bytes.len() as u64) as usize] ^= 1 << rng.below(8);
    }
}

/// Random bytes over a stretch, or over all.
fn scribble(rng: &mut Rng, bytes: &mut [u8]) {
    let len = bytes.len() as u64;
    let from = rng.below(len);
    let most = rng.pick(&[8, 64, 512, len]);
    let to = (from + rng.between(1, most)).min(len);
    bytes[from as usize..to as usize].fill_with(|| rng.next() as u8);
}

/// Puts one group where another belongs, with its number or the right one.
fn copy_group(rng: &mut Rng, lent: &mut Lent, shape: Shape) {
    let from = slot_range(rng.below(shape.groups) as usize);
    let to = slot_range(rng.below(shape.groups) as usize);
    let head = word(&lent.log, to.start);
    lent.log.copy_within(from, to.start);
    if rng.chance(50) {
        put_word(&mut lent.log, to.start, head);
    }
}

/// Makes all groups, or all but some, valid under a new start; often with
/// turn bits that fit.
fn rewrite_groups(rng: &mut Rng, lent: &mut Lent, shape: Shape) {
    let near = START_LIMIT - shape.groups;
    let start = rng.pick(&[0, 1, shape.groups, 65_537, near - 1, near, near + 1, START_LIMIT]);
    lent.log[..64].copy_from_slice(&header(shape, start));
    let (skip, misfit) = (rng.pick(&[0, 0, 20]), rng.pick(&[0, 0, 10, 100]));
    for number in start..start + shape.groups {
        let slot = (number % shape.groups) as usize;
        if !rng.chance(skip) {
            put_word(&mut lent.log, slot_range(slot).start, group_head(number));
            for place in 0..7 {
                fit_turn(&mut lent.log, shape, number, place, !rng.chance(misfit));
            }
        }
    }
}

/// Gives data block `place` of a group its turn bit, or the opposite one.
fn fit_turn(log: &mut [u8], shape: Shape, number: u64, place: usize, fits: bool) {
    let slot = (number % shape.groups) as usize;
    let from = slot_range(slot).start + BLOCK * (1 + place);
    set_top_bit(&mut log[from..from + BLOCK], turn(shape, number) == fits);
}

/// Made-up tags with numbers at and around the limits, some of them in a chain.
fn tags(rng: &mut Rng, lent: &mut Lent, shape: Shape) {
    let start = word(&lent.log, 0) >> 16;
    let total = 7 * shape.groups;
    let chain = rng.chance(50);
    let mut offset = rng.below(total);
    for _ in 0..rng.between(1, 20) {
        let slot = (start.wrapping_add(offset / 7) % shape.groups) as usize;
        let place = slot_range(slot).start + 8 + 8 * (offset % 7) as usize;
        let back = rng.pick(&[0, 0, 0, 1, 2, offset, offset + 1, 8191]);
        let link = rng.pick(&[0, 1, 1, 2, offset, offset + 1, 8191]);
        let count = rng.pick(&[1, 1, 1, 2, back + 1, 0, 8191]);
        let home = rng.pick(&[0, shape.homes - 1, shape.homes - 1, shape.homes, 4095, 4096, 65535]);
        let closing = if chain { [0, 1, 1] } else { [link, count, rng.below(2)] };
        let back = if chain { 0 } else { back };
        let [mut link, count, closes] = closing;
        if chain && word(&lent.log, place) != 0 {
            link = rng.pick(&[0, 1, 1, 1]);
        }
        let fields =
            [(home, 2, 0xfff), (back, 14, 0x1fff), (link, 27, 0x1fff), (count, 40, 0x1fff), (home >> 12, 53, 0xf)];
        let mut tag = 1 | closes << 1;
        for (value, shift, mask) in fields {
            let unused = closes == 0 && (shift == 27 || shift == 40) && !rng.chance(5);
            tag |= if unused { 0 } else { (value & mask) << shift };
        }
        put_word(&mut lent.log, place, tag | rng.below(2) << 57);
        fit_turn(&mut lent.log, shape, start.wrapping_add(offset / 7), (offset % 7) as usize, !rng.chance(10));
        offset = (offset + if chain { 1 } else { rng.below(5) }) % total;
    }
}

/// Puts the settled and fenced positions as high as they may be; no round is under way.
fn settle_all(lent: &mut Lent) {
    let highest = word(&lent.state, at::NEXT).saturating_mul(7);
    put_word(&mut lent.state, at::SETTLED, highest);
    put_word(&mut lent.state, at::FENCED, highest);
    put_word(&mut lent.state, at::ROUND, 0);
}

/// A round under way, as question 2 lets it be, or one position off.
fn make_round(rng: &mut Rng, lent: &mut Lent) {
    let [settled, fenced, homes] = [at::SETTLED, at::FENCED, at::HOMES].map(|from| word(&lent.state, from));
    let between = settled.wrapping_add(rng.below(fenced.wrapping_sub(settled).max(1)));
    let fixed = rng.pick(&[settled, fenced, fenced, between, settled.wrapping_sub(1), fenced.wrapping_add(1)]);
    put_word(&mut lent.state, at::ROUND, fixed.wrapping_add(1));
    let inside = rng.below(homes.max(1));
    put_word(&mut lent.state, at::CURSOR, rng.pick(&[0, 0, inside, inside, homes, u64::MAX]));
}
