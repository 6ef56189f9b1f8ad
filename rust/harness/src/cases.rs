//! Test cases for a checker in another language: the lent memory before and
//! after one call, and its answer.

use crate::craft::{craft, random_chain};
use crate::damage::{
    damage_group, damage_header, damage_lengths, damage_listed, damage_newest, damage_sign, damage_state,
};
use crate::player::{random_crash, step, Profile, Tally};
use crate::rng::Rng;
use crate::world::World;
use reference::batch::GROUP_WRITE_LEN;
use reference::chains::Chain;
use reference::layout::{put_word, word, Answer, Shape, START_LIMIT};
use reference::lent::{ample, Kind, Lent};
use reference::rights::{has_room, LIST_HOME};
use reference::state::{at, Writer};
use reference::usage::usage;
use std::fmt::Write;

pub struct Case {
    pub kind: Kind,
    pub shape: Shape,
    pub writer: u64,
    pub home: u64,
    pub before: Lent,
    pub after: Lent,
    pub answer: Answer,
}

pub struct Cases {
    pub rng: Rng,
    world: World,
    profile: Profile,
    left: u64,
}

/// In the order of `Kind::ALL`.
const WEIGHTS: [u64; Kind::COUNT] = [3, 14, 6, 8, 6, 26, 18, 8, 5, 12, 6, 14, 14, 24];

impl Cases {
    pub fn new(seed: u64) -> Cases {
        let mut rng = Rng::new(seed);
        let world = fresh_world(&mut rng);
        let profile = Profile::random(&mut rng);
        Cases { rng, world, profile, left: 0 }
    }

    pub fn case(&mut self) -> Case {
        let rng = &mut self.rng;
        let kind = Kind::ALL[rng.weighted(&WEIGHTS)];
        let (shape, mut lent) = if rng.chance(if kind.takes_home() { 55 } else { 40 }) {
            let listed = kind.takes_home() && rng.chance(50);
            let shape = Shape { groups: rng.between(4, 7), homes: if listed { 13 } else { random_homes(rng) } };
            (shape, craft(rng, shape))
        } else {
            self.advance(kind);
            (self.world.shape, self.world.lent.clone())
        };
        let rng = &mut self.rng;
        if matches!(kind, Kind::Store | Kind::Commit) && rng.chance(20) {
            fill_group(&mut lent);
        }
        if kind == Kind::Trim && rng.chance(40) {
            settle_all(&mut lent);
        }
        damage(rng, &mut lent, shape, kind);
        disagree(rng, &mut lent, shape, kind);
        let (writer, home) = arguments(rng, kind, shape, &lent);
        finish(rng, kind, shape, writer, home, lent)
    }

    /// A case of usage, as JSON: on what a call of another kind was lent.
    pub fn usage(&mut self) -> String {
        let case = loop {
            let case = self.case();
            if case.kind.takes_state() && case.kind != Kind::Open {
                break case;
            }
        };
        let lent = case.before;
        let told = usage(&lent.log, &lent.data, &lent.state);
        let mut text = String::from("{\"call\":\"usage\"");
        parts(&mut text, &lent, "");
        let numbers = [told.live, told.dead, told.free, told.promised, told.holder, told.first];
        write!(text, ",\"code\":{},\"told\":{numbers:?}}}", told.code).unwrap();
        text
    }

    /// Plays on; an opening is tried on a fresh image half the time.
    fn advance(&mut self, kind: Kind) {
        if self.left == 0 {
            self.world = fresh_world(&mut self.rng);
            self.profile = Profile::random(&mut self.rng);
            self.left = self.rng.between(3, 20);
        }
        self.left -= 1;
        let mut tally = Tally::default();
        for _ in 0..self.rng.between(1, 25) {
            step(&mut self.rng, &self.profile, &mut self.world, &mut tally, true).expect("history");
        }
        if kind == Kind::Open && self.rng.chance(60) {
            random_crash(&mut self.rng, &mut self.world).expect("crash");
            self.world.load();
        }
        let live = !matches!(kind, Kind::Open | Kind::Format);
        let mut tries = 0;
        while live && !self.world.opened && tries < 50 {
            step(&mut self.rng, &self.profile, &mut self.world, &mut tally, true).expect("history");
            tries += 1;
        }
    }
}

fn fresh_world(rng: &mut Rng) -> World {
    let shape = Shape { groups: rng.between(4, 7), homes: random_homes(rng) };
    let start = if rng.chance(15) { START_LIMIT - rng.between(4, 14) } else { 0 };
    World::new(shape, start)
}

/// Few homes, or about as many as a list of rights needs.
fn random_homes(rng: &mut Rng) -> u64 {
    if rng.chance(50) {
        rng.between(1, 8)
    } else {
        rng.pick(&[9, 10, 11, 12, 12, 13, 13, 13])
    }
}

/// Leaves one place in the next group, if the log is not full.
fn fill_group(lent: &mut Lent) {
    let next = word(&lent.state, at::NEXT);
    if next < word(&lent.state, at::START).saturating_add(word(&lent.state, at::GROUPS)) {
        put_word(&mut lent.state, at::FILLED, 6);
    }
}

/// Puts the settled and fenced positions as high as they may be; no round is under way.
fn settle_all(lent: &mut Lent) {
    let highest = word(&lent.state, at::NEXT).saturating_mul(7);
    put_word(&mut lent.state, at::SETTLED, highest);
    put_word(&mut lent.state, at::FENCED, highest);
    put_word(&mut lent.state, at::ROUND, 0);
}

fn damage(rng: &mut Rng, lent: &mut Lent, shape: Shape, kind: Kind) {
    let log_percent = if kind == Kind::Open { 25 } else { 8 };
    if rng.chance(log_percent) {
        damage_header(rng, lent, shape);
    }
    if rng.chance(20) {
        for _ in 0..rng.between(1, 3) {
            damage_group(rng, lent, shape);
        }
    }
    if kind != Kind::Open && rng.chance(15) {
        damage_state(rng, lent);
    }
    if kind == Kind::Open && rng.chance(80) {
        lent.state.fill(0xee);
    } else if rng.chance(15) {
        let spare = rng.pick(&[112, 120, 127, 832, 860, 895, 936, 1000, 1023]);
        lent.state[spare] ^= 0x5a;
    }
}

/// Newest positions that disagree with the log, most often for a read; for a
/// store those of the list in the state.
fn disagree(rng: &mut Rng, lent: &mut Lent, shape: Shape, kind: Kind) {
    if rng.chance(if kind == Kind::Store && has_room(shape.homes) { 40 } else { 5 }) {
        damage_listed(rng, lent);
    }
    let reads = kind == Kind::Read;
    if rng.chance(if reads && has_room(shape.homes) {
        40
    } else if reads {
        60
    } else {
        20
    }) {
        damage_newest(rng, lent);
    }
    if has_room(shape.homes) && rng.chance(30) {
        damage_sign(rng, lent);
    }
}

/// Now and then out of range; else often a writer that is open (or idle, for
/// begin), and the home it holds or another.
fn arguments(rng: &mut Rng, kind: Kind, shape: Shape, lent: &Lent) -> (u64, u64) {
    let mut writer = rng.below(8);
    let mut home = rng.below(shape.homes);
    if rng.chance(70) {
        let mode = |w: u64| Writer::load(&lent.state, w).mode;
        let fits = |w: &u64| (mode(*w) == 0) == kind.begins();
        writer = (0..8).map(|add| (writer + add) % 8).find(fits).unwrap_or(writer);
    }
    if rng.chance(15) {
        home = Writer::load(&lent.state, writer).home;
    }
    if rng.chance(10) && shape.homes > LIST_HOME {
        home = LIST_HOME + rng.below(shape.homes - LIST_HOME);
    }
    if kind == Kind::Reserve {
        home = rng.pick(&[0, 1, 2, 5, 7, 14, 28, 29]);
    }
    if kind == Kind::StepRound {
        home = rng.pick(&[0, 1, 1, 2, 2, 3, 4, u64::MAX]);
    }
    if rng.chance(6) {
        writer = rng.pick(&[8, 9, 256, 1 << 32, u64::MAX]);
    }
    if rng.chance(6) {
        home = rng.pick(&[shape.homes, shape.homes + 1, 4096, 65535, 65536, 1 << 32, u64::MAX]);
    }
    (writer, home)
}

fn finish(rng: &mut Rng, kind: Kind, shape: Shape, writer: u64, home: u64, mut lent: Lent) -> Case {
    lent.block = vec![rng.next() as u8; 64];
    lent.batch = vec![0; ample(4, shape.homes)];
    let need = lent.clone().run(kind, writer, home).len;
    let len = match rng.below(10) {
        0 if need > 0 => need - 1,
        4 | 5 if need == GROUP_WRITE_LEN => need - 1,
        1 => 0,
        2 | 3 => need + rng.below(70) as usize,
        _ => need,
    };
    lent.batch = vec![0xcc; len];
    if rng.chance(6) {
        damage_lengths(rng, &mut lent);
    }
    hide(kind, &mut lent);
    let mut after = lent.clone();
    let answer = after.run(kind, writer, home);
    let writer = if kind.takes_writer() { writer } else { 0 };
    let home = if kind.takes_home() || kind.takes_number() { home } else { 0 };
    Case { kind, shape, writer, home, before: lent, after, answer }
}

/// Empties the parts that the call is not lent.
fn hide(kind: Kind, lent: &mut Lent) {
    if !kind.takes_state() {
        lent.state.clear();
    }
    if !kind.takes_newest() {
        lent.newest.clear();
    }
    if !kind.takes_block() {
        lent.block.clear();
    }
    if !kind.takes_batch() {
        lent.batch.clear();
    }
}

/// Bytes as [[byte,count],...].
fn runs(bytes: &[u8]) -> String {
    let mut text = String::from("[");
    let mut left = bytes;
    while let Some(&byte) = left.first() {
        let same = left.iter().take_while(|&&other| other == byte).count();
        let comma = if text.len() > 1 { "," } else { "" };
        write!(text, "{comma}[{byte},{same}]").unwrap();
        left = &left[same..];
    }
    text.push(']');
    text
}

impl Case {
    pub fn json(&self) -> String {
        line(self.kind.name(), (self.writer, self.home), [&self.before, &self.after], self.answer)
    }
}

/// A case of a call on several homes, as JSON.
pub fn several(rng: &mut Rng) -> String {
    let chain = rng.pick(&Chain::ALL);
    let (mut lent, writer, home) = random_chain(rng);
    let need = lent.clone().chain(chain, writer, home).len;
    lent.batch.truncate(need + rng.below(70) as usize);
    if chain != Chain::Transact {
        lent.batch.clear();
    }
    let mut after = lent.clone();
    let answer = after.chain(chain, writer, home);
    line(chain.name(), (writer, home), [&lent, &after], answer)
}

/// One line of JSON without spaces.
fn line(call: &str, (writer, home): (u64, u64), [before, after]: [&Lent; 2], answer: Answer) -> String {
    let (groups, homes) = (before.log.len().saturating_sub(64) / 512, before.data.len() / 64);
    let mut text = format!("{{\"call\":\"{call}\",\"g\":{groups},\"d\":{homes},\"writer\":{writer},\"home\":{home}");
    parts(&mut text, before, "");
    let Answer { code, figure, len } = answer;
    write!(text, ",\"code\":{code},\"figure\":{figure},\"len\":{len}").unwrap();
    parts(&mut text, after, "2");
    text.push('}');
    text
}

fn parts(text: &mut String, lent: &Lent, suffix: &str) {
    let named = [
        ("state", &lent.state),
        ("newest", &lent.newest),
        ("log", &lent.log),
        ("data", &lent.data),
        ("block", &lent.block),
        ("batch", &lent.batch),
    ];
    for (name, bytes) in named {
        write!(text, ",\"{name}{suffix}\":{}", runs(bytes)).unwrap();
    }
}
