//! Torn stretches: every choice of up to twelve blocks of a stretch, and the
//! opening after each held to the book. The history itself is not disturbed.
//! Clauses: [S-14, S-15, S-52]

use crate::landing::Areas;
use crate::literal;
use crate::player::{step, Profile, Tally};
use crate::rng::Rng;
use crate::world::World;
use reference::layout::{Answer, Shape, STATE};
use reference::lent::{ample, Kind, Lent, Runner};
use reference::newest::POSITION;

/// Blocks whose every choice is tried.
const FREE: usize = 12;

/// What the tries came to.
#[derive(Clone, Debug, Default)]
pub struct Torn {
    pub histories: u64,
    pub stretches: u64,
    pub choices: u64,
    /// Openings that brought a commit back, and choices that lost one.
    pub brought_back: u64,
    pub lost: u64,
}

impl World {
    /// A crash after `passed` fences on copies of memory and book: block `n` of
    /// the stretch lands if `chosen(n)`. Opens what is left.
    fn tear(&mut self, passed: usize, chosen: impl Fn(usize) -> bool, torn: &mut Torn) -> Result<(), String> {
        let mut image = self.image.clone();
        let mut block = 0;
        let landed = self.submitted.crash(passed, &mut image, |_, _| {
            block += 1;
            chosen(block - 1)
        });
        let mut book = self.book.clone();
        book.crash(&landed);
        let run = book.commits.len();
        self.check_owed(run)?;
        let start = literal::header_start(&image.log);
        let back = self.spans[..run].iter().filter(|span| span.1 >= 7 * start).count() as u64;
        let (answer, after) = self.open_copy(image);
        if answer.code != 0 || answer.figure != back {
            return Err(format!("opening answers {answer:?}, {back} come back"));
        }
        if after.data != book.homes_after(run, self.shape.homes) {
            return Err("data copy is not the homes after the run".to_string());
        }
        torn.choices += 1;
        torn.brought_back += u64::from(back > 0);
        torn.lost += u64::from(run < self.book.commits.len());
        Ok(())
    }

    fn open_copy(&mut self, image: Areas) -> (Answer, Lent) {
        let batch = vec![0; ample(self.shape.groups, self.shape.homes)];
        let newest = vec![0; POSITION * self.shape.homes as usize];
        let mut lent =
            Lent { log: image.log, data: image.data, state: vec![0; STATE], newest, block: vec![0; 64], batch };
        let answer = (self.runner)(&mut lent, Kind::Open, 0, 0);
        (answer, lent)
    }

    /// Every choice of `FREE` blocks of one stretch; the others land or not at random.
    fn tear_stretch(&mut self, rng: &mut Rng, torn: &mut Torn) -> Result<(), String> {
        let (low, high) = (self.submitted.confirmed as u64, self.submitted.fences as u64);
        let passed = if rng.chance(50) { high } else { rng.between(low, high) } as usize;
        let blocks = self.submitted.stretch(passed);
        let mut others: Vec<bool> = Vec::new();
        let percent = rng.pick(&[0, 50, 100]);
        others.resize_with(blocks, || rng.chance(percent));
        let mut order: Vec<usize> = (0..blocks).collect();
        for at in (1..blocks).rev() {
            order.swap(at, rng.below(at as u64 + 1) as usize);
        }
        order.truncate(FREE);
        torn.stretches += 1;
        for choice in 0..1u32 << order.len() {
            let chosen = |block: usize| match order.iter().position(|&free| free == block) {
                Some(bit) => choice >> bit & 1 == 1,
                None => others[block],
            };
            self.tear(passed, chosen, torn)
                .map_err(|what| format!("{passed} fences, blocks {order:?}, choice {choice:b}: {what}"))?;
        }
        Ok(())
    }
}

/// A short history of a small log, with crashes; some stretches on the way
/// are tried in every choice.
pub fn torn_history(seed: u64, torn: &mut Torn, runner: Runner) -> Result<(), String> {
    let mut rng = Rng::new(seed);
    let profile = Profile::random(&mut rng);
    let shape = Shape { groups: rng.pick(&[4, 4, 5]), homes: rng.between(1, 5) };
    let mut world = World::with_runner(shape, 0, runner);
    let mut tally = Tally::default();
    torn.histories += 1;
    for at in 0..rng.pick(&[60, 150, 300]) {
        step(&mut rng, &profile, &mut world, &mut tally, false).map_err(|what| format!("step {at}: {what}"))?;
        // Openings, with their blanking, more often than other calls.
        let opening = world.opened && world.submitted.fences <= 3;
        if rng.chance(if opening { 12 } else { 2 }) {
            world.tear_stretch(&mut rng, torn).map_err(|what| format!("step {at}: {what}"))?;
        }
    }
    Ok(())
}
