//! All calls on made-up and damaged logs and states, against the plain model.

mod model;

use harness::cases::Cases;
use harness::craft::craft;
use harness::damage::{damage_group, damage_header, damage_listed, damage_newest, damage_state, in_order};
use harness::rng::Rng;
use reference::layout::Shape;
use reference::lent::{Kind, Lent};
use reference::usage::usage;

fn compare(rng: &mut Rng, kind: Kind, lent: &Lent) -> (u32, u64) {
    let homes = lent.data.len() as u64 / 64;
    let (writer, home) = (rng.below(9), rng.below(homes + 1));
    let mut fast = lent.clone();
    let answer = fast.run(kind, writer, home);
    let (want, after) = model::run(kind, writer, home, lent);
    assert_eq!(answer, want, "{kind:?} {writer} {home}");
    assert!(fast == after, "{kind:?} {writer} {home}: memory");
    (answer.code, if kind == Kind::Open { answer.figure } else { 0 })
}

fn rounds(seed: u64, count: u64, shape: impl Fn(&mut Rng) -> Shape) -> [u64; 22] {
    let mut rng = Rng::new(seed);
    let (mut done, mut back, mut seen) = (0u64, 0, [0u64; 22]);
    for _ in 0..count {
        let shape = shape(&mut rng);
        let mut lent = craft(&mut rng, shape);
        for _ in 0..rng.below(3) {
            damage_group(&mut rng, &mut lent, shape);
        }
        if rng.chance(10) {
            damage_header(&mut rng, &mut lent, shape);
        }
        for _ in 0..rng.pick(&[0, 0, 1, 2]) {
            damage_state(&mut rng, &mut lent);
        }
        if rng.chance(50) {
            damage_newest(&mut rng, &mut lent);
        }
        if rng.chance(30) {
            damage_listed(&mut rng, &mut lent);
        }
        assert_eq!(in_order(&lent), model::in_order(&lent));
        assert_eq!(usage(&lent.log, &lent.data, &lent.state), model::usage(&lent));
        if rng.chance(20) {
            lent.batch = vec![0xcc; rng.below(300) as usize];
        }
        let more = [Kind::Store, Kind::Read].repeat(2);
        for kind in Kind::ALL.into_iter().chain(more) {
            let (code, figure) = compare(&mut rng, kind, &lent);
            seen[code as usize] += 1;
            done += u64::from(code == 0);
            back += figure;
        }
    }
    assert!(done > 3 * count, "{done} of {count} times {} done", Kind::COUNT);
    assert!(back > count / 2, "{back} transactions brought back");
    seen
}

#[test]
fn small() {
    rounds(1, 40_000, |rng| Shape { groups: 4, homes: rng.between(1, 8) });
}

/// D about as large as a list of rights needs.
#[test]
fn listed() {
    let seen = rounds(4, 20_000, |rng| Shape { groups: 4, homes: rng.between(8, 14) });
    assert!(seen[19] > 2000 && seen[20] > 2000, "{seen:?}");
}

#[test]
fn middle() {
    rounds(2, 2_000, |rng| Shape { groups: rng.between(5, 40), homes: rng.between(1, 150) });
}

#[test]
fn large() {
    rounds(3, 36, |rng| Shape { groups: rng.between(900, 1024), homes: rng.between(1, 4096) });
}

/// Every value of each mode's byte.
#[test]
fn modes() {
    let mut rng = Rng::new(5);
    let (mut kept, shape) = (0, Shape { groups: 4, homes: 13 });
    for place in 104..112 {
        for value in 0..=255 {
            let mut lent = craft(&mut rng, shape);
            lent.state[place] = value;
            assert_eq!(in_order(&lent), model::in_order(&lent));
            assert_eq!(usage(&lent.log, &lent.data, &lent.state), model::usage(&lent));
            assert!(value < 4 || !in_order(&lent), "mode {value}");
            kept += u64::from(in_order(&lent));
            for kind in Kind::ALL {
                compare(&mut rng, kind, &lent);
            }
        }
    }
    assert!(kept > 10, "{kept} in order");
}

/// The spare bytes are not asked, and stay as they are.
#[test]
fn spare_bytes() {
    let mut rng = Rng::new(6);
    for _ in 0..2_000 {
        let shape = Shape { groups: 4, homes: rng.between(1, 14) };
        let lent = craft(&mut rng, shape);
        let mut other = lent.clone();
        let spare = || (112..128).chain(832..896).chain(936..1024);
        spare().for_each(|at| other.state[at] = rng.next() as u8);
        for kind in Kind::ALL.into_iter().filter(|&kind| kind != Kind::Open) {
            let (writer, home) = (rng.below(8), rng.below(shape.homes));
            let (mut one, mut two) = (lent.clone(), other.clone());
            assert_eq!(one.run(kind, writer, home), two.run(kind, writer, home), "{kind:?} {writer} {home}");
            assert!(spare().all(|at| two.state[at] == other.state[at]), "{kind:?} {writer} {home}: spare bytes");
            spare().for_each(|at| two.state[at] = one.state[at]);
            assert!(one == two, "{kind:?} {writer} {home}: memory");
        }
    }
}

#[test]
fn cases_agree_with_the_model() {
    let mut cases = Cases::new(77);
    let mut seen = [0; 22];
    for _ in 0..20_000 {
        let case = cases.case();
        seen[case.answer.code as usize] += 1;
        let (answer, after) = model::run(case.kind, case.writer, case.home, &case.before);
        assert!(answer == case.answer && after == case.after, "{}", case.json());
        if case.answer.code != 0 {
            assert!(case.before == case.after);
        }
    }
    let given = [0, 1, 2, 3, 4, 5, 6, 7, 8, 9, 10, 17, 18, 19, 20, 21];
    assert!(given.iter().all(|&code| seen[code] > 50), "{seen:?}");
}
