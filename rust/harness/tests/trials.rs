//! The paper's trials, G 4 and D 8.

use harness::landing::{parse, Areas, Record, Submitted};
use reference::layout::{header, word, Shape};
use reference::lent::{Kind, Lent};
use reference::Answer;

const SHAPE: Shape = Shape { groups: 4, homes: 8 };

struct Trial {
    lent: Lent,
    image: Areas,
    submitted: Submitted,
    calls: usize,
}

impl Trial {
    /// Just after opening a new format.
    fn new() -> Trial {
        let mut lent = Lent::new(4, 8);
        let answer = lent.run(Kind::Format, 0, 0);
        assert_eq!(answer, Answer { code: 0, figure: 0, len: 2746 });
        let mut image = Areas::zeros(4, 8);
        image.log.fill(0xee);
        for record in parse(&lent.batch[..answer.len]).unwrap() {
            image.land(&record);
        }
        assert_eq!((&image.log, &image.data), (&lent.log, &lent.data));
        let mut trial = Trial { lent, image, submitted: Submitted::default(), calls: 0 };
        assert_eq!(trial.call(Kind::Open, 0, 0), Answer { code: 0, figure: 0, len: 2136 });
        trial
    }

    fn call(&mut self, kind: Kind, writer: u64, home: u64) -> Answer {
        let answer = self.lent.run(kind, writer, home);
        self.calls += 1;
        self.submitted.add(self.calls, parse(&self.lent.batch[..answer.len]).unwrap());
        answer
    }

    fn begin(&mut self, writer: u64) {
        assert_eq!(self.call(Kind::Begin, writer, 0), Answer::default());
    }

    fn store(&mut self, writer: u64, home: u64, fill: u8) -> Answer {
        self.lent.block.fill(fill);
        self.call(Kind::Store, writer, home)
    }

    fn commit(&mut self, writer: u64) -> Answer {
        self.call(Kind::Commit, writer, 0)
    }

    fn read(&mut self, writer: u64, home: u64) -> u8 {
        assert_eq!(self.call(Kind::Read, writer, home).code, 0);
        assert!(self.lent.block.iter().all(|&byte| byte == self.lent.block[0]));
        self.lent.block[0]
    }

    fn start(&self) -> u64 {
        word(&self.lent.state, 16)
    }

    fn tag(&self, slot: usize, place: usize) -> u64 {
        word(&self.lent.log, 64 + 512 * slot + 8 + 8 * place)
    }

    /// A crash after the opening's fences, with one ring slot lost, and an opening.
    fn reopen_without(&mut self, lost: usize) -> Answer {
        let submitted = std::mem::take(&mut self.submitted);
        let keep = |r: &Record, _| !matches!(r, Record::Group { slot, .. } if *slot == lost);
        submitted.crash(3, &mut self.image, keep);
        self.lent.log = self.image.log.clone();
        self.lent.data = self.image.data.clone();
        self.call(Kind::Open, 0, 0)
    }
}

#[test]
fn trial_1() {
    let mut t = Trial::new();
    t.begin(0);
    assert_eq!(t.store(0, 1, 1), Answer::default());
    assert_eq!(t.store(0, 2, 2), Answer::default());
    assert_eq!(t.commit(0), Answer { code: 0, figure: 28 + 2, len: 0 });
    assert_eq!((t.tag(0, 0), t.tag(0, 1)), (5, 2199023271947));
    assert_eq!(t.call(Kind::Flush, 0, 0).len, 518);
}

/// With a last byte from 128 on: its top bit is in the tag, the turn bit in the block.
#[test]
fn trial_1_high() {
    let mut t = Trial::new();
    t.begin(0);
    t.store(0, 1, 255);
    t.store(0, 2, 127);
    t.commit(0);
    assert_eq!((t.tag(0, 0), t.tag(0, 1)), (5 + (1 << 57), 2199023271947));
    assert_eq!((t.lent.log[64 + 127], t.lent.log[64 + 191]), (255, 255));
    assert_eq!((t.read(1, 1), t.read(1, 2)), (255, 127));
    assert_eq!(t.call(Kind::Flush, 0, 0).len, 518);
    assert_eq!(t.call(Kind::Settle, 0, 0).len, 2 * 68 + 2);
    assert_eq!((t.lent.data[127], t.lent.data[191]), (255, 127));
}

#[test]
fn trial_3() {
    let mut t = Trial::new();
    t.begin(0);
    t.begin(1);
    t.store(0, 3, 0xa1);
    t.store(0, 4, 0xa2);
    t.store(1, 3, 0xb1);
    assert_eq!(t.commit(1).code, 0);
    assert_eq!(t.read(2, 3), 0xb1);
    assert_eq!(t.commit(0).code, 0);
    assert_eq!(t.read(2, 3), 0xa1);
    assert_eq!(t.call(Kind::Flush, 0, 0).code, 0);
    assert_eq!(t.call(Kind::Settle, 0, 0).len, 2 * 68 + 2);
    assert_eq!(t.lent.data[64 * 3], 0xa1);
}

fn eight_homes(commit: bool) -> Trial {
    let mut t = Trial::new();
    t.begin(0);
    for home in 0..8 {
        let len = t.store(0, home, home as u8 + 1).len;
        assert_eq!(len, if home == 7 { 516 } else { 0 });
    }
    if commit {
        assert_eq!(t.commit(0).figure, 28 + 8);
    } else {
        assert_eq!(t.call(Kind::Abort, 0, 0), Answer::default());
    }
    t.begin(1);
    t.store(1, 5, 0x55);
    assert_eq!(t.commit(1).figure, 28 + 8 + u64::from(commit));
    assert_eq!(t.call(Kind::Flush, 0, 0).len, 518);
    t
}

#[test]
fn trial_4() {
    let mut t = eight_homes(false);
    assert_eq!(t.reopen_without(0), Answer { code: 0, figure: 1, len: 68 + 2136 });
    assert_eq!(t.read(0, 5), 0x55);
    assert_eq!(t.read(0, 6), 0);
}

#[test]
fn trial_5() {
    let mut t = eight_homes(true);
    assert_eq!(t.reopen_without(0), Answer { code: 0, figure: 0, len: 2136 });
    assert_eq!(t.read(0, 5), 0);
    let mut whole = eight_homes(true);
    assert_eq!(whole.reopen_without(9), Answer { code: 0, figure: 2, len: 8 * 68 + 2136 });
}

#[test]
fn trials_6_and_7() {
    let mut t = Trial::new();
    t.begin(0);
    for n in 1..=29u64 {
        assert_eq!(t.store(0, n % 2, n as u8).code, 0, "store {n}");
    }
    let full = Answer { code: 8, figure: 0, len: 0 };
    assert_eq!(t.store(0, 0, 30), full);
    assert_eq!(t.commit(0), full);
    assert_eq!(t.store(0, 1, 31).code, 0, "the same home again needs no place");
    assert_eq!(t.call(Kind::Abort, 0, 0).code, 0);
    assert_eq!(t.call(Kind::Flush, 0, 0), Answer { code: 0, figure: 0, len: 2 });
    assert_eq!(t.call(Kind::Settle, 0, 0).len, 2);
    assert_eq!(t.call(Kind::Trim, 0, 0).len, 68);
    assert_eq!(t.start(), 4 + 4);
    assert_eq!(word(&t.lent.state, 24), 8);
    t.begin(0);
    for n in 1..=29u64 {
        assert_eq!(t.store(0, n % 2, n as u8).code, 0, "store {n}");
    }
    assert_eq!(t.store(0, 0, 30), full);
}

#[test]
fn trial_8() {
    let mut t = Trial::new();
    let before = t.lent.clone();
    t.begin(0);
    assert_eq!(t.commit(0), Answer::default());
    assert_eq!(t.lent, before);
}

#[test]
fn trial_9() {
    let mut t = Trial::new();
    t.begin(0);
    t.store(0, 1, 1);
    t.store(0, 2, 2);
    assert_eq!(t.call(Kind::Flush, 0, 0).len, 518);
    assert_eq!(t.call(Kind::Settle, 0, 0).len, 2);
    assert_eq!(t.call(Kind::Trim, 0, 0), Answer::default());
    assert_eq!(t.start(), 4);
}

/// `Trial::new` asserts 2,746 bytes for the format, 0 back and 2,136 bytes for the opening.
#[test]
fn trial_10() {
    let t = Trial::new();
    assert_eq!(t.submitted.fences, 3);
    assert_eq!(t.start(), 4);
}

#[test]
fn trial_11() {
    for (groups, homes, code) in
        [(3, 8, 1), (1025, 8, 1), (4, 0, 1), (4, 65536, 1), (4, 8, 0), (4, 4097, 0), (1024, 65535, 0)]
    {
        let mut lent = Lent::new(groups, homes);
        assert_eq!(lent.run(Kind::Format, 0, 0).code, code);
        for kind in &Kind::ALL[1..] {
            let answer = lent.run(*kind, 0, 0).code;
            assert!((answer == 1) == (code == 1), "{kind:?}");
        }
    }
    let mut t = Trial::new();
    t.begin(7);
    for kind in Kind::ALL.into_iter().filter(|kind| kind.takes_writer()) {
        assert_eq!(t.call(kind, 8, 0).code, 4);
        assert_eq!(t.call(kind, 1 << 32, 0).code, 4);
    }
    assert_eq!(t.store(7, 8, 1).code, 5);
    assert_eq!(t.call(Kind::Read, 7, 8).code, 5);
    assert_eq!(t.store(7, 7, 1).code, 0);
}

#[test]
fn trial_12() {
    let mut t = Trial::new();
    t.begin(0);
    for home in 0..7 {
        t.store(0, home, 1);
    }
    t.lent.batch = vec![0xcc; 515];
    let before = t.lent.clone();
    assert_eq!(t.call(Kind::Store, 0, 7), Answer { code: 9, figure: 0, len: 0 });
    assert_eq!(t.lent, before);
    t.lent.batch = vec![0xcc; 516];
    assert_eq!(t.call(Kind::Store, 0, 7).len, 516);
}

#[test]
fn trial_13() {
    for (back, code) in [(4, 0), (3, 10)] {
        let mut t = Trial::new();
        t.lent.log[..64].copy_from_slice(&header(SHAPE, (1 << 47) - back));
        assert_eq!(t.call(Kind::Open, 0, 0).code, code);
    }
    let mut t = Trial::new();
    t.lent.log[..64].copy_from_slice(&header(SHAPE, (1 << 47) + 1));
    assert_eq!(t.call(Kind::Open, 0, 0).code, 3);
    let mut old = Trial::new();
    old.lent.log[1] = 0x48;
    assert_eq!(old.call(Kind::Open, 0, 0).code, 3);
}

#[test]
fn trial_14_records() {
    let mut t = Trial::new();
    t.begin(0);
    t.store(0, 5, 17);
    t.commit(0);
    for (kind, want) in [(Kind::Flush, "GW 0 FN"), (Kind::Settle, "HW 5 FN"), (Kind::Trim, "KW 5 FN")] {
        let answer = t.call(kind, 0, 0);
        let records = parse(&t.lent.batch[..answer.len]).unwrap();
        let text: Vec<String> = records.iter().map(show).collect();
        assert_eq!(text.join(" "), want);
    }
}

fn show(record: &Record) -> String {
    match record {
        Record::Group { slot, .. } => format!("GW {slot}"),
        Record::Home { home, .. } => format!("HW {home}"),
        Record::Header { bytes } => format!("KW {}", word(bytes, 0) >> 16),
        Record::Fence => "FN".to_string(),
    }
}
