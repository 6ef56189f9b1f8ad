//! Tables, pumps and alarms at the edges of their numbers, through the calls.

use harness::rng::Rng;
use reference::alarms::{self, Alarm};
use reference::bands;
use reference::hours::{Event, Pump};
use reference::layout::{Shape, BLOCK};
use reference::lent::{Kind, Lent};
use reference::units::{Ask, Told, ALARM_HOME, PUMP_HOME, TABLE_HOME};

/// A store just opened, with room for some hundred entries.
fn opened(homes: u64) -> Lent {
    let Shape { groups, homes } = Shape { groups: 64, homes };
    let mut lent = Lent::new(groups, homes);
    assert_eq!(lent.run(Kind::Format, 0, 0).code, 0);
    assert_eq!(lent.run(Kind::Open, 0, 0).code, 0);
    lent
}

fn strip(rows: &[(u16, u16, u8)]) -> Vec<u8> {
    let bytes = |&(from, to, pumps): &(u16, u16, u8)| [&from.to_le_bytes()[..], &to.to_le_bytes(), &[pumps]].concat();
    rows.iter().flat_map(bytes).collect()
}

fn set(lent: &mut Lent, rows: &[u8]) -> (u64, u64) {
    let told = lent.ask(&Ask::SetTable(rows.to_vec()), 0);
    (told.code, if told.code == 0 { 0 } else { told.figures[0] })
}

/// So many rows of one millimetre, and one for the rest.
fn single_rows(count: u16) -> Vec<u8> {
    let mut rows: Vec<(u16, u16, u8)> = (0..count - 1).map(|at| (at, at, (at % 5) as u8)).collect();
    rows.push((count - 1, 9_999, 2));
    strip(&rows)
}

#[test]
fn tables_at_their_edges() {
    let mut lent = opened(30);
    let cases: [(&[(u16, u16, u8)], (u64, u64)); 14] = [
        (&[(0, 9_999, 4)], (0, 0)),
        (&[(0, 9_999, 5)], (11, 0)),
        (&[(0, 10_000, 0)], (11, 0)),
        (&[(0, 65_535, 0)], (11, 0)),
        (&[(65_535, 65_535, 0), (0, 9_999, 0)], (11, 0)),
        (&[(1, 0, 0), (0, 9_999, 0)], (11, 0)),
        (&[(0, 0, 0), (1, 1, 1), (2, 9_998, 2), (9_999, 9_999, 3)], (0, 0)),
        (&[(1, 9_999, 0)], (12, 0)),
        (&[(0, 9_998, 0)], (12, 9_999)),
        (&[(0, 4_999, 0), (5_001, 9_999, 0)], (12, 5_000)),
        (&[(0, 0, 0), (0, 9_999, 0)], (13, 0)),
        (&[(0, 9_999, 0), (9_999, 9_999, 0)], (13, 9_999)),
        (&[(0, 5_000, 0), (5_000, 9_999, 0)], (13, 5_000)),
        (&[(0, 10, 0), (5, 20, 0), (22, 9_999, 0)], (12, 21)),
    ];
    for (rows, want) in cases {
        assert_eq!(set(&mut lent, &strip(rows)), want, "{rows:?}");
    }
    for count in [1, 2, 31, 32] {
        assert_eq!(set(&mut lent, &single_rows(count)), (0, 0), "{count} rows");
    }
    assert_eq!(set(&mut lent, &single_rows(33)), (11, 0));
    let whole = single_rows(32);
    for len in 0..whole.len() {
        let code = set(&mut lent, &whole[..len]).0;
        assert_eq!(code, if len % 5 == 0 && len > 0 { 12 } else { 11 }, "{len} bytes");
    }
    for extra in 1..=5 {
        assert_eq!(set(&mut lent, &[&whole[..], &vec![0; extra]].concat()), (11, 0), "{extra} bytes more");
    }
}

#[test]
fn lookups_at_their_edges() {
    let mut lent = opened(15);
    let look = |lent: &mut Lent, mm: u64| lent.ask(&Ask::LookUp(mm), 7);
    assert_eq!(look(&mut lent, 0), Told::refused(11), "no table yet");
    assert_eq!(set(&mut lent, &strip(&[(300, 9_999, 1), (0, 299, 0)])), (0, 0));
    for (mm, want) in [(0, [0, 299, 0]), (299, [0, 299, 0]), (300, [300, 9_999, 1]), (9_999, [300, 9_999, 1])] {
        assert_eq!(look(&mut lent, mm), Told::figures(want), "{mm} mm");
    }
    for mm in [10_000, 65_535, 65_536, 65_836, 1 << 32, u64::MAX] {
        assert_eq!(look(&mut lent, mm), Told::refused(11), "{mm} mm");
    }
    // A lookup above 9,999 is answered before the store's questions.
    assert_eq!(lent.ask(&Ask::LookUp(10_000), 99).code, 11);
    assert_eq!(lent.ask(&Ask::LookUp(9_999), 99).code, 4);
    assert_eq!(opened(14).ask(&Ask::LookUp(5), 0).code, 5);
}

/// Garbage in the homes: a lookup judges it as a set would.
#[test]
fn lookups_over_any_homes() {
    let mut rng = Rng::new(11);
    let mut lent = opened(15);
    let (mut tables, table) = (0, single_rows(32));
    for _ in 0..3_000 {
        let mut packed = bands::pack(&table[..]);
        packed[0] = rng.pick(&[0, 1, 31, 32, 32, 32, 33, 38, 255]);
        if rng.chance(60) {
            packed[rng.between(1, 191) as usize] ^= 1 << rng.below(8);
        }
        let home = BLOCK * TABLE_HOME as usize;
        lent.data[home..home + packed.len()].copy_from_slice(&packed);
        let rows = usize::from(packed[0]);
        let good = (1..=32).contains(&rows) && bands::judge(&packed[1..=5 * rows]).code == 0;
        tables += u64::from(good);
        assert_eq!(lent.ask(&Ask::LookUp(rng.below(10_000)), 0).code, if good { 0 } else { 11 });
    }
    assert!(tables > 300, "{tables}");
}

fn put_pump(lent: &mut Lent, pump: Pump) {
    let home = BLOCK * PUMP_HOME as usize;
    lent.data[home..home + BLOCK].copy_from_slice(&pump.block());
}

#[test]
fn pumps_at_32_bits() {
    const MOST: u32 = u32::MAX;
    let idle = |starts, total, last| Pump { starts, total, last, running: false };
    let running = |starts, total, last| Pump { starts, total, last, running: true };
    let cases = [
        (idle(0, 0, 0), Event::Start(0), 0),
        (idle(0, 0, 0), Event::Start(MOST), 0),
        (idle(0, 0, 0), Event::Stop(0), 15),
        (idle(0, 0, 7), Event::Start(7), 0),
        (idle(0, 0, 7), Event::Start(6), 16),
        (idle(MOST - 1, 0, 7), Event::Start(7), 0),
        (idle(MOST, 0, 7), Event::Start(7), 16),
        (running(MOST, 0, 7), Event::Start(0), 15),
        (running(1, 0, 7), Event::Stop(7), 0),
        (running(1, 0, 7), Event::Stop(6), 16),
        (running(1, 0, 0), Event::Stop(MOST), 0),
        (running(1, 1, 0), Event::Stop(MOST), 16),
        (running(1, MOST, 9), Event::Stop(9), 0),
        (running(1, MOST, 9), Event::Stop(10), 16),
        (running(1, MOST - 1, 9), Event::Stop(10), 0),
    ];
    for (pump, event, want) in cases {
        let mut lent = opened(17);
        put_pump(&mut lent, pump);
        let ask = match event {
            Event::Start(second) => Ask::Start { pump: 0, second },
            Event::Stop(second) => Ask::Stop { pump: 0, second },
        };
        let before = lent.clone();
        assert_eq!(lent.ask(&ask, 3).code, want, "{pump:?} {event:?}");
        assert_eq!(lent == before, want != 0);
        let after = pump.after(event).unwrap_or(pump);
        let figures = [after.starts.into(), after.total.into(), 0];
        assert_eq!(lent.ask(&Ask::Hours { pump: 0 }, 3), Told::figures(figures));
    }
}

#[test]
fn services_and_wide_numbers() {
    let mut lent = opened(24);
    put_pump(&mut lent, Pump { starts: 3, total: u32::MAX, last: 0, running: true });
    for interval in [1, 2, 3_600, u64::from(u32::MAX), 1 << 32, 1 << 33, u64::MAX] {
        let told = lent.ask(&Ask::Services { pump: 0, interval }, 0);
        let [services, left, _] = told.figures;
        assert_eq!(u128::from(services) * u128::from(interval) + u128::from(left), u128::from(u32::MAX));
        assert!(told.code == 0 && left < interval);
    }
    assert_eq!(lent.ask(&Ask::Services { pump: 0, interval: 0 }, 99).code, 14);
    for pump in [8, 256, 1 << 32, u64::MAX] {
        assert_eq!(lent.ask(&Ask::Start { pump, second: 1 }, 99).code, 14);
        assert_eq!(lent.ask(&Ask::Hours { pump }, 99).code, 14);
        assert_eq!(lent.ask(&Ask::Services { pump, interval: 5 }, 99).code, 14);
    }
    // Pumps are asked one by one: D 17 has pump 0 and no other.
    let mut small = opened(17);
    assert_eq!(small.ask(&Ask::Start { pump: 0, second: 1 }, 0).code, 0);
    assert_eq!(small.ask(&Ask::Start { pump: 1, second: 1 }, 0).code, 5);
}

/// Any block reads as a pump's.
#[test]
fn pumps_of_any_bytes() {
    let mut rng = Rng::new(16);
    for _ in 0..500 {
        let mut lent = opened(17);
        let home = BLOCK * PUMP_HOME as usize;
        lent.data[home..home + BLOCK].fill_with(|| rng.next() as u8);
        let block: [u8; BLOCK] = lent.data[home..home + BLOCK].try_into().unwrap();
        let pump = Pump::read(&block);
        let second = rng.next() as u32;
        let (event, ask) = match rng.chance(50) {
            true => (Event::Start(second), Ask::Start { pump: 0, second }),
            false => (Event::Stop(second), Ask::Stop { pump: 0, second }),
        };
        assert_eq!(lent.ask(&ask, 0).code, pump.after(event).err().unwrap_or(0));
    }
}

#[test]
fn alarms_up_to_the_last() {
    let mut lent = opened(30);
    let arrive = |lent: &mut Lent, identity, class, second| lent.ask(&Ask::Arrive { identity, class, second }, 1).code;
    let gravest = |lent: &mut Lent| lent.ask(&Ask::Gravest, 2).figures;
    assert_eq!(gravest(&mut lent), [0, 0, 0]);
    assert_eq!(arrive(&mut lent, 0, 9, u32::MAX), 0);
    assert_eq!(gravest(&mut lent), [0, 9, u32::MAX.into()]);
    assert_eq!(arrive(&mut lent, u16::MAX, 9, u32::MAX), 0);
    assert_eq!(gravest(&mut lent), [0, 9, u32::MAX.into()], "equal class and second: the lower identity");
    for identity in 1..47 {
        assert_eq!(arrive(&mut lent, identity, 9, u32::MAX), 0, "{identity}");
    }
    assert_eq!(arrive(&mut lent, 100, 1, 0), 25);
    assert_eq!(arrive(&mut lent, 5, 1, 0), 24, "open already, before 25");
    assert_eq!(arrive(&mut lent, 100, 0, 0), 24);
    assert_eq!(arrive(&mut lent, 100, 10, 0), 24);
    assert_eq!(arrive(&mut lent, 100, 257, 0), 24);
    assert_eq!(lent.ask(&Ask::Clear { identity: 100 }, 1).code, 24);
    assert_eq!(lent.ask(&Ask::Clear { identity: 0 }, 1).code, 0);
    assert_eq!(gravest(&mut lent), [1, 9, u32::MAX.into()]);
    assert_eq!(arrive(&mut lent, 0, 1, 1), 0);
    assert_eq!(gravest(&mut lent), [0, 1, 1]);
    assert_eq!(lent.ask(&Ask::Clear { identity: u16::MAX }, 1).code, 0);
    assert_eq!(opened(25).ask(&Ask::Gravest, 0), Told::default(), "the gravest needs its first home alone");
    assert_eq!(opened(29).ask(&Ask::Clear { identity: 0 }, 0).code, 5);
}

/// A list of any bytes: a number above 48 reads as 48.
#[test]
fn alarms_of_any_bytes() {
    let mut rng = Rng::new(48);
    for _ in 0..500 {
        let mut lent = opened(30);
        let home = BLOCK * ALARM_HOME as usize;
        let held = home..home + alarms::BYTES;
        lent.data[held.clone()].fill_with(|| rng.next() as u8);
        lent.data[home] = rng.pick(&[0, 1, 47, 48, 49, 255]);
        let bytes: [u8; alarms::BYTES] = lent.data[held].try_into().unwrap();
        let list = alarms::list(&bytes);
        let identity = if rng.chance(50) { rng.next() as u16 } else { list.first().map_or(3, |alarm| alarm.identity) };
        let open = list.iter().any(|alarm| alarm.identity == identity);
        let told = lent.ask(&Ask::Arrive { identity, class: 4, second: 9 }, 0);
        assert_eq!(
            told.code,
            if open {
                24
            } else if list.len() == 48 {
                25
            } else {
                0
            }
        );
        if told.code == 0 {
            let mut longer = list.clone();
            longer.push(Alarm { identity, class: 4, second: 9 });
            let key = |alarm: &Alarm| (alarm.class, alarm.second, alarm.identity);
            let first = longer.iter().copied().min_by_key(key).unwrap();
            let want = [first.identity.into(), first.class.into(), first.second.into()];
            assert_eq!(lent.ask(&Ask::Gravest, 0), Told::figures(want));
        }
    }
}
