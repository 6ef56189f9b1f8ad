//! Each call of the crate, what it gives and what it refuses.

mod medium;

use kagutin::*;
use medium::{Medium, GROUPS, HOMES};

type Owned = Store<Vec<u8>, Medium>;

fn opened(medium: &Medium) -> Owned {
    let mut store = Store::new(vec![0; memory_size(GROUPS, HOMES)], GROUPS, HOMES, medium.clone()).unwrap();
    store.open().unwrap();
    store
}

fn formatted() -> (Medium, Owned) {
    let medium = Medium::new(1);
    let mut store = Store::new(vec![0; memory_size(GROUPS, HOMES)], GROUPS, HOMES, medium.clone()).unwrap();
    assert_eq!(store.open().unwrap_err().answer(), Answer::BadHeader);
    store.format(&mut vec![0; format_size(GROUPS, HOMES)]).unwrap();
    assert_eq!(store.open(), Ok(0));
    (medium, store)
}

fn cut(medium: &Medium) -> Owned {
    medium.0.borrow_mut().cut();
    opened(medium)
}

#[test]
fn a_commit_is_read_back_after_a_cut() -> Result<(), Error> {
    let (medium, store) = formatted();
    let mut pair = store.begin(3)?;
    pair.store(6, &[1; 64])?;
    pair.store(7, &[2; 64])?;
    assert_eq!((pair.writer(), pair.read(7)?, store.read(0, 7)?), (3, [2; 64], [0; 64]));
    pair.commit_sync()?;
    let store = cut(&medium);
    assert_eq!((store.read(0, 6)?, store.read(0, 7)?), ([1; 64], [2; 64]));
    Ok(())
}

#[test]
fn a_dropped_transaction_is_aborted() -> Result<(), Error> {
    let (_, store) = formatted();
    {
        let mut dropped = store.begin(0)?;
        dropped.store(5, &[9; 64])?;
    }
    assert_eq!(store.read(0, 5)?, [0; 64]);
    let early = || -> Result<(), Error> {
        let mut half = store.begin(0)?;
        half.store(5, &[9; 64])?;
        half.store(HOMES as u16, &[9; 64]) // refused
    };
    assert_eq!(early().unwrap_err().answer(), Answer::BadHome);
    store.begin(0)?.abort()?;
    store.begin(0)?.commit_sync()?;
    assert_eq!(store.read(0, 5)?, [0; 64]);
    Ok(())
}

#[test]
fn writers_do_not_see_each_other_before_they_commit() -> Result<(), Error> {
    let (_, store) = formatted();
    let (mut first, mut second) = (store.begin(0)?, store.begin(1)?);
    first.store(4, &[1; 64])?;
    second.store(4, &[2; 64])?;
    assert_eq!(store.begin(0).unwrap_err().answer(), Answer::NotIdle);
    assert_eq!((first.read(4)?, second.read(4)?, store.read(2, 4)?), ([1; 64], [2; 64], [0; 64]));
    let _ = first.commit()?;
    assert_eq!((store.read(2, 4)?, second.read(4)?), ([1; 64], [2; 64]));
    drop(second);
    assert_eq!(store.read(1, 4)?, [1; 64]);
    Ok(())
}

#[test]
fn a_mark_reaches_what_is_durable_and_no_ticket_of_another_opening() -> Result<(), Error> {
    let (_, mut store) = formatted();
    let mut one = store.begin(0)?;
    one.store(0, &[1; 64])?;
    let ticket = one.commit()?;
    let mark = store.sync()?;
    assert!(mark.reaches(ticket));
    let mut two = store.begin(0)?;
    two.store(0, &[2; 64])?;
    let later = two.commit()?;
    assert!(!mark.reaches(later));
    store.open()?;
    assert!(!store.sync()?.reaches(ticket) && !store.sync()?.reaches(later));
    Ok(())
}

#[test]
fn a_full_log_names_its_holder_and_the_commit_can_be_tried_again() -> Result<(), Error> {
    let (_, mut store) = formatted();
    store.set_room(Room::ByMaintain);
    let mut long = store.begin(2)?;
    let refused = (0..).find_map(|i| long.store(i % 4, &[i as u8; 64]).err()).unwrap();
    assert_eq!((refused.answer(), refused.holder()), (Answer::Full, Some(2)));
    assert_eq!(refused.to_string(), format!("answer 8: {}; writer 2 holds the log", Answer::Full));
    assert_eq!((store.usage()?.holder, store.usage()?.free), (Some(2), 0));
    let long = match long.commit() {
        Err(Unfinished::StillOpen(error, long)) if error.answer() == Answer::Full => long,
        other => panic!("{other:?}"),
    };
    drop(long);
    assert_eq!(store.reserve(1, 3).unwrap_err().answer(), Answer::NoPlaces);
    while {
        store.sync()?;
        store.maintain(0)?
    } {}
    assert_eq!(store.usage()?.free, 7 * GROUPS as u64);
    let mut kept = store.reserve(1, 3)?;
    assert_eq!(store.usage()?.promised, 3);
    kept.store(1, &[1; 64])?;
    kept.commit_sync()?;
    Ok(())
}

#[test]
fn a_commit_that_is_not_yet_durable_keeps_its_ticket() -> Result<(), Error> {
    let (_, mut store) = formatted();
    store.set_room(Room::ByMaintain);
    let promised = store.reserve(1, 7 * GROUPS as u64 - 1)?;
    let mut other = store.begin(0)?;
    other.store(3, &[3; 64])?;
    let ticket = match other.commit_sync() {
        Err(Unfinished::NotDurable(error, ticket)) if error.answer() == Answer::Promised => ticket,
        other => panic!("{other:?}"),
    };
    drop(promised);
    assert!(store.sync()?.reaches(ticket));
    Ok(())
}

#[test]
fn refused_shapes_and_lengths() {
    let medium = Medium::new(1);
    let new = |size, groups, homes| {
        Store::new(vec![0; size], groups, homes, medium.clone()).map(|_| ()).map_err(|e| e.answer())
    };
    assert_eq!(new(memory_size(GROUPS, HOMES) - 1, GROUPS, HOMES), Err(Answer::BadLength));
    assert_eq!(new(1 << 20, 3, HOMES), Err(Answer::BadLength));
    assert_eq!(new(1 << 20, 4, 0), Err(Answer::BadLength));
    assert_eq!(new(memory_size(4, 1), 4, 1), Ok(()));
    let (_, mut store) = formatted();
    assert_eq!(store.begin(8).unwrap_err().answer().number(), 4);
    assert_eq!(store.format(&mut [0; 100]).unwrap_err().answer(), Answer::ShortBatch);
    assert_eq!(store.begin(0).unwrap().store(8, &[0; 64]).unwrap_err().answer(), Answer::ListGuarded);
    store.allow_list_stores();
    assert!(store.begin(0).unwrap().store(8, &[0; 64]).is_ok());
    let (memory, driver) = store.into_parts();
    let closed = Store::new(memory, GROUPS, HOMES, driver).unwrap();
    assert_eq!(closed.read(0, 0).unwrap_err().answer(), Answer::Closed);
}

#[test]
fn memory_and_driver_may_be_lent_and_a_store_may_move() -> Result<(), Error> {
    const SIZE: usize = memory_size(GROUPS, HOMES);
    let (mut medium, store) = formatted();
    drop(store);
    let mut bytes = [0; SIZE];
    let mut lent = Store::new(&mut bytes[..], GROUPS, HOMES, &mut medium)?;
    lent.open()?;
    let moved = Box::new(lent);
    let mut one = moved.begin(0)?;
    one.store(2, &[5; 64])?;
    one.commit_sync()?;
    let back = *moved;
    assert_eq!(back.read(0, 2)?, [5; 64]);
    let mut owned = Store::new([0; SIZE], GROUPS, HOMES, &mut medium)?;
    owned.open()?;
    let elsewhere = [Some(owned)];
    assert_eq!(elsewhere[0].as_ref().unwrap().read(0, 2)?, [5; 64]);
    Ok(())
}

#[test]
fn rights_are_kept_and_obeyed() -> Result<(), Error> {
    let (medium, store) = formatted();
    let mut list = Rights::none();
    assert!(!list.is_list());
    assert!(list.allow_store(3, 32..36) && list.allow_read(3, 0..HOMES as u16) && !list.allow_read(8, 0..1));
    assert!(
        list.is_list()
            && list.may_store(3, 35)
            && !list.may_store(3, 36)
            && !list.may_read(4, 0)
            && !list.may_read(9, 0)
    );
    let ticket = store.set_rights(&list)?;
    assert!(store.sync()?.reaches(ticket));
    let store = cut(&medium);
    assert_eq!(store.rights(5)?, list);
    let mut refused = store.begin(3)?;
    assert_eq!(refused.store(36, &[1; 64]).unwrap_err().answer(), Answer::StoreDenied);
    refused.store(35, &[1; 64])?;
    assert_eq!(store.read(4, 0).unwrap_err().answer(), Answer::ReadDenied);
    Ok(())
}

#[test]
fn units_give_what_was_committed() -> Result<(), Error> {
    let (medium, store) = formatted();
    let bands = [Band { from: 0, to: 999, pumps: 0 }, Band { from: 1000, to: 9999, pumps: 2 }];
    let gap = store.set_bands(0, &[bands[0], Band { from: 1001, ..bands[1] }]).unwrap_err();
    assert_eq!((gap.answer(), gap.millimetre()), (Answer::BandGap, Some(1000)));
    assert_eq!(store.set_bands(0, &[bands[0]; 40]).unwrap_err().answer(), Answer::BadBands);
    let _ = store.set_bands(0, &bands)?;
    let _ = store.pump_start(1, 4, 100)?;
    assert_eq!(store.pump_start(1, 4, 101).unwrap_err().answer(), Answer::WrongPumpState);
    let _ = store.pump_stop(1, 4, 350)?;
    let alarms = [Alarm { identity: 7, class: 3, second: 5 }, Alarm { identity: 9, class: 2, second: 6 }];
    assert_eq!(store.alarm_gravest(2)?, None);
    let _ = store.alarm_arrive(2, alarms[0])?;
    let ticket = store.alarm_arrive(2, alarms[1])?;
    assert!(store.sync()?.reaches(ticket));
    let store = cut(&medium);
    assert_eq!(store.band(0, 1000)?, bands[1]);
    assert_eq!(store.pump_hours(0, 4)?, Hours { starts: 1, seconds: 250 });
    assert_eq!(store.pump_services(0, 4, 100)?, Services { due: 2, left: 50 });
    assert_eq!(store.alarm_gravest(0)?, Some(alarms[1]));
    let _ = store.alarm_clear(2, 9)?;
    assert_eq!(store.alarm_gravest(0)?, Some(alarms[0]));
    Ok(())
}

#[test]
fn a_store_can_go_to_another_thread() {
    fn can_go<T: Send>() {}
    struct Nothing;
    impl Driver for Nothing {
        const LANDING: Landing = Landing::Blocks;
        fn load(&mut self, _: Area, _: usize, _: &mut [u8]) -> Result<(), Fault> {
            Ok(())
        }
        fn write(&mut self, _: Area, _: usize, _: &[u8]) -> Result<(), Fault> {
            Ok(())
        }
        fn fence(&mut self) -> Result<(), Fault> {
            Ok(())
        }
    }
    can_go::<Store<Vec<u8>, Nothing>>();
}
