//! A driver that fails, and one that calls its own store.

mod medium;

use kagutin::*;
use medium::{Medium, GROUPS, HOMES};
use std::cell::Cell;
use std::rc::Rc;

/// Ten commits, each durable before the next; gives how many were.
fn ten<M: AsMut<[u8]>>(store: &Store<M, Medium>) -> (u8, Option<Error>) {
    for i in 1..=10 {
        let one = || -> Result<(), Error> {
            let mut pair = store.begin(0)?;
            pair.store(6, &[i; 64])?;
            pair.store(7, &[i; 64])?;
            pair.commit_sync()?;
            store.maintain(0)?;
            Ok(())
        };
        if let Err(error) = one() {
            return (i - 1, Some(error));
        }
    }
    (10, None)
}

#[test]
fn each_call_of_the_driver_fails_once() {
    let mut at = 0;
    loop {
        let medium = Medium::new(at as u64 + 1);
        let mut store = Store::new(vec![0; memory_size(GROUPS, HOMES)], GROUPS, HOMES, medium.clone()).unwrap();
        store.format(&mut vec![0; format_size(GROUPS, HOMES)]).unwrap();
        store.open().unwrap();
        medium.0.borrow_mut().left = at;
        medium.0.borrow_mut().comes_back = true;
        let (durable, error) = ten(&store);
        let error = match error {
            None => break,
            Some(error) => error,
        };
        assert_eq!((error.answer(), error.fault().map(Fault::number)), (Answer::DriverFailed, Some(7)), "call {at}");
        assert_eq!(store.read(0, 6).unwrap_err().answer(), Answer::DriverFailed, "until it is opened again");
        store.open().unwrap();
        let (six, seven) = (store.read(0, 6).unwrap(), store.read(0, 7).unwrap());
        assert_eq!(six, seven, "call {at}: half a transaction");
        assert!(six[0] >= durable && six[0] <= durable + 1, "call {at}: {} of {durable} came back", six[0]);
        at += 1;
    }
    assert!(at > 40, "{at} calls");
}

type Itself = Rc<Cell<Option<&'static Store<Vec<u8>, Caller>>>>;

/// Calls the store from its own write.
struct Caller {
    store: Itself,
    answers: Rc<Cell<u64>>,
    medium: Medium,
}

impl Driver for Caller {
    const LANDING: Landing = Landing::Words;

    fn load(&mut self, area: Area, at: usize, bytes: &mut [u8]) -> Result<(), Fault> {
        self.medium.load(area, at, bytes)
    }

    fn write(&mut self, area: Area, at: usize, bytes: &[u8]) -> Result<(), Fault> {
        if let Some(store) = self.store.get() {
            self.answers.set(store.read(0, 0).unwrap_err().answer().number());
        }
        self.medium.write(area, at, bytes)
    }

    fn fence(&mut self) -> Result<(), Fault> {
        self.medium.fence()
    }
}

#[test]
fn a_call_from_the_driver_is_refused() {
    let (shared, answers): (Itself, _) = (Rc::new(Cell::new(None)), Rc::new(Cell::new(0)));
    let driver = Caller { store: shared.clone(), answers: answers.clone(), medium: Medium::new(3) };
    let store = Store::new(vec![0; memory_size(GROUPS, HOMES)], GROUPS, HOMES, driver).unwrap();
    let store = Box::leak(Box::new(store));
    store.format(&mut vec![0; format_size(GROUPS, HOMES)]).unwrap();
    store.open().unwrap();
    let store: &'static Store<_, _> = store;
    shared.set(Some(store));
    let mut one = store.begin(0).unwrap();
    one.store(1, &[1; 64]).unwrap();
    one.commit_sync().unwrap();
    assert_eq!(answers.get(), Answer::LockFailed.number());
    assert_eq!(store.read(0, 1).unwrap(), [1; 64]);
}
