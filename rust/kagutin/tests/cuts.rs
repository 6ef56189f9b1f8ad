//! Histories by chance with cuts: every opening gives a prefix of the commits, whole, with all that was durable in it.

mod medium;

use kagutin::*;
use medium::{Chance, Medium, GROUPS, HOMES};

/// Homes of the station's own.
const USED: [u16; 10] = [0, 1, 2, 3, 6, 7, 32, 35, 38, 39];
type State = Vec<Block>;

/// The homes after each commit since the opening; those up to `durable` no cut may take.
struct Book {
    after: Vec<State>,
    durable: usize,
}

impl Book {
    fn committed(&mut self, entries: &[(usize, Block)]) {
        let mut state = self.after.last().unwrap().clone();
        for (home, block) in entries {
            state[*home] = *block;
        }
        self.after.push(state);
    }
}

fn homes<M: AsMut<[u8]>>(store: &Store<M, Medium>) -> State {
    USED.iter().map(|home| store.read(0, *home).unwrap()).collect()
}

/// One transaction of a writer: dropped, committed, or committed and synced.
fn transact<M: AsMut<[u8]>>(store: &Store<M, Medium>, chance: &mut Chance, book: &mut Book) -> Result<(), Error> {
    let mut entries = Vec::new();
    let mut open = store.begin(chance.below(8) as u8)?;
    for _ in 0..1 + chance.below(5) {
        let (home, block) = (chance.below(USED.len()), [chance.below(256) as u8; 64]);
        open.store(USED[home], &block)?;
        entries.push((home, block));
    }
    match chance.below(4) {
        0 => return Ok(()),
        1 => match open.commit_sync() {
            Err(Unfinished::Unknown(error)) => {
                book.committed(&entries);
                return Err(error);
            }
            result => {
                result?;
                book.committed(&entries);
                book.durable = book.after.len() - 1;
            }
        },
        _ => match open.commit() {
            Err(Unfinished::Unknown(error)) => {
                book.committed(&entries);
                return Err(error);
            }
            result => {
                let ticket = result?;
                book.committed(&entries);
                if chance.below(4) == 0 && store.sync()?.reaches(ticket) {
                    book.durable = book.after.len() - 1;
                }
            }
        },
    }
    if chance.below(6) == 0 {
        store.maintain(chance.below(3) as u64)?;
    }
    Ok(())
}

/// Opens until it is done, with power failing while it does, and checks what came back.
fn open<M: AsMut<[u8]>>(store: &mut Store<M, Medium>, chance: &mut Chance, book: &mut Book) {
    while {
        let memory = store.driver_mut().0.clone();
        memory.borrow_mut().left = chance.below(60);
        store.open().is_err()
    } {
        store.driver_mut().0.borrow_mut().cut();
    }
    store.driver_mut().0.borrow_mut().left = usize::MAX;
    let found = homes(store);
    assert!(book.after[book.durable..].contains(&found), "no prefix of the commits, or a durable one is gone");
    *book = Book { after: vec![found], durable: 0 };
}

/// One history after the other, each with 40 cuts.
fn histories(no_fence: bool) {
    for seed in 1..40 {
        let mut chance = Chance(seed * 0x9E37_79B9 + 1);
        let medium = Medium::new(seed);
        let mut memory = vec![0; memory_size(GROUPS, HOMES)];
        let mut store = Store::new(&mut memory[..], GROUPS, HOMES, medium.clone()).unwrap();
        store.format(&mut vec![0; format_size(GROUPS, HOMES)]).unwrap();
        medium.0.borrow_mut().no_fence = no_fence;
        let mut book = Book { after: vec![vec![[0; 64]; USED.len()]], durable: 0 };
        for _ in 0..40 {
            open(&mut store, &mut chance, &mut book);
            medium.0.borrow_mut().left = chance.below(120);
            while transact(&store, &mut chance, &mut book).is_ok() {}
            medium.0.borrow_mut().cut();
        }
    }
}

#[test]
fn every_opening_brings_back_a_prefix_of_the_commits() {
    histories(false);
}

#[test]
#[should_panic(expected = "no prefix of the commits")]
fn a_driver_without_a_fence_is_found_out() {
    histories(true);
}
