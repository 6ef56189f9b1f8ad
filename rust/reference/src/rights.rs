//! Who may touch what: the list of rights in homes 8 to 11.
//!
//! Writer `w` has 32 bytes at 32 x w: four ranges it may store to, then four it
//! may read, each first home and number of homes. A list is there if D is large
//! enough for its homes and one byte is not 0.

use crate::layout::{home_range, put_word, refuse, word, BLOCK, WRITERS};
use crate::newest::{position, POSITION};
use crate::state::at;
use crate::walk::{kept_entry, View};

pub const LIST_HOME: u64 = 8;
pub const LIST_HOMES: u64 = 4;
/// Ranges of each kind that a writer has.
pub const RANGES: usize = 4;

const RANGE: usize = 4;
const WRITER: usize = 2 * RANGES * RANGE;

/// The list's bytes, by its homes.
#[derive(Clone, Copy, Debug, PartialEq, Eq)]
pub struct List(pub [[u8; BLOCK]; LIST_HOMES as usize]);

/// Is this home one of the list's own?
pub fn of_list(home: u64) -> bool {
    (LIST_HOME..LIST_HOME + LIST_HOMES).contains(&home)
}

/// Is D large enough for a list?
pub fn has_room(homes: u64) -> bool {
    homes >= LIST_HOME + LIST_HOMES
}

impl List {
    pub const NONE: List = List([[0; BLOCK]; LIST_HOMES as usize]);

    pub fn is_there(&self) -> bool {
        self.0.iter().flatten().any(|&byte| byte != 0)
    }

    /// The range at a byte: its first home, and the one after its last.
    fn range(&self, from: usize) -> std::ops::Range<u64> {
        let (block, at) = (&self.0[from / BLOCK], from % BLOCK);
        let two = |at: usize| u64::from(u16::from_le_bytes([block[at], block[at + 1]]));
        two(at)..two(at) + two(at + 2)
    }

    fn lies_in(&self, from: usize, home: u64) -> bool {
        (0..RANGES).any(|index| self.range(from + RANGE * index).contains(&home))
    }

    /// The rights that it gives by its own bytes.
    pub fn rights(&self) -> Rights {
        Rights { list: *self, there: self.is_there() }
    }

    pub fn may_store(&self, writer: u64, home: u64) -> bool {
        self.rights().may_store(writer, home)
    }

    pub fn may_read(&self, writer: u64, home: u64) -> bool {
        self.rights().may_read(writer, home)
    }

    /// Gives a writer a range: the first four indices are to store, the others to read.
    pub fn put(&mut self, writer: u64, index: usize, first: u16, number: u16) {
        assert!(writer < WRITERS && index < 2 * RANGES);
        let from = WRITER * writer as usize + RANGE * index;
        let (block, at) = (&mut self.0[from / BLOCK], from % BLOCK);
        block[at..at + 2].copy_from_slice(&first.to_le_bytes());
        block[at + 2..at + 4].copy_from_slice(&number.to_le_bytes());
    }
}

/// A list, and whether one is there, which the sign in a state may say.
pub struct Rights {
    list: List,
    there: bool,
}

impl Rights {
    /// The list's own homes are for writer 0 to store to.
    pub fn may_store(&self, writer: u64, home: u64) -> bool {
        if of_list(home) {
            return writer == 0;
        }
        !self.there || self.list.lies_in(WRITER * writer as usize, home)
    }

    /// All may read the list's own homes.
    pub fn may_read(&self, writer: u64, home: u64) -> bool {
        of_list(home) || !self.there || self.list.lies_in(WRITER * writer as usize + RANGES * RANGE, home)
    }
}

/// A list that a call has found, with the sign of the state.
fn signed(view: &View, state: &[u8], list: List) -> Rights {
    let there = match word(state, at::SIGN) {
        1 => false,
        2 => true,
        _ => list.is_there(),
    };
    Rights { list, there: there && has_room(view.shape.homes) }
}

/// The list that counts: for each of its homes the block at the kept position,
/// if an entry for the home is there, else the data copy's.
pub(crate) fn find(view: &View, data: &[u8], kept: impl Fn(u64) -> u64) -> List {
    let mut list = List::NONE;
    if !has_room(view.shape.homes) {
        return list;
    }
    for (block, home) in list.0.iter_mut().zip(LIST_HOME..) {
        match kept_entry(view, home, kept(home)) {
            Some(offset) => *block = view.block(offset),
            None => block.copy_from_slice(&data[home_range(home as usize)]),
        }
    }
    list
}

/// Question 19. A store is not lent the newest positions, and finds the list by
/// those in the state.
pub fn check_store(view: &View, data: &[u8], state: &[u8], writer: u64, home: u64) -> Result<(), u32> {
    let listed = &state[at::LISTED..];
    let list = find(view, data, |home| position(listed, home - LIST_HOME));
    if signed(view, state, list).may_store(writer, home) {
        Ok(())
    } else {
        Err(refuse::STORE_RIGHT)
    }
}

/// The list as a call finds it that is lent the newest positions.
fn newest_list(view: &View, data: &[u8], newest: &[u8]) -> List {
    find(view, data, |home| position(newest, home))
}

/// The same with the sign of the state.
pub fn newest_rights(view: &View, data: &[u8], state: &[u8], newest: &[u8]) -> Rights {
    signed(view, state, newest_list(view, data, newest))
}

/// Question 20.
pub fn check_read(view: &View, data: &[u8], state: &[u8], newest: &[u8], writer: u64, home: u64) -> Result<(), u32> {
    let rights = newest_rights(view, data, state, newest);
    if rights.may_read(writer, home) {
        Ok(())
    } else {
        Err(refuse::READ_RIGHT)
    }
}

/// The list's newest positions into the state, where D is large enough for it.
pub fn carry_listed(homes: u64, newest: &[u8], state: &mut [u8]) {
    if has_room(homes) {
        let from = POSITION * LIST_HOME as usize;
        state[at::LISTED..at::LISTED_END].copy_from_slice(&newest[from..from + POSITION * LIST_HOMES as usize]);
    }
}

/// The sign that an opening leaves: the whole list lies in the data copy.
pub fn sign_opened(homes: u64, data: &[u8], state: &mut [u8]) {
    if has_room(homes) {
        let (first, end) = (home_range(LIST_HOME as usize).start, home_range((LIST_HOME + LIST_HOMES) as usize).start);
        let zeros = data[first..end].iter().all(|&byte| byte == 0);
        put_word(state, at::SIGN, if zeros { 1 } else { 2 });
    }
}

/// What a commit keeps of the list in the state: its positions, and where one
/// of them has changed the sign of the list as it is now.
pub fn keep_list(view: &View, data: &[u8], newest: &[u8], state: &mut [u8]) {
    let homes = view.shape.homes;
    let before = state[at::LISTED..at::LISTED_END].to_vec();
    carry_listed(homes, newest, state);
    if has_room(homes) && state[at::LISTED..at::LISTED_END] != before[..] {
        let list = newest_list(view, data, newest);
        put_word(state, at::SIGN, if list.is_there() { 2 } else { 1 });
    }
}
