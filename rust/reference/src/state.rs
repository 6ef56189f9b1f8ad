//! The state between calls (the paper's "strip"): 1,024 bytes, eight-byte numbers,
//! two-byte promises and one-byte modes.

use crate::layout::{put_word, refuse, word, Shape, BLOCK, PLACES, START_LIMIT, STATE, WRITERS};

/// Byte places of the fields.
pub mod at {
    pub const GROUPS: usize = 0;
    pub const HOMES: usize = 8;
    pub const START: usize = 16;
    pub const NEXT: usize = 24;
    pub const FILLED: usize = 32;
    pub const SETTLED: usize = 40;
    pub const FENCED: usize = 48;
    pub const DURABLE: usize = 56;
    pub const LAST_CLOSING: usize = 64;
    pub const PROMISE: usize = 72;
    pub const PROMISE_SIZE: usize = 2;
    pub const ROUND: usize = 88;
    pub const CURSOR: usize = 96;
    /// The modes of the eight writers, one byte each.
    pub const MODE: usize = 104;
    /// Three numbers of each writer.
    pub const WRITER: usize = 128;
    pub const WRITER_SIZE: usize = 24;
    pub const HELD_HOME: usize = 0;
    pub const FIRST: usize = 8;
    /// The number of logged entries less one, modulo 2^64.
    pub const COUNT: usize = 16;
    /// The writers' pending blocks.
    pub const HELD_BLOCK: usize = 320;
    /// The newest positions of the list's four homes.
    pub const LISTED: usize = 896;
    pub const LISTED_END: usize = 928;
    /// The list's sign: 1, no list is committed; 2, one is; else nothing is said.
    pub const SIGN: usize = 928;
}

/// Writer modes. A pending block is the paper's "held block".
pub mod mode {
    pub const IDLE: u64 = 0;
    pub const OPEN: u64 = 1;
    pub const HOLDING: u64 = 2;
    pub const LOGGING: u64 = 3;
}

/// The numbers that are not a writer's.
#[derive(Clone, Copy, Debug, PartialEq, Eq)]
pub struct State {
    pub shape: Shape,
    pub start: u64,
    /// Number of the next group not yet submitted ("handed on").
    pub next: u64,
    /// Places filled in it.
    pub filled: u64,
    pub settled: u64,
    pub fenced: u64,
    pub durable: u64,
    /// Position of the last commit entry plus one; none up to the first position of the log.
    pub last_closing: u64,
    /// The F that the round under way has fixed, plus one; 0 for no round.
    pub round: u64,
    /// Its homes below this one are done.
    pub cursor: u64,
}

/// A writer's mode and the three numbers of its record.
#[derive(Clone, Copy, Debug, PartialEq, Eq)]
pub struct Writer {
    pub mode: u64,
    pub home: u64,
    pub first: u64,
    pub count: u64,
}

impl State {
    /// Questions 1 and 2 for every call that is lent a state.
    pub fn load(log: &[u8], data: &[u8], bytes: &[u8]) -> Result<State, u32> {
        let shape = Shape::of(log.len(), data.len())?;
        if bytes.len() != STATE {
            return Err(refuse::LENGTHS);
        }
        let state = State::read(shape, bytes);
        let named = Shape { groups: word(bytes, at::GROUPS), homes: word(bytes, at::HOMES) };
        let in_order = named == shape
            && state.numbers_in_order()
            && (0..WRITERS).all(|w| state.writer_in_order(Writer::load(bytes, w)))
            && promised(bytes) <= state.places()
            && (0..WRITERS).all(|w| Writer::load(bytes, w).mode != mode::IDLE || promise(bytes, w) == 0);
        if in_order {
            Ok(state)
        } else {
            Err(refuse::STATE)
        }
    }

    /// The numbers as they stand there.
    pub fn read(shape: Shape, bytes: &[u8]) -> State {
        State {
            shape,
            start: word(bytes, at::START),
            next: word(bytes, at::NEXT),
            filled: word(bytes, at::FILLED),
            settled: word(bytes, at::SETTLED),
            fenced: word(bytes, at::FENCED),
            durable: word(bytes, at::DURABLE),
            last_closing: word(bytes, at::LAST_CLOSING),
            round: word(bytes, at::ROUND),
            cursor: word(bytes, at::CURSOR),
        }
    }

    /// Each test guards the arithmetic of those after it.
    fn numbers_in_order(&self) -> bool {
        self.start <= START_LIMIT
            && self.start <= self.next
            && self.next <= self.end_group()
            && self.filled <= 6
            && (self.filled == 0 || self.next < self.end_group())
            && self.first_position() <= self.settled
            && self.settled <= self.fenced
            && self.fenced <= PLACES * self.next
            && self.durable <= self.fenced
            && (self.last_closing <= self.first_position() || self.is_used(self.last_closing - 1))
            && (self.round == 0 || (self.settled < self.round && self.round - 1 <= self.fenced))
    }

    fn writer_in_order(&self, writer: Writer) -> bool {
        match writer.mode {
            mode::IDLE | mode::OPEN => true,
            mode::HOLDING => writer.home < self.shape.homes,
            mode::LOGGING => {
                writer.home < self.shape.homes
                    && self.is_used(writer.first)
                    && 1 <= writer.count
                    && writer.count <= self.next_position() - writer.first
            }
            _ => false,
        }
    }

    /// From 7 x start to below the next position.
    fn is_used(&self, position: u64) -> bool {
        self.first_position() <= position && position < self.next_position()
    }

    /// The group number that is out of reach until a trim.
    pub fn end_group(&self) -> u64 {
        self.start + self.shape.groups
    }

    pub fn first_position(&self) -> u64 {
        PLACES * self.start
    }

    pub fn next_position(&self) -> u64 {
        PLACES * self.next + self.filled
    }

    /// The places from the next position to the end of the last group in reach.
    pub fn places(&self) -> u64 {
        PLACES * self.end_group() - self.next_position()
    }

    /// What a fence (FN) does to the state.
    pub fn fence(&mut self) {
        self.fenced = PLACES * self.next;
    }

    /// Writes the numbers back; G and D are there already.
    pub fn save(&self, bytes: &mut [u8]) {
        put_word(bytes, at::START, self.start);
        put_word(bytes, at::NEXT, self.next);
        put_word(bytes, at::FILLED, self.filled);
        put_word(bytes, at::SETTLED, self.settled);
        put_word(bytes, at::FENCED, self.fenced);
        put_word(bytes, at::DURABLE, self.durable);
        put_word(bytes, at::LAST_CLOSING, self.last_closing);
        put_word(bytes, at::ROUND, self.round);
        put_word(bytes, at::CURSOR, self.cursor);
    }

    /// The state bytes just after an opening.
    pub fn save_fresh(bytes: &mut [u8], shape: Shape, start: u64) {
        bytes.fill(0);
        put_word(bytes, at::GROUPS, shape.groups);
        put_word(bytes, at::HOMES, shape.homes);
        let position = PLACES * start;
        let fresh = State {
            shape,
            start,
            next: start,
            filled: 0,
            settled: position,
            fenced: position,
            durable: position,
            last_closing: 0,
            round: 0,
            cursor: 0,
        };
        fresh.save(bytes);
        bytes[at::LISTED..at::LISTED_END].fill(0xff);
    }
}

fn record(writer: u64) -> usize {
    at::WRITER + at::WRITER_SIZE * writer as usize
}

/// Places promised to a writer and not used up yet.
pub fn promise(bytes: &[u8], writer: u64) -> u64 {
    let from = at::PROMISE + at::PROMISE_SIZE * writer as usize;
    u64::from(u16::from_le_bytes([bytes[from], bytes[from + 1]]))
}

pub fn set_promise(bytes: &mut [u8], writer: u64, places: u64) {
    let from = at::PROMISE + at::PROMISE_SIZE * writer as usize;
    bytes[from..from + at::PROMISE_SIZE].copy_from_slice(&(places as u16).to_le_bytes());
}

/// Places promised to all writers together.
pub fn promised(bytes: &[u8]) -> u64 {
    (0..WRITERS).map(|w| promise(bytes, w)).sum()
}

/// The bytes of a writer's pending block.
pub fn pending_range(writer: u64) -> std::ops::Range<usize> {
    let from = at::HELD_BLOCK + BLOCK * writer as usize;
    from..from + BLOCK
}

impl Writer {
    /// A record of zeros: its count of 1 says nothing, since the mode is not that of a writer that logs.
    pub const IDLE: Writer = Writer { mode: mode::IDLE, home: 0, first: 0, count: 1 };
    pub const OPEN: Writer = Writer { mode: mode::OPEN, ..Writer::IDLE };

    pub fn holding(home: u64) -> Writer {
        Writer { mode: mode::HOLDING, home, ..Writer::IDLE }
    }

    #[inline(always)] // sixteen times in question 2
    pub fn load(bytes: &[u8], writer: u64) -> Writer {
        let from = record(writer);
        Writer {
            mode: u64::from(bytes[at::MODE + writer as usize]),
            home: word(bytes, from + at::HELD_HOME),
            first: word(bytes, from + at::FIRST),
            count: word(bytes, from + at::COUNT).wrapping_add(1),
        }
    }

    pub fn save(&self, bytes: &mut [u8], writer: u64) {
        let from = record(writer);
        bytes[at::MODE + writer as usize] = self.mode as u8;
        put_word(bytes, from + at::HELD_HOME, self.home);
        put_word(bytes, from + at::FIRST, self.first);
        put_word(bytes, from + at::COUNT, self.count.wrapping_sub(1));
    }

    pub fn holds(&self) -> bool {
        self.mode == mode::HOLDING || self.mode == mode::LOGGING
    }

    /// First position and count of its logged entries.
    pub fn logged(&self) -> Option<(u64, u64)> {
        (self.mode == mode::LOGGING).then_some((self.first, self.count))
    }
}

/// Question 4.
pub fn check_writer(writer: u64) -> Result<(), u32> {
    if writer < WRITERS {
        Ok(())
    } else {
        Err(refuse::WRITER)
    }
}

/// Question 5.
pub fn check_home(shape: Shape, home: u64) -> Result<(), u32> {
    if home < shape.homes {
        Ok(())
    } else {
        Err(refuse::HOME)
    }
}
