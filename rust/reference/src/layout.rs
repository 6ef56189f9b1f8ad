//! Sizes, marks and the header of the log area.

pub const BLOCK: usize = 64;
pub const HEADER: usize = 64;
pub const GROUP: usize = 512;
pub const STATE: usize = 1024;
/// Data blocks of one group, and tags in its metadata block.
pub const PLACES: u64 = 7;
pub const MAX_GROUPS: usize = 1024;
pub const MAX_HOMES: usize = 65535;
pub const MAX_OFFSETS: usize = 7 * MAX_GROUPS;
pub const WRITERS: u64 = 8;
/// The highest start a header may carry.
pub const START_LIMIT: u64 = 1 << 47;

const HEADER_MARK: [u8; 2] = [0x50, 0x54];
/// The top bit of a data block's last byte: its turn bit in the log.
const TOP: u8 = 0x80;
const GROUP_MARK: [u8; 2] = [0x50, 0x47];

/// Refusal numbers.
pub mod refuse {
    pub const LENGTHS: u32 = 1;
    pub const STATE: u32 = 2;
    pub const HEADER: u32 = 3;
    pub const WRITER: u32 = 4;
    pub const HOME: u32 = 5;
    pub const NOT_IDLE: u32 = 6;
    pub const NOT_OPEN: u32 = 7;
    pub const FULL: u32 = 8;
    pub const BATCH: u32 = 9;
    pub const START: u32 = 10;
    pub const NO_PLACES: u32 = 17;
    pub const PROMISED: u32 = 18;
    pub const STORE_RIGHT: u32 = 19;
    pub const READ_RIGHT: u32 = 20;
    pub const ROUND: u32 = 21;
    /// One more than the highest.
    pub const END: usize = 22;
}

/// What every call gives back. A refusal has its number as `code`, and zeros.
#[derive(Clone, Copy, Debug, PartialEq, Eq, Default)]
pub struct Answer {
    pub code: u32,
    pub figure: u64,
    pub len: usize,
}

impl Answer {
    pub const DONE: Answer = Answer { code: 0, figure: 0, len: 0 };

    pub fn wrote(len: usize) -> Answer {
        Answer { code: 0, figure: 0, len }
    }

    pub fn of(result: Result<Answer, u32>) -> Answer {
        result.unwrap_or_else(|code| Answer { code, figure: 0, len: 0 })
    }
}

/// G and D of two lent areas, or refusal 1.
#[derive(Clone, Copy, Debug, PartialEq, Eq)]
pub struct Shape {
    pub groups: u64,
    pub homes: u64,
}

impl Shape {
    pub fn of(log_len: usize, data_len: usize) -> Result<Shape, u32> {
        let groups = log_len.saturating_sub(HEADER) / GROUP;
        let homes = data_len / BLOCK;
        let log_fits = (4..=MAX_GROUPS).contains(&groups) && log_len == HEADER + GROUP * groups;
        let data_fits = (1..=MAX_HOMES).contains(&homes) && data_len == BLOCK * homes;
        if log_fits && data_fits {
            Ok(Shape { groups: groups as u64, homes: homes as u64 })
        } else {
            Err(refuse::LENGTHS)
        }
    }
}

/// The eight-byte little-endian number at `at`.
#[inline]
pub fn word(bytes: &[u8], at: usize) -> u64 {
    let mut eight = [0u8; 8];
    eight.copy_from_slice(&bytes[at..at + 8]);
    u64::from_le_bytes(eight)
}

#[inline]
pub fn put_word(bytes: &mut [u8], at: usize, value: u64) {
    bytes[at..at + 8].copy_from_slice(&value.to_le_bytes());
}

/// A two-byte mark and a six-byte number, as one little-endian word.
#[inline]
fn marked(mark: [u8; 2], number: u64) -> u64 {
    u64::from(u16::from_le_bytes(mark)) | number << 16
}

/// The first eight bytes of a group with this number.
#[inline]
pub fn group_head(number: u64) -> u64 {
    marked(GROUP_MARK, number)
}

/// The 64 header bytes (the paper's "head") for a start.
pub fn header(shape: Shape, start: u64) -> [u8; HEADER] {
    let mut bytes = [0u8; HEADER];
    put_word(&mut bytes, 0, marked(HEADER_MARK, start));
    bytes[8..10].copy_from_slice(&(shape.groups as u16).to_le_bytes());
    bytes[10..12].copy_from_slice(&(shape.homes as u16).to_le_bytes());
    bytes
}

/// The start a header carries, or refusal 3 (question 3).
pub fn header_start(shape: Shape, log: &[u8]) -> Result<u64, u32> {
    let start = word(log, 0) >> 16;
    if start <= START_LIMIT && log[..HEADER] == header(shape, start) {
        Ok(start)
    } else {
        Err(refuse::HEADER)
    }
}

/// The 512 bytes of a ring slot (the paper's "ring place").
#[inline]
pub fn slot_range(slot: usize) -> std::ops::Range<usize> {
    let from = HEADER + GROUP * slot;
    from..from + GROUP
}

/// The turn of a group: odd or even round of the ring.
#[inline]
pub fn turn(shape: Shape, number: u64) -> bool {
    number / shape.groups % 2 == 1
}

/// The number that a ring slot gets next in a log with this start.
pub fn next_in(shape: Shape, start: u64, slot: usize) -> u64 {
    let round = start - start % shape.groups;
    let number = round + slot as u64;
    if number < start {
        number + shape.groups
    } else {
        number
    }
}

#[inline]
pub fn top_bit(block: &[u8]) -> bool {
    block[BLOCK - 1] & TOP != 0
}

pub fn set_top_bit(block: &mut [u8], bit: bool) {
    block[BLOCK - 1] = block[BLOCK - 1] & !TOP | if bit { TOP } else { 0 };
}

/// Zeros in a group, but for the turn bits of its data blocks.
pub fn clear_group(group: &mut [u8], turn: bool) {
    group.fill(0);
    group.chunks_mut(BLOCK).skip(1).for_each(|block| set_top_bit(block, turn));
}

/// A ring slot as format and open leave it: turn bits opposite to what comes next.
pub fn blank_slot(log: &mut [u8], shape: Shape, start: u64, slot: usize) {
    let next = turn(shape, next_in(shape, start, slot));
    clear_group(&mut log[slot_range(slot)], !next);
}

/// The 64 bytes of a home.
#[inline]
pub fn home_range(home: usize) -> std::ops::Range<usize> {
    BLOCK * home..BLOCK * home + BLOCK
}
