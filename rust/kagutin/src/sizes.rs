//! Sizes by the shape of a store: groups (seven entries each) of its log, and homes (one block each).

/// Bytes of a block.
pub const BLOCK_SIZE: usize = 64;

/// One block: what a home holds.
pub type Block = [u8; BLOCK_SIZE];

/// Writers are 0 to 7.
pub const WRITERS: u8 = 8;

const GROUP: usize = 512;
const GROUP_ENTRIES: usize = 7;
const STATE: usize = 1024;
const POSITION: usize = 8;
const GROUP_RECORD: usize = 516;
const HOME_RECORD: usize = 68;
const HEADER_RECORD: usize = 66;
const FENCE_RECORD: usize = 2;

/// Bytes of the log area in lasting memory; groups are 4 to 1,024.
pub const fn log_size(groups: usize) -> usize {
    BLOCK_SIZE + GROUP * groups
}

/// Bytes of the area of homes in lasting memory; homes are 1 to 65,535.
pub const fn homes_size(homes: usize) -> usize {
    BLOCK_SIZE * homes
}

/// Bytes of ordinary memory that a store works in.
pub const fn memory_size(groups: usize, homes: usize) -> usize {
    log_size(groups) + homes_size(homes) + STATE + POSITION * homes + open_batch(groups, homes)
}

/// Bytes that a format needs besides, once.
pub const fn format_size(groups: usize, homes: usize) -> usize {
    GROUP_RECORD * groups + HOME_RECORD * homes + 2 * HEADER_RECORD + 3 * FENCE_RECORD
}

const fn open_batch(groups: usize, homes: usize) -> usize {
    let entries = GROUP_ENTRIES * groups;
    let touched = if homes < entries { homes } else { entries };
    HOME_RECORD * touched + HEADER_RECORD + GROUP_RECORD * groups + 3 * FENCE_RECORD
}
