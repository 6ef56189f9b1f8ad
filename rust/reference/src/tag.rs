//! The 64-bit tag of a group's place.
//!
//! Positions are given as offsets from the start's first position (7 x start),
//! so that a first entry before the start shows as a distance above the offset.

use crate::layout::{MAX_HOMES, MAX_OFFSETS};

const USED: u64 = 1;
const CLOSING: u64 = 2;
const HOME_SHIFT: u32 = 2;
const BACK_SHIFT: u32 = 14;
const LINK_SHIFT: u32 = 27;
const COUNT_SHIFT: u32 = 40;
const HIGH_SHIFT: u32 = 53;
const DISPLACED_SHIFT: u32 = 57;
const ZERO_SHIFT: u32 = 58;
const THIRTEEN: u64 = 0x1fff;
const TWELVE: u64 = 0xfff;
const FOUR: u64 = 0xf;
const UPPER: u64 = 0x3ff_ffff;

/// What a tag reads as. `first` is an offset; `link` is a distance, 0 for none.
#[derive(Clone, Copy, Debug, PartialEq, Eq)]
pub enum Tag {
    Nothing,
    Entry {
        home: u32,
        first: u32,
    },
    /// The commit entry (the paper's "closing entry").
    Closing {
        home: u32,
        first: u32,
        link: u32,
        count: u32,
    },
}

/// The home that a tag names.
#[inline]
pub fn tag_home(tag: u64) -> u64 {
    tag >> HOME_SHIFT & TWELVE | (tag >> HIGH_SHIFT & FOUR) << 12
}

/// Reads the tag word found at `offset`.
#[inline]
pub fn read_tag(tag: u64, offset: u32, homes: u32) -> Tag {
    let home = tag_home(tag) as u32;
    let back = (tag >> BACK_SHIFT & THIRTEEN) as u32;
    if tag & USED == 0 || tag >> ZERO_SHIFT != 0 || home >= homes || back > offset {
        return Tag::Nothing;
    }
    let first = offset - back;
    if tag & CLOSING == 0 {
        return if tag >> LINK_SHIFT & UPPER == 0 { Tag::Entry { home, first } } else { Tag::Nothing };
    }
    let link = (tag >> LINK_SHIFT & THIRTEEN) as u32;
    let count = (tag >> COUNT_SHIFT & THIRTEEN) as u32;
    if count != 0 {
        Tag::Closing { home, first, link, count }
    } else {
        Tag::Nothing
    }
}

/// The tag of an entry that does not close.
pub fn entry_tag(home: u64, back: u64) -> u64 {
    debug_assert!(home <= MAX_HOMES as u64 && back < MAX_OFFSETS as u64); // 65,535, no home, fits too
    USED | (home & TWELVE) << HOME_SHIFT | back << BACK_SHIFT | home >> 12 << HIGH_SHIFT
}

/// The tag of a commit entry.
pub fn closing_tag(home: u64, back: u64, link: u64, count: u64) -> u64 {
    debug_assert!(link < MAX_OFFSETS as u64 && count <= MAX_OFFSETS as u64);
    entry_tag(home, back) | CLOSING | link << LINK_SHIFT | count << COUNT_SHIFT
}

/// The tag with the bit that its block's turn bit displaced.
pub fn with_displaced(tag: u64, bit: bool) -> u64 {
    tag | u64::from(bit) << DISPLACED_SHIFT
}

/// The displaced bit of a tag.
#[inline]
pub fn displaced(tag: u64) -> bool {
    tag >> DISPLACED_SHIFT & 1 == 1
}

#[cfg(test)]
mod tests {
    use super::*;

    #[test]
    fn trial_2() {
        assert_eq!(closing_tag(5, 2, 0, 3), 3298534916119);
        let read = read_tag(3298534916119, 2, 8);
        assert_eq!(read, Tag::Closing { home: 5, first: 0, link: 0, count: 3 });
        assert_eq!(read_tag(3298534916119, 1, 8), Tag::Nothing);
        assert_eq!(read_tag(3298534916119, 2, 5), Tag::Nothing);
    }

    #[test]
    fn sixteen_bits() {
        assert_eq!(entry_tag(65534, 0), 0x01e0_0000_0000_3ff9);
        for home in [0, 4095, 4096, 32768, 65534] {
            assert_eq!(read_tag(entry_tag(home, 3), 9, 65535), Tag::Entry { home: home as u32, first: 6 });
            let read = read_tag(closing_tag(home, 3, 1, 2), 9, 65535);
            assert_eq!(read, Tag::Closing { home: home as u32, first: 6, link: 1, count: 2 });
        }
        assert_eq!(read_tag(entry_tag(4096, 0), 0, 4096), Tag::Nothing);
    }

    #[test]
    fn zero_bits() {
        let not_displaced = |bit: &u32| *bit != 57;
        for bit in (53..64).filter(not_displaced) {
            assert_eq!(read_tag(closing_tag(0, 0, 0, 1) | 1 << bit, 0, 8), Tag::Nothing);
        }
        for bit in (27..64).filter(not_displaced) {
            assert_eq!(read_tag(entry_tag(0, 0) | 1 << bit, 0, 8), Tag::Nothing);
        }
        for bit in 58..64 {
            assert_eq!(read_tag(entry_tag(9, 0) | 1 << bit, 0, 65535), Tag::Nothing);
        }
        for tag in [entry_tag(9, 0), closing_tag(9, 0, 0, 1)] {
            let high = with_displaced(tag, true);
            assert!(high == tag | 1 << 57 && displaced(high) && !displaced(with_displaced(tag, false)));
            assert_eq!(read_tag(high, 0, 10), read_tag(tag, 0, 10));
        }
        assert_eq!(read_tag(closing_tag(0, 0, 4, 0), 9, 8), Tag::Nothing);
        assert_eq!(read_tag(entry_tag(0, 0) & !1, 9, 8), Tag::Nothing);
    }

    /// A word as document 01 has it: homes of 12 bits, all above bit 52 zero.
    fn read_small(tag: u64, offset: u32, homes: u32) -> Tag {
        let bits = |from: u32, count: u32| (tag >> from & ((1 << count) - 1)) as u32;
        let (home, back, link, count) = (bits(2, 12), bits(14, 13), bits(27, 13), bits(40, 13));
        if bits(0, 1) == 0 || bits(53, 11) != 0 || home >= homes || back > offset {
            return Tag::Nothing;
        }
        let first = offset - back;
        match (bits(1, 1), link, count) {
            (0, 0, 0) => Tag::Entry { home, first },
            (0, ..) | (1, _, 0) => Tag::Nothing,
            _ => Tag::Closing { home, first, link, count },
        }
    }

    /// Up to 4,096 homes a word without the displaced bit reads as it did: words at random, and words in order with up to two bits changed. [S-16]
    #[test]
    fn small_stations() {
        let mut seed = 1u64;
        let mut draw = |below: u64| {
            seed ^= seed << 13;
            seed ^= seed >> 7;
            seed ^= seed << 17;
            seed % below
        };
        let mut there = 0;
        for round in 0..200_000 {
            let (home, back, link) = (draw(4100), draw(40), draw(40));
            let mut tag = match round % 3 {
                0 => draw(u64::MAX),
                1 => entry_tag(home, back),
                _ => closing_tag(home, back, link, draw(40)),
            };
            for _ in 0..draw(3) {
                tag ^= 1 << draw(64);
            }
            tag = tag & !(1 << DISPLACED_SHIFT);
            let (offset, homes) = (draw(50) as u32, [1, 8, 4095, 4096][draw(4) as usize]);
            let read = read_tag(tag, offset, homes);
            assert_eq!(read, read_small(tag, offset, homes), "tag {tag:#x}, offset {offset}, homes {homes}");
            there += usize::from(read != Tag::Nothing);
        }
        assert!(there > 10_000);
    }
}
