//! Batches taken apart into records, and what a crash (the paper's "cut")
//! leaves of them in the lasting memory. A block of 64 bytes lands whole or
//! not at all; a group is eight of them.

use reference::batch::{FENCE, GROUP_WRITE, HEADER_WRITE, HOME_WRITE};
use reference::layout::{slot_range, BLOCK, GROUP, HEADER};

#[derive(Clone, Debug, PartialEq, Eq)]
pub enum Record {
    Group { slot: usize, bytes: Vec<u8> },
    Home { home: usize, bytes: Vec<u8> },
    Header { bytes: Vec<u8> },
    Fence,
}

/// The block of lasting memory a record writes.
#[derive(Clone, Copy, Debug, PartialEq, Eq, Hash, PartialOrd, Ord)]
pub enum Target {
    Group(usize),
    Home(usize),
    Header,
}

/// A block of lasting memory that a record writes: by its offset in the log
/// area or in the data area.
#[derive(Clone, Copy, Debug, PartialEq, Eq, Hash, PartialOrd, Ord)]
pub enum Piece {
    Log(usize),
    Data(usize),
}

/// What landed of a call's group write: bit 0 for the metadata, bit k + 1 for
/// data block k.
#[derive(Clone, Copy, Debug, PartialEq, Eq)]
pub struct Landed {
    pub call: usize,
    pub pieces: u8,
}

impl Landed {
    pub fn has_entry(&self, place: usize) -> bool {
        self.pieces & 1 == 1 && self.pieces >> (place + 1) & 1 == 1
    }
}

impl Record {
    /// The blocks it writes, each with its bytes.
    pub fn pieces(&self) -> Vec<(Piece, &[u8])> {
        let (first, bytes): (Piece, &[u8]) = match self {
            Record::Group { slot, bytes } => (Piece::Log(slot_range(*slot).start), bytes),
            Record::Home { home, bytes } => (Piece::Data(BLOCK * home), bytes),
            Record::Header { bytes } => (Piece::Log(0), bytes),
            Record::Fence => return Vec::new(),
        };
        let at = |index: usize| match first {
            Piece::Log(offset) => Piece::Log(offset + BLOCK * index),
            Piece::Data(offset) => Piece::Data(offset + BLOCK * index),
        };
        bytes.chunks(BLOCK).enumerate().map(|(index, block)| (at(index), block)).collect()
    }

    pub fn target(&self) -> Option<Target> {
        match self {
            Record::Group { slot, .. } => Some(Target::Group(*slot)),
            Record::Home { home, .. } => Some(Target::Home(*home)),
            Record::Header { .. } => Some(Target::Header),
            Record::Fence => None,
        }
    }
}

/// Takes a batch apart. None if it does not end with a whole record.
pub fn parse(batch: &[u8]) -> Option<Vec<Record>> {
    let mut records = Vec::new();
    let mut rest = batch;
    while !rest.is_empty() {
        let mark = [*rest.first()?, *rest.get(1)?];
        rest = &rest[2..];
        let record = match mark {
            GROUP_WRITE => Record::Group { slot: number(&mut rest)?, bytes: part(&mut rest, GROUP)? },
            HOME_WRITE => Record::Home { home: number(&mut rest)?, bytes: part(&mut rest, BLOCK)? },
            HEADER_WRITE => Record::Header { bytes: part(&mut rest, HEADER)? },
            FENCE => Record::Fence,
            _ => return None,
        };
        records.push(record);
    }
    Some(records)
}

fn part(rest: &mut &[u8], len: usize) -> Option<Vec<u8>> {
    let taken = rest.get(..len)?.to_vec();
    *rest = &rest[len..];
    Some(taken)
}

fn number(rest: &mut &[u8]) -> Option<usize> {
    let two = part(rest, 2)?;
    Some(usize::from(u16::from_le_bytes([two[0], two[1]])))
}

/// A log area and a data area.
#[derive(Clone, Debug, PartialEq, Eq)]
pub struct Areas {
    pub log: Vec<u8>,
    pub data: Vec<u8>,
}

impl Areas {
    pub fn zeros(groups: u64, homes: u64) -> Areas {
        let log = vec![0; HEADER + GROUP * groups as usize];
        Areas { log, data: vec![0; BLOCK * homes as usize] }
    }

    /// Lands one write, all of its blocks.
    pub fn land(&mut self, record: &Record) {
        for (piece, block) in record.pieces() {
            self.land_piece(piece, block);
        }
    }

    pub fn land_piece(&mut self, piece: Piece, block: &[u8]) {
        match piece {
            Piece::Log(from) => self.log[from..from + BLOCK].copy_from_slice(block),
            Piece::Data(from) => self.data[from..from + BLOCK].copy_from_slice(block),
        }
    }
}

/// The records since the last crash, each with the number of its call.
#[derive(Clone, Default)]
pub struct Submitted {
    pub records: Vec<(usize, Record)>,
    pub fences: usize,
    /// Fences that a done confirm vouches for.
    pub confirmed: usize,
}

impl Submitted {
    pub fn add(&mut self, call: usize, records: Vec<Record>) {
        self.fences += records.iter().filter(|r| **r == Record::Fence).count();
        self.records.extend(records.into_iter().map(|record| (call, record)));
    }

    pub fn confirm(&mut self) {
        self.confirmed = self.fences;
    }

    /// The crash: `passed` fences have passed, so every block written before
    /// the last of them lands; of those up to the next fence the ones chosen;
    /// none beyond. Gives what landed of the group writes, by rising call. (An
    /// opening writes several; no entry lies in them.)
    pub fn crash(
        &self,
        passed: usize,
        image: &mut Areas,
        mut choose: impl FnMut(&Record, Piece) -> bool,
    ) -> Vec<Landed> {
        assert!(self.confirmed <= passed && passed <= self.fences);
        let mut landed = Vec::new();
        let mut before = 0;
        for (call, record) in &self.records {
            if *record == Record::Fence {
                before += 1;
                continue;
            }
            if before > passed {
                break;
            }
            let mut pieces = 0;
            for (index, (piece, block)) in record.pieces().into_iter().enumerate() {
                if before < passed || choose(record, piece) {
                    image.land_piece(piece, block);
                    pieces |= 1 << index;
                }
            }
            if let Record::Group { .. } = record {
                landed.push(Landed { call: *call, pieces });
            }
        }
        landed
    }

    /// The blocks written after the first `passed` fences, up to the next.
    pub fn stretch(&self, passed: usize) -> usize {
        let mut before = 0;
        let mut blocks = 0;
        for (_, record) in &self.records {
            match record {
                Record::Fence => before += 1,
                _ if before == passed => blocks += record.pieces().len(),
                _ => {}
            }
        }
        blocks
    }
}

#[cfg(test)]
mod tests {
    use super::*;

    fn home(home: usize, fill: u8) -> Record {
        Record::Home { home, bytes: vec![fill; BLOCK] }
    }

    #[test]
    fn stretches() {
        let mut all = Submitted::default();
        all.add(0, vec![home(0, 1), Record::Fence, home(0, 2), home(1, 2), Record::Fence]);
        all.add(1, vec![home(2, 3)]);
        for (passed, want) in [(0, [0, 0, 0]), (1, [1, 2, 0]), (2, [2, 2, 0])] {
            let mut image = Areas::zeros(4, 3);
            let only_home_1 = |r: &Record, _| r.target() == Some(Target::Home(1));
            all.crash(passed, &mut image, only_home_1);
            assert_eq!([image.data[0], image.data[64], image.data[128]], want);
            assert_eq!(all.stretch(passed), [1, 2, 1][passed]);
        }
    }

    #[test]
    fn torn() {
        let mut all = Submitted::default();
        all.add(3, vec![Record::Group { slot: 1, bytes: vec![7; GROUP] }]);
        let mut image = Areas::zeros(4, 1);
        let tear = |_: &Record, piece| piece == Piece::Log(576) || piece == Piece::Log(576 + 128);
        let landed = all.crash(0, &mut image, tear);
        assert_eq!(landed, [Landed { call: 3, pieces: 5 }]);
        assert!(landed[0].has_entry(1) && !landed[0].has_entry(0) && !landed[0].has_entry(2));
        let at = |offset: usize| image.log[offset];
        assert_eq!([at(575), at(576), at(639), at(640), at(704), at(767), at(768)], [0, 7, 7, 0, 7, 7, 0]);
    }
}
