//! The floor: how many bytes a done call must at least move. What a call only
//! looks at (the strip for its check, the tags on a walk) is not in it.

use reference::batch::{FENCE_LEN, GROUP_WRITE_LEN, HEADER_WRITE_LEN, HOME_WRITE_LEN};
use reference::layout::{word, BLOCK, GROUP, HEADER, STATE};
use reference::lent::{Kind, Lent};
use reference::rights::has_room;
use reference::state::{at, Writer};

/// A number of the strip.
const NUMBER: usize = 8;
/// A writer's mode and the three numbers of its record.
const RECORD: usize = 1 + 3 * NUMBER;
const TAG: usize = 8;

/// What decides how much a call moves, as it stands before the call.
pub struct Before {
    areas: usize,
    groups: usize,
    filled: u64,
    record: Writer,
    /// The list of rights' positions in the strip, where D is large enough for one.
    listed: usize,
}

impl Before {
    pub fn of(lent: &Lent, writer: u64) -> Before {
        Before {
            areas: lent.log.len() + lent.data.len(),
            groups: lent.log.len().saturating_sub(HEADER) / GROUP,
            filled: word(&lent.state, at::FILLED),
            record: Writer::load(&lent.state, writer),
            listed: if has_room((lent.data.len() / BLOCK) as u64) { 4 * NUMBER } else { 0 },
        }
    }

    /// Bytes that the call moves, having written `batch` bytes to the batch.
    pub fn moved(&self, kind: Kind, home: u64, batch: usize) -> usize {
        batch
            + match kind {
                // Log and area.
                Kind::Format => self.areas,
                // Homes of the copy, its header, its groups, the whole strip.
                Kind::Open => {
                    let header = HEADER_WRITE_LEN + FENCE_LEN;
                    let blanks = GROUP_WRITE_LEN * self.groups + FENCE_LEN;
                    BLOCK * homes(batch - header - blanks) + HEADER + GROUP * self.groups + STATE
                }
                Kind::Begin | Kind::Abort => RECORD,
                Kind::Reserve => RECORD + 2,
                Kind::Store => self.store(home),
                // The record, the closing entry, the strip's `last`, the list's positions.
                Kind::Commit if self.record.holds() => RECORD + self.entry() + NUMBER + self.listed,
                Kind::Commit => RECORD,
                // `fenced`, and with a group `next` and `filled`.
                Kind::Flush if self.filled > 0 => 3 * NUMBER,
                Kind::Flush => NUMBER,
                // `durable`.
                Kind::Confirm => NUMBER,
                // Homes of the copy, `settled` and `fenced`.
                Kind::Settle => BLOCK * homes(batch) + 2 * NUMBER,
                // `round` and `cursor`.
                Kind::BeginRound => 2 * NUMBER,
                // Homes of the copy and `cursor`; at the end all four.
                Kind::StepRound => {
                    let numbers = if batch % HOME_WRITE_LEN == 0 { 1 } else { 4 };
                    BLOCK * (batch / HOME_WRITE_LEN) + numbers * NUMBER
                }
                // The header of the copy, `start`, `fenced` and `last`, the list's positions.
                Kind::Trim if batch > 0 => HEADER + 3 * NUMBER + self.listed,
                Kind::Trim => 0,
                Kind::Read => BLOCK,
            }
    }

    /// The block into the strip; with a new home the record; if one was held
    /// for another home, its entry.
    fn store(&self, home: u64) -> usize {
        match (self.record.holds(), self.record.home == home) {
            (true, true) => BLOCK,
            (true, false) => BLOCK + RECORD + self.entry(),
            (false, _) => BLOCK + RECORD,
        }
    }

    /// Tag and block into the log, `filled`; the first of a group blanks it,
    /// the seventh moves `next`.
    fn entry(&self) -> usize {
        let blank = if self.filled == 0 { GROUP } else { 0 };
        let next = if self.filled == 6 { NUMBER } else { 0 };
        TAG + BLOCK + NUMBER + blank + next
    }
}

/// Home writes in a batch of these and a fence.
fn homes(batch: usize) -> usize {
    (batch - FENCE_LEN) / HOME_WRITE_LEN
}
