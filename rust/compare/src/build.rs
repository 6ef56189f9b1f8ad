//! One build of the library, with the memory that is lent to it.

use bindings::library::{Calls, Reply};
use bindings::part::Part;
use bindings::trap;
use reference::lent::{Kind, Lent};
use reference::Answer;

pub struct Build {
    pub name: String,
    pub calls: Calls,
    /// Log, area, state, newest positions, block, batch.
    parts: [Part; 6],
}

const FIELDS: [&str; 6] = ["log", "area", "state", "newest", "block", "batch"];

/// Which parts the call is lent.
fn taken(kind: Kind) -> [bool; 6] {
    [true, true, kind.takes_state(), kind.takes_newest(), kind.takes_block(), kind.takes_batch()]
}

pub fn views(lent: &Lent) -> [&[u8]; 6] {
    [&lent.log, &lent.data, &lent.state, &lent.newest, &lent.block, &lent.batch]
}

impl Build {
    pub fn new(name: &str, calls: Calls, guarded: bool) -> Build {
        Build { name: name.into(), calls, parts: [(); 6].map(|()| Part::new(guarded)) }
    }

    /// Performs the call on a copy of the lent memory.
    pub fn perform(&mut self, lent: &Lent, kind: Kind, writer: u64, home: u64) -> Reply {
        for ((part, bytes), taken) in self.parts.iter_mut().zip(views(lent)).zip(taken(kind)) {
            if taken {
                part.set(bytes);
            }
        }
        trap::enter(kind);
        let [a, b, c, d, e, f] = &mut self.parts;
        let reply = self.calls.call(kind, [a, b, c, d, e, f].map(Part::bytes_mut), writer, home);
        trap::leave();
        reply
    }

    /// The first field that differs, with its place and both values.
    pub fn compare(&self, kind: Kind, reply: Reply, answer: Answer, lent: &Lent) -> Option<String> {
        let want = Reply::from(answer);
        let numbers =
            [("answer", reply.code, want.code), ("figure", reply.figure, want.figure), ("size", reply.size, want.size)];
        for (field, got, want) in numbers {
            if got != want {
                return Some(format!("{field}: {} {got}, reference {want}", self.name));
            }
        }
        let fields = FIELDS.iter().zip(&self.parts).zip(views(lent)).zip(taken(kind));
        for (((field, part), want), taken) in fields {
            if let Some((at, byte)) = part.broken_guard() {
                return Some(format!("{} wrote {byte:#04x} outside {field}, at offset {at}", self.name));
            }
            if taken && part.bytes() != want {
                let at = part.bytes().iter().zip(want).position(|(a, b)| a != b).unwrap();
                let (got, want) = (part.bytes()[at], want[at]);
                return Some(format!("{field}, offset {at}: {} {got:#04x}, reference {want:#04x}", self.name));
            }
        }
        None
    }
}
