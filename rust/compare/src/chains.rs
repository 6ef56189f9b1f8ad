//! Calls on several homes: the library and the reference implementation on
//! made-up and damaged memory, byte for byte.
//! Clauses: [S-62]

use bindings::library::Reply;
use bindings::part::Part;
use harness::craft::random_chain;
use harness::rng::Rng;
use reference::chains::Chain;
use reference::lent::Lent;

extern "C" {
    fn kagutin_fetch(
        log: *mut u8,
        _: usize,
        area: *mut u8,
        _: usize,
        state: *mut u8,
        _: usize,
        newest: *mut u8,
        _: usize,
        blocks: *mut u8,
        _: usize,
        writer: u64,
        home: u64,
    ) -> Reply;
    fn kagutin_revise(
        log: *mut u8,
        _: usize,
        area: *mut u8,
        _: usize,
        state: *mut u8,
        _: usize,
        newest: *mut u8,
        _: usize,
        blocks: *mut u8,
        _: usize,
        writer: u64,
        home: u64,
    ) -> Reply;
    fn kagutin_transact(
        log: *mut u8,
        _: usize,
        area: *mut u8,
        _: usize,
        state: *mut u8,
        _: usize,
        newest: *mut u8,
        _: usize,
        blocks: *mut u8,
        _: usize,
        batch: *mut u8,
        _: usize,
        writer: u64,
        home: u64,
    ) -> Reply;
}

/// How many calls were done and how many refused.
#[derive(Default)]
pub struct Played {
    pub done: u64,
    pub refused: u64,
}

const FIELDS: [&str; 6] = ["log", "area", "state", "newest", "blocks", "batch"];

fn views(lent: &Lent) -> [&[u8]; 6] {
    [&lent.log, &lent.data, &lent.state, &lent.newest, &lent.block, &lent.batch]
}

fn call(chain: Chain, parts: &mut [Part; 6], writer: u64, home: u64) -> Reply {
    let [a, b, c, e, f, h] = parts;
    let [(log, g), (area, d), (state, s), (newest, p), (blocks, k), (batch, n)] = [a, b, c, e, f, h].map(|part| {
        let bytes = part.bytes_mut();
        (bytes.as_mut_ptr(), bytes.len())
    });
    // Each pointer goes with the length of its slice, and the slices are apart.
    unsafe {
        match chain {
            Chain::Fetch => kagutin_fetch(log, g, area, d, state, s, newest, p, blocks, k, writer, home),
            Chain::Revise => kagutin_revise(log, g, area, d, state, s, newest, p, blocks, k, writer, home),
            Chain::Transact => {
                kagutin_transact(log, g, area, d, state, s, newest, p, blocks, k, batch, n, writer, home)
            }
        }
    }
}

fn difference(parts: &[Part; 6], reply: Reply, want: Reply, after: &Lent) -> Option<String> {
    if reply != want {
        return Some(format!("library {reply:?}, reference {want:?}"));
    }
    for ((field, part), want) in FIELDS.iter().zip(parts).zip(views(after)) {
        if let Some((at, byte)) = part.broken_guard() {
            return Some(format!("the library wrote {byte:#04x} outside {field}, at offset {at}"));
        }
        if let Some(at) = part.bytes().iter().zip(want).position(|(a, b)| a != b) {
            return Some(format!("{field}, offset {at}: {:#04x} and {:#04x}", part.bytes()[at], want[at]));
        }
    }
    None
}

pub fn play(seed: u64, count: u64, guarded: bool) -> Result<Played, String> {
    let mut rng = Rng::new(seed ^ 0xc4a1);
    let mut parts = [(); 6].map(|()| Part::new(guarded));
    let mut played = Played::default();
    for at in 0..count {
        let (lent, writer, home) = random_chain(&mut rng);
        for chain in Chain::ALL {
            parts.iter_mut().zip(views(&lent)).for_each(|(part, bytes)| part.set(bytes));
            let reply = call(chain, &mut parts, writer, home);
            let mut after = lent.clone();
            let answer = after.chain(chain, writer, home);
            if let Some(what) = difference(&parts, reply, answer.into(), &after) {
                return Err(format!("{} (seed {seed}, case {at}), writer {writer}, home {home}: {what}", chain.name()));
            }
            played.done += u64::from(answer.code == 0);
            played.refused += u64::from(answer.code != 0);
        }
    }
    Ok(played)
}
