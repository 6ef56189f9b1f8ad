//! The comparison of two gauges: the library against the reference implementation,
//! over all small lists, at the limits, and on random and damaged strips.
//! Clauses: [S-71]

use bindings::part::Part;
use harness::rng::Rng;
use reference::gauges::{compare, Comparison};

#[repr(C)]
struct Reply {
    code: u64,
    counts: [u64; 4],
}

extern "C" {
    fn kagutin_compare_gauges(
        first: *const u8,
        first_size: usize,
        second: *const u8,
        second_size: usize,
        report: *mut u8,
        report_size: usize,
        tolerance: u16,
    ) -> Reply;
}

/// What the comparisons came to.
#[derive(Default)]
pub struct Played {
    pub done: u64,
    pub refused: u64,
}

struct Pair {
    parts: [Part; 3],
    played: Played,
}

impl Pair {
    fn ask(&mut self, first: &[u8], second: &[u8], output: &[u8], tolerance: u16) -> Result<(), String> {
        for (part, bytes) in self.parts.iter_mut().zip([first, second, output]) {
            part.set(bytes);
        }
        let [a, b, report] = &mut self.parts;
        let (a, b, out) = (a.bytes(), b.bytes(), report.bytes_mut());
        // Each pointer goes with the length of its part, and the parts are apart.
        let reply = unsafe {
            kagutin_compare_gauges(a.as_ptr(), a.len(), b.as_ptr(), b.len(), out.as_mut_ptr(), out.len(), tolerance)
        };
        let mut expected = output.to_vec();
        let wanted = compare(first, second, &mut expected, tolerance);
        let got = Comparison { code: reply.code, counts: reply.counts };
        let same = got == wanted
            && self.parts[0].bytes() == first
            && self.parts[1].bytes() == second
            && self.parts[2].bytes() == expected
            && self.parts.iter().all(|part| part.broken_guard().is_none());
        if !same {
            return Err(format!(
                "gauges: {first:?} and {second:?}, tolerance {tolerance}, output of {} bytes: {got:?} for {wanted:?}",
                output.len()
            ));
        }
        if got.code == 0 {
            self.played.done += 1;
        } else {
            self.played.refused += 1;
        }
        Ok(())
    }
}

fn strip(rows: &[(u16, u16)]) -> Vec<u8> {
    rows.iter().flat_map(|&(minute, level)| [minute.to_le_bytes(), level.to_le_bytes()].concat()).collect()
}

/// All lists of at most two rows with minutes and levels from few values, rising or not, and all of three rows that rise.
fn small_lists(minutes: &[u16], levels: &[u16]) -> Vec<Vec<u8>> {
    let rows: Vec<(u16, u16)> = minutes.iter().flat_map(|&m| levels.iter().map(move |&l| (m, l))).collect();
    let mut lists = vec![Vec::new()];
    for &row in &rows {
        lists.push(strip(&[row]));
        for &next in &rows {
            lists.push(strip(&[row, next]));
            let last = rows.iter().filter(|last| row.0 < next.0 && next.0 < last.0);
            lists.extend(last.map(|&last| strip(&[row, next, last])));
        }
    }
    lists
}

/// Every pair of small lists, at every tolerance of a few and with room for none, for the report, for a byte less and for more.
fn all_small(pair: &mut Pair, minutes: &[u16], levels: &[u16], tolerances: &[u16]) -> Result<(), String> {
    let lists = small_lists(minutes, levels);
    for first in &lists {
        for second in &lists {
            for &tolerance in tolerances {
                let lines =
                    reference::gauges::compare(first, second, &mut [0; 18], tolerance).counts.iter().sum::<u64>();
                for room in [0, 3 * lines as usize, (3 * lines as usize).saturating_sub(1), 20] {
                    pair.ask(first, second, &vec![0xc3; room], tolerance)?;
                }
            }
        }
    }
    Ok(())
}

/// A list whose minutes rise by steps up to `step`; now and then a wrong one.
fn random_list(rng: &mut Rng, rows: u64, step: u64) -> Vec<u8> {
    let mut minute = rng.below(step + 1);
    let mut list = Vec::new();
    for _ in 0..rows {
        list.push((minute as u16, rng.below(200) as u16));
        minute += rng.between(1, step);
    }
    let mut bytes = strip(&list);
    if rng.chance(8) && !bytes.is_empty() {
        let at = rng.below(bytes.len() as u64) as usize;
        bytes[at] = rng.next() as u8;
    }
    if rng.chance(4) {
        bytes.truncate(rng.below(bytes.len() as u64 + 1) as usize);
    }
    bytes
}

fn random(pair: &mut Pair, seed: u64, cases: u64) -> Result<(), String> {
    let mut rng = Rng::new(seed ^ 0x6761_7567_6573);
    for case in 0..cases {
        let most = if case % 50 == 0 { 1445 } else { 24 };
        let step = rng.pick(&[1, 2, 5, 45]);
        let (rows, others) = (rng.between(0, most), rng.between(0, most));
        let (first, second) = (random_list(&mut rng, rows, step), random_list(&mut rng, others, step));
        let room = rng.between(0, 3 * (rows + others) + 7) as usize;
        let room = if rng.chance(70) { 3 * (rows + others) as usize + rng.below(9) as usize } else { room };
        let output: Vec<u8> = (0..room).map(|_| rng.next() as u8).collect();
        let tolerance = rng.pick(&[0, 1, 10, 100, 199, u16::MAX]);
        pair.ask(&first, &second, &output, tolerance)?;
    }
    Ok(())
}

/// Full lists at the limits of rows and of room, equal, apart and one past the limit.
fn limits(pair: &mut Pair) -> Result<(), String> {
    let list = |from: u32, rows: u32, step: u32| -> Vec<u8> {
        strip(&(0..rows).map(|i| ((from + i * step) as u16, (i * 7 % 65536) as u16)).collect::<Vec<_>>())
    };
    let lists = [
        list(0, 1440, 1),
        list(0, 1440, 2),
        list(1, 1440, 2),
        list(64096, 1440, 1),
        list(0, 1441, 1),
        list(64095, 1441, 1),
        list(0, 1439, 45),
    ];
    for first in &lists {
        for second in &lists {
            for room in [0, 4319, 4320, 8639, 8640, 8641] {
                pair.ask(first, second, &vec![0x5a; room], 3)?;
            }
        }
    }
    for cut in 1..4 {
        pair.ask(&lists[0][..5760 - cut], &[], &vec![1; 9000], 0)?;
        pair.ask(&[], &lists[0][..5760 - cut], &vec![1; 9000], 0)?;
    }
    Ok(())
}

pub fn play(seed: u64, cases: u64, guarded: bool) -> Result<Played, String> {
    let parts = [Part::new(guarded), Part::new(guarded), Part::new(guarded)];
    let mut pair = Pair { parts, played: Played::default() };
    all_small(&mut pair, &[0, 1, 2], &[0, 1, 3], &[0, 1, 2])?;
    all_small(&mut pair, &[0, 255, 256, 65535], &[0, 65535], &[0, 65534, 65535])?;
    limits(&mut pair)?;
    random(&mut pair, seed, cases)?;
    Ok(pair.played)
}
