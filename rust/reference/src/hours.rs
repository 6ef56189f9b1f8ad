//! Hours book of a pump, from the request alone: its home block and its events.

pub const WRONG_PUMP_STATE: u64 = 15;
pub const LATE: u64 = 16;
pub const BLOCK: usize = 64;

#[derive(Clone, Copy, Debug, PartialEq, Eq)]
pub enum Event {
    Start(u32),
    Stop(u32),
}

/// What a pump's home block holds.
#[derive(Clone, Copy, Debug, Default, PartialEq, Eq)]
pub struct Pump {
    pub starts: u32,
    pub total: u32,
    pub last: u32,
    pub running: bool,
}

fn word(block: &[u8; BLOCK], at: usize) -> u32 {
    u32::from_le_bytes(block[at..at + 4].try_into().expect("four bytes"))
}

impl Pump {
    pub fn read(block: &[u8; BLOCK]) -> Pump {
        Pump { starts: word(block, 0), total: word(block, 4), last: word(block, 8), running: block[12] != 0 }
    }

    pub fn block(&self) -> [u8; BLOCK] {
        let mut block = [0; BLOCK];
        block[..4].copy_from_slice(&self.starts.to_le_bytes());
        block[4..8].copy_from_slice(&self.total.to_le_bytes());
        block[8..12].copy_from_slice(&self.last.to_le_bytes());
        block[12] = u8::from(self.running);
        block
    }

    /// The record after an event, or the answer that refuses it.
    pub fn after(&self, event: Event) -> Result<Pump, u64> {
        let (start, second) = match event {
            Event::Start(second) => (true, second),
            Event::Stop(second) => (false, second),
        };
        if start == self.running {
            return Err(WRONG_PUMP_STATE);
        }
        let gone = second.checked_sub(self.last).ok_or(LATE)?;
        let starts = self.starts.checked_add(u32::from(start)).ok_or(LATE)?;
        let run = if start { 0 } else { gone };
        let total = self.total.checked_add(run).ok_or(LATE)?;
        Ok(Pump { starts, total, last: second, running: start })
    }
}

/// An event applied to a block: the answer; a refusal leaves the block as it was.
pub fn apply(block: &mut [u8; BLOCK], event: Event) -> u64 {
    match Pump::read(block).after(event) {
        Ok(pump) => {
            *block = pump.block();
            0
        }
        Err(code) => code,
    }
}

/// Whole services due and seconds left over.
pub fn services(total: u32, interval: u32) -> (u32, u32) {
    (total / interval, total % interval)
}

#[cfg(test)]
mod tests {
    use super::*;
    use harness::rng::Rng;

    /// Starts, seconds of finished runs, last second and whether the pump runs, by walking over the done events.
    fn said(done: &[Event]) -> (u64, u64, u64, bool) {
        let mut starts = 0;
        let mut total = 0;
        for pair in done.windows(2) {
            if let [Event::Start(a), Event::Stop(b)] = pair {
                total += u64::from(b - a);
            }
        }
        for event in done {
            starts += u64::from(matches!(event, Event::Start(_)));
        }
        match done.last() {
            None => (0, 0, 0, false),
            Some(&Event::Start(s)) => (starts, total, u64::from(s), true),
            Some(&Event::Stop(s)) => (starts, total, u64::from(s), false),
        }
    }

    /// The answer that the done events give to a next one.
    fn answer(done: &[Event], event: Event) -> u64 {
        let (_, _, last, running) = said(done);
        let (start, second) = match event {
            Event::Start(s) => (true, s),
            Event::Stop(s) => (false, s),
        };
        let mut with = done.to_vec();
        with.push(event);
        if start == running {
            WRONG_PUMP_STATE
        } else if u64::from(second) < last {
            LATE
        } else {
            let (starts, total, ..) = said(&with);
            if starts.max(total) > u64::from(u32::MAX) {
                LATE
            } else {
                0
            }
        }
    }

    fn follow(events: &[Event]) {
        let mut block = [0; BLOCK];
        let mut done = Vec::new();
        for &event in events {
            let before = block;
            let code = apply(&mut block, event);
            assert_eq!(code, answer(&done, event), "{done:?} {event:?}");
            if code == 0 {
                done.push(event);
            } else {
                assert_eq!(block, before);
            }
            let pump = Pump::read(&block);
            let held = (u64::from(pump.starts), u64::from(pump.total), u64::from(pump.last), pump.running);
            assert_eq!(held, said(&done));
        }
    }

    #[test]
    fn all_short_lists() {
        let choices: Vec<Event> = (0..3).flat_map(|s| [Event::Start(s), Event::Stop(s)]).collect();
        for n in 0..6u32.pow(6) {
            let mut rest = n;
            let mut events = Vec::new();
            for _ in 0..6 {
                events.push(choices[rest as usize % 6]);
                rest /= 6;
            }
            follow(&events);
        }
    }

    #[test]
    fn long_lists() {
        let mut rng = Rng::new(15);
        for _ in 0..200 {
            let mut second = 0u32;
            let mut events = Vec::new();
            for _ in 0..200 {
                let bits = rng.below(28);
                let step = rng.below(1 << bits) as u32;
                second = if rng.below(9) == 0 { second.saturating_sub(step) } else { second.saturating_add(step) };
                events.push(if rng.below(2) == 0 { Event::Start(second) } else { Event::Stop(second) });
            }
            follow(&events);
        }
    }

    #[test]
    fn blocks_of_any_content() {
        let full = Pump { starts: u32::MAX, total: 7, last: 3, running: false };
        assert_eq!(full.after(Event::Start(3)), Err(LATE));
        let run = Pump { starts: 1, total: u32::MAX - 4, last: 3, running: true };
        assert_eq!(run.after(Event::Stop(7)).map(|p| p.total), Ok(u32::MAX));
        assert_eq!(run.after(Event::Stop(8)), Err(LATE));
        assert_eq!(run.after(Event::Start(0)), Err(WRONG_PUMP_STATE));
        let mut rng = Rng::new(16);
        for _ in 0..2000 {
            let mut block = [0u8; BLOCK];
            block.fill_with(|| rng.below(256) as u8);
            block[12] = rng.below(3) as u8;
            let pump = Pump::read(&block);
            assert_eq!(Pump::read(&pump.block()), pump);
            assert_eq!(pump.running, block[12] > 0);
        }
    }

    #[test]
    fn services_by_counting() {
        for total in 0..200 {
            for interval in 1..40 {
                let mut count = (0, total);
                while count.1 >= interval {
                    count = (count.0 + 1, count.1 - interval);
                }
                assert_eq!(services(total, interval), count);
            }
        }
    }
}
