//! Open alarms and the gravest of them, from the request alone: six home blocks and the events over them.

pub const REFUSED: u64 = 24;
pub const FULL: u64 = 25;
pub const BYTES: usize = 384;
const MOST: usize = 48;
const GRAVEST: usize = 1;
const FIRST: usize = 8;
const SIZE: usize = 7;

/// Ordered as the panel shows them: by class, then second, then identity.
#[derive(Clone, Copy, Debug, Default, PartialEq, Eq, PartialOrd, Ord)]
pub struct Alarm {
    pub class: u8,
    pub second: u32,
    pub identity: u16,
}

impl Alarm {
    fn read(bytes: &[u8]) -> Alarm {
        Alarm {
            identity: u16::from_le_bytes(bytes[..2].try_into().expect("two bytes")),
            class: bytes[2],
            second: u32::from_le_bytes(bytes[3..SIZE].try_into().expect("four bytes")),
        }
    }

    fn write(&self, bytes: &mut [u8]) {
        bytes[..2].copy_from_slice(&self.identity.to_le_bytes());
        bytes[2] = self.class;
        bytes[3..SIZE].copy_from_slice(&self.second.to_le_bytes());
    }
}

/// The alarms that the blocks hold.
pub fn list(bytes: &[u8; BYTES]) -> Vec<Alarm> {
    let count = usize::from(bytes[0]).min(MOST);
    bytes[FIRST..].chunks_exact(SIZE).take(count).map(Alarm::read).collect()
}

/// The blocks of a list: number, gravest, alarms, zeros behind.
pub fn blocks(list: &[Alarm]) -> [u8; BYTES] {
    let mut bytes = [0; BYTES];
    bytes[0] = list.len() as u8;
    list.iter().min().copied().unwrap_or_default().write(&mut bytes[GRAVEST..]);
    for (alarm, place) in list.iter().zip(bytes[FIRST..].chunks_exact_mut(SIZE)) {
        alarm.write(place);
    }
    bytes
}

/// The gravest as the first block keeps it, all zeros for none.
pub fn gravest(block: &[u8]) -> Alarm {
    Alarm::read(&block[GRAVEST..])
}

/// The blocks after an arrival, or the answer that refuses it.
pub fn arrive(bytes: &[u8; BYTES], identity: u16, class: u64, second: u32) -> Result<[u8; BYTES], u64> {
    let mut open = list(bytes);
    if !(1..=9).contains(&class) || open.iter().any(|a| a.identity == identity) {
        return Err(REFUSED);
    }
    if open.len() >= MOST {
        return Err(FULL);
    }
    open.push(Alarm { identity, class: class as u8, second });
    Ok(blocks(&open))
}

/// The blocks after a clearing, or the answer that refuses it.
pub fn clear(bytes: &[u8; BYTES], identity: u16) -> Result<[u8; BYTES], u64> {
    let mut open = list(bytes);
    let place = open.iter().position(|a| a.identity == identity).ok_or(REFUSED)?;
    open.remove(place);
    Ok(blocks(&open))
}

#[cfg(test)]
mod tests {
    use super::*;
    use harness::rng::Rng;

    #[derive(Clone, Copy, Debug)]
    enum Event {
        Arrival(Alarm),
        Clearing(u16),
    }

    /// The arrivals that no later clearing names.
    fn open_by(done: &[Event]) -> Vec<Alarm> {
        let mut open = Vec::new();
        for (at, event) in done.iter().enumerate() {
            if let Event::Arrival(alarm) = event {
                let names = |later: &Event| matches!(later, Event::Clearing(i) if *i == alarm.identity);
                if !done[at..].iter().any(names) {
                    open.push(*alarm);
                }
            }
        }
        open
    }

    /// The one before which none goes, by looking at all pairs.
    fn gravest_by(open: &[Alarm]) -> Alarm {
        let before = |a: &Alarm, b: &Alarm| {
            a.class < b.class
                || a.class == b.class && a.second < b.second
                || a.class == b.class && a.second == b.second && a.identity < b.identity
        };
        open.iter().find(|a| !open.iter().any(|b| before(b, a))).copied().unwrap_or_default()
    }

    fn answer(open: &[Alarm], event: Event) -> u64 {
        match event {
            Event::Arrival(a) if a.class == 0 || a.class > 9 => REFUSED,
            Event::Arrival(a) if open.iter().any(|b| b.identity == a.identity) => REFUSED,
            Event::Arrival(_) if open.len() == MOST => FULL,
            Event::Clearing(i) if open.iter().all(|b| b.identity != i) => REFUSED,
            _ => 0,
        }
    }

    fn follow(events: impl IntoIterator<Item = Event>) -> Vec<Event> {
        let mut bytes = [0; BYTES];
        let mut done = Vec::new();
        for event in events {
            let open = open_by(&done);
            let after = match event {
                Event::Arrival(a) => arrive(&bytes, a.identity, a.class.into(), a.second),
                Event::Clearing(i) => clear(&bytes, i),
            };
            assert_eq!(after.err().unwrap_or(0), answer(&open, event), "{done:?} {event:?}");
            if let Ok(after) = after {
                bytes = after;
                done.push(event);
            }
            let open = open_by(&done);
            assert_eq!(list(&bytes), open);
            assert_eq!(gravest(&bytes[..64]), gravest_by(&open));
        }
        done
    }

    #[test]
    fn all_short_histories() {
        let mut choices = vec![Event::Clearing(1), Event::Clearing(2)];
        for identity in 1..3 {
            for (class, second) in [(1, 1), (1, 0), (2, 0)] {
                choices.push(Event::Arrival(Alarm { class, second, identity }));
            }
        }
        for n in 0..choices.len().pow(6) {
            let mut rest = n;
            follow((0..6).map(|_| {
                let event = choices[rest % choices.len()];
                rest /= choices.len();
                event
            }));
        }
    }

    #[test]
    fn long_histories() {
        let mut rng = Rng::new(24);
        let mut most = 0;
        for history in 0..40 {
            let clearings = history % 4 * 15;
            let events: Vec<Event> = (0..200)
                .map(|_| {
                    let identity = rng.below(80) as u16;
                    if rng.chance(clearings) {
                        return Event::Clearing(identity);
                    }
                    let (class, second) = (rng.below(11) as u8, rng.below(5) as u32);
                    Event::Arrival(Alarm { class, second, identity })
                })
                .collect();
            most = most.max(open_by(&follow(events)).len());
        }
        assert_eq!(most, MOST);
    }

    #[test]
    fn blocks_of_any_content() {
        let mut rng = Rng::new(25);
        for _ in 0..2000 {
            let mut bytes = [0u8; BYTES];
            bytes.fill_with(|| rng.below(256) as u8);
            bytes[0] = rng.below(60) as u8;
            let open = list(&bytes);
            assert_eq!(open.len(), usize::from(bytes[0]).min(MOST));
            assert_eq!(list(&blocks(&open)), open);
            assert_eq!(gravest(&blocks(&open)), gravest_by(&open));
            let alarm = match open.get(rng.below(48) as usize) {
                Some(&alarm) => alarm,
                None => continue,
            };
            let after = list(&clear(&bytes, alarm.identity).expect("open"));
            let place = open.iter().position(|a| a.identity == alarm.identity).expect("open");
            assert_eq!(after, [&open[..place], &open[place + 1..]].concat());
        }
    }
}
