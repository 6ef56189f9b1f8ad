//! The calls on units: depth bands, pump hours and alarms.
//! Each asks its own first questions, then the store's once for all its homes.

use crate::alarms;
use crate::bands;
use crate::chains::{fetch, revise, transact};
use crate::hours::{self, Event, Pump};
use crate::layout::{Answer, BLOCK};
use crate::lent::Lent;

pub const TABLE_HOME: u64 = 12;
pub const TABLE_HOMES: u64 = 3;
pub const PUMP_HOME: u64 = 16;
pub const PUMPS: u64 = 8;
pub const ALARM_HOME: u64 = 24;
pub const ALARM_HOMES: u64 = 6;

const BAD_ROWS: u64 = bands::BAD_ROWS;
const NO_PUMP: u64 = 14;

/// Is this home one of the units'? Nobody else stores there.
pub fn of_units(home: u64) -> bool {
    (TABLE_HOME..TABLE_HOME + TABLE_HOMES).contains(&home)
        || (PUMP_HOME..PUMP_HOME + PUMPS).contains(&home)
        || (ALARM_HOME..ALARM_HOME + ALARM_HOMES).contains(&home)
}

/// What a call is asked for, beside the writer. The last three are the store's
/// own calls on several homes; their strip is `Lent::block`.
#[derive(Clone, Debug, PartialEq, Eq)]
pub enum Ask {
    SetTable(Vec<u8>),
    LookUp(u64),
    Start { pump: u64, second: u32 },
    Stop { pump: u64, second: u32 },
    Hours { pump: u64 },
    Services { pump: u64, interval: u64 },
    Arrive { identity: u16, class: u64, second: u32 },
    Clear { identity: u16 },
    Gravest,
    Fetch { home: u64 },
    Revise { home: u64 },
    Transact { home: u64 },
}

impl Ask {
    pub const NAMES: [&'static str; 12] = [
        "bands_set", "bands_look_up", "pump_start", "pump_stop", "pump_hours", "pump_services", "alarm_arrive",
        "alarm_clear", "alarm_gravest", "fetch", "revise", "transact",
    ];

    /// Its index among the names.
    pub fn index(&self) -> usize {
        match self {
            Ask::SetTable(_) => 0,
            Ask::LookUp(_) => 1,
            Ask::Start { .. } => 2,
            Ask::Stop { .. } => 3,
            Ask::Hours { .. } => 4,
            Ask::Services { .. } => 5,
            Ask::Arrive { .. } => 6,
            Ask::Clear { .. } => 7,
            Ask::Gravest => 8,
            Ask::Fetch { .. } => 9,
            Ask::Revise { .. } => 10,
            Ask::Transact { .. } => 11,
        }
    }

    /// Does it change the store when it is done?
    pub fn stores(&self) -> bool {
        matches!(self.index(), 0 | 2 | 3 | 6 | 7 | 11)
    }
}

/// What a call gives: its answer, up to three figures, and the batch's bytes.
#[derive(Clone, Copy, Debug, PartialEq, Eq, Default)]
pub struct Told {
    pub code: u64,
    pub figures: [u64; 3],
    pub size: u64,
}

impl Told {
    pub fn refused(code: u64) -> Told {
        Told { code, ..Told::default() }
    }

    pub fn figures(figures: [u64; 3]) -> Told {
        Told { figures, ..Told::default() }
    }
}

impl From<Answer> for Told {
    fn from(answer: Answer) -> Told {
        Told { code: answer.code.into(), figures: [answer.figure, 0, 0], size: answer.len as u64 }
    }
}

/// Performs a call on what is lent; histories can be played with another
/// implementation than this one.
pub type UnitRunner = Box<dyn FnMut(&mut Lent, &Ask, u64) -> Told>;

impl Lent {
    pub fn ask(&mut self, ask: &Ask, writer: u64) -> Told {
        let told = match *ask {
            Ask::SetTable(ref rows) => self.set_table(rows, writer),
            Ask::LookUp(millimetre) => self.look_up(millimetre, writer),
            Ask::Start { pump, second } => self.pump_event(pump, Event::Start(second), writer),
            Ask::Stop { pump, second } => self.pump_event(pump, Event::Stop(second), writer),
            Ask::Hours { pump } => {
                self.pump(pump, writer).map(|p| [p.starts.into(), p.total.into(), 0]).map(Told::figures)
            }
            Ask::Services { pump, interval } => self.services(pump, interval, writer),
            Ask::Arrive { identity, class, second } => self.arrive(identity, class, second, writer),
            Ask::Clear { identity } => self.alarm_event(writer, |list| alarms::clear(list, identity)),
            Ask::Gravest => self.gravest(writer),
            Ask::Fetch { home } | Ask::Revise { home } => {
                let call = if matches!(ask, Ask::Fetch { .. }) { fetch } else { revise };
                Ok(call(&self.log, &self.data, &self.state, &self.newest, &mut self.block, writer, home).into())
            }
            Ask::Transact { home } => {
                let blocks = self.block.clone();
                Ok(self.transact(&blocks, writer, home))
            }
        };
        told.unwrap_or_else(Told::refused)
    }

    fn transact(&mut self, blocks: &[u8], writer: u64, home: u64) -> Told {
        let Lent { log, data, state, newest, batch, .. } = self;
        transact(log, data, state, newest, blocks, batch, writer, home).into()
    }

    fn fetch<const SIZE: usize>(&self, writer: u64, home: u64) -> Result<[u8; SIZE], u64> {
        let mut blocks = [0; SIZE];
        let answer = fetch(&self.log, &self.data, &self.state, &self.newest, &mut blocks, writer, home);
        if answer.code == 0 {
            Ok(blocks)
        } else {
            Err(answer.code.into())
        }
    }

    /// Reads a unit's blocks and stores what the event makes of them.
    fn event<const SIZE: usize>(
        &mut self,
        writer: u64,
        home: u64,
        event: impl FnOnce(&[u8; SIZE]) -> Result<[u8; SIZE], u64>,
    ) -> Result<Told, u64> {
        let mut blocks = [0; SIZE];
        let answer = revise(&self.log, &self.data, &self.state, &self.newest, &mut blocks, writer, home);
        if answer.code != 0 {
            return Err(answer.code.into());
        }
        let blocks = event(&blocks)?;
        Ok(self.transact(&blocks, writer, home))
    }

    fn set_table(&mut self, rows: &[u8], writer: u64) -> Result<Told, u64> {
        let verdict = bands::judge(rows);
        if verdict.code != 0 {
            return Ok(Told { code: verdict.code, figures: [verdict.millimetre, 0, 0], size: 0 });
        }
        Ok(self.transact(&bands::pack(rows), writer, TABLE_HOME))
    }

    fn look_up(&self, millimetre: u64, writer: u64) -> Result<Told, u64> {
        if millimetre >= bands::DEPTHS {
            return Err(BAD_ROWS);
        }
        let table = self.fetch(writer, TABLE_HOME)?;
        let band = bands::look_up(&table, millimetre).ok_or(BAD_ROWS)?;
        Ok(Told::figures([band.from, band.to, band.pumps]))
    }

    fn pump(&self, pump: u64, writer: u64) -> Result<Pump, u64> {
        if pump >= PUMPS {
            return Err(NO_PUMP);
        }
        self.fetch::<BLOCK>(writer, PUMP_HOME + pump).map(|block| Pump::read(&block))
    }

    fn services(&self, pump: u64, interval: u64, writer: u64) -> Result<Told, u64> {
        if interval == 0 {
            return Err(NO_PUMP);
        }
        let total = u64::from(self.pump(pump, writer)?.total);
        Ok(Told::figures([total / interval, total % interval, 0]))
    }

    fn pump_event(&mut self, pump: u64, event: Event, writer: u64) -> Result<Told, u64> {
        if pump >= PUMPS {
            return Err(NO_PUMP);
        }
        self.event(writer, PUMP_HOME + pump, |block: &[u8; hours::BLOCK]| {
            Pump::read(block).after(event).map(|pump| pump.block())
        })
    }

    fn arrive(&mut self, identity: u16, class: u64, second: u32, writer: u64) -> Result<Told, u64> {
        if !(1..=9).contains(&class) {
            return Err(alarms::REFUSED);
        }
        self.alarm_event(writer, |list| alarms::arrive(list, identity, class, second))
    }

    fn alarm_event(
        &mut self,
        writer: u64,
        event: impl FnOnce(&[u8; alarms::BYTES]) -> Result<[u8; alarms::BYTES], u64>,
    ) -> Result<Told, u64> {
        self.event(writer, ALARM_HOME, event)
    }

    fn gravest(&self, writer: u64) -> Result<Told, u64> {
        let alarm = alarms::gravest(&self.fetch::<BLOCK>(writer, ALARM_HOME)?);
        Ok(Told::figures([alarm.identity.into(), alarm.class.into(), alarm.second.into()]))
    }
}
