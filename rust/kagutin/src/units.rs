//! Depth bands, pump hours and alarms: each event is a transaction of its own, of a writer that has nothing open.

use crate::answer::Error;
use crate::driver::Driver;
use crate::ffi::{self, Panel};
use crate::store::{Store, Ticket};

const BAND_SIZE: usize = 5;
const MOST_BANDS: usize = 32;

/// Millimetres from and to, both included, and how many pumps run there, 0 to 4.
#[derive(Clone, Copy, Debug, PartialEq, Eq, Hash)]
pub struct Band {
    /// The lowest millimetre.
    pub from: u16,
    /// The highest.
    pub to: u16,
    /// Pumps that run.
    pub pumps: u8,
}

/// Of a pump's finished runs.
#[derive(Clone, Copy, Debug, PartialEq, Eq, Hash)]
pub struct Hours {
    /// How often it was started.
    pub starts: u64,
    /// How long it ran.
    pub seconds: u64,
}

/// Of a pump, one service each interval of run seconds.
#[derive(Clone, Copy, Debug, PartialEq, Eq, Hash)]
pub struct Services {
    /// Whole services.
    pub due: u64,
    /// Seconds left over, below the interval.
    pub left: u64,
}

/// An open alarm.
#[derive(Clone, Copy, Debug, PartialEq, Eq, Hash)]
pub struct Alarm {
    /// Which.
    pub identity: u16,
    /// 1, the gravest, to 9.
    pub class: u8,
    /// When it came.
    pub second: u32,
}

impl<M: AsMut<[u8]>, D: Driver> Store<M, D> {
    /// Sets the table of depth bands, 1 to 32 rows in any order: every millimetre from 0 to 9,999 lies in one of them.
    pub fn set_bands(&self, writer: u8, bands: &[Band]) -> Result<Ticket, Error> {
        let mut rows = [0; BAND_SIZE * (MOST_BANDS + 1)]; // one too many is refused by C
        for (row, band) in rows.chunks_exact_mut(BAND_SIZE).zip(bands) {
            row[0..2].copy_from_slice(&band.from.to_le_bytes());
            row[2..4].copy_from_slice(&band.to.to_le_bytes());
            row[4] = band.pumps;
        }
        let size = BAND_SIZE * bands.len().min(MOST_BANDS + 1);
        let reply = self.call(|object| unsafe { ffi::kgt_bands_set(object, writer.into(), rows.as_ptr(), size) })?;
        Ok(self.ticket(reply.ticket))
    }

    /// The band that a depth lies in.
    pub fn band(&self, writer: u8, mm: u16) -> Result<Band, Error> {
        let reply = self.call(|object| unsafe { ffi::kgt_bands_look_up(object, writer.into(), mm.into()) })?;
        Ok(Band { from: reply.from as u16, to: reply.to as u16, pumps: reply.pumps as u8 })
    }

    /// A pump, 0 to 7, starts.
    pub fn pump_start(&self, writer: u8, pump: u8, second: u32) -> Result<Ticket, Error> {
        self.event(|object| unsafe { ffi::kgt_pump_start(object, writer.into(), pump.into(), second) })
    }

    /// It stops.
    pub fn pump_stop(&self, writer: u8, pump: u8, second: u32) -> Result<Ticket, Error> {
        self.event(|object| unsafe { ffi::kgt_pump_stop(object, writer.into(), pump.into(), second) })
    }

    /// Its starts and run seconds.
    pub fn pump_hours(&self, writer: u8, pump: u8) -> Result<Hours, Error> {
        let reply = self.call(|object| unsafe { ffi::kgt_pump_hours(object, writer.into(), pump.into()) })?;
        Ok(Hours { starts: reply.starts, seconds: reply.seconds })
    }

    /// Its services, one each interval of run seconds.
    pub fn pump_services(&self, writer: u8, pump: u8, interval: u64) -> Result<Services, Error> {
        let reply =
            self.call(|object| unsafe { ffi::kgt_pump_services(object, writer.into(), pump.into(), interval) })?;
        Ok(Services { due: reply.due, left: reply.left })
    }

    /// An alarm comes.
    pub fn alarm_arrive(&self, writer: u8, alarm: Alarm) -> Result<Ticket, Error> {
        let Alarm { identity, class, second } = alarm;
        self.event(|object| unsafe { ffi::kgt_alarm_arrive(object, writer.into(), identity, class.into(), second) })
    }

    /// It clears.
    pub fn alarm_clear(&self, writer: u8, identity: u16) -> Result<Ticket, Error> {
        self.event(|object| unsafe { ffi::kgt_alarm_clear(object, writer.into(), identity) })
    }

    /// The gravest open alarm; none is open only if this is `Ok(None)`.
    pub fn alarm_gravest(&self, writer: u8) -> Result<Option<Alarm>, Error> {
        let reply = self.call(|object| unsafe { ffi::kgt_alarm_gravest(object, writer.into()) })?;
        let alarm =
            Alarm { identity: reply.identity as u16, class: reply.alarm_class as u8, second: reply.second as u32 };
        Ok(Some(alarm).filter(|_| reply.shown == Panel::Open))
    }
}
