//! Answers and errors.

use crate::ffi::{self, Reply};
use core::fmt;

macro_rules! answers {
    ($($(#[$text:meta])* $name:ident = $number:literal,)*) => {
        /// Why a call was refused. The numbers are those of kagutin.h and kagutin_store.h.
        #[derive(Clone, Copy, Debug, PartialEq, Eq, Hash)]
        #[non_exhaustive]
        pub enum Answer {
            $($(#[$text])* $name,)*
            /// A number without a name here.
            Other(u64),
        }

        impl Answer {
            /// Its number.
            pub const fn number(self) -> u64 {
                match self {
                    $(Answer::$name => $number,)*
                    Answer::Other(number) => number,
                }
            }

            pub(crate) const fn of(number: u64) -> Answer {
                match number {
                    $($number => Answer::$name,)*
                    _ => Answer::Other(number),
                }
            }
        }
    };
}

answers! {
    /// Memory is too short, or groups or homes are out of range.
    BadLength = 1,
    /// The state is out of order.
    BadState = 2,
    /// No store there, one of another shape, or of an older format.
    BadHeader = 3,
    /// Writers are 0 to 7.
    BadWriter = 4,
    /// The store has no such home.
    BadHome = 5,
    /// The writer has a transaction open.
    NotIdle = 6,
    /// The writer has none open.
    NotOpen = 7,
    /// The log is full; the error's holder is the writer whose open transaction holds it.
    Full = 8,
    /// The scratch is too short.
    ShortBatch = 9,
    /// The log is worn out.
    WornOut = 10,
    /// No acceptable table of bands, or none there, or a depth above 9,999 mm.
    BadBands = 11,
    /// A millimetre lies in no band.
    BandGap = 12,
    /// A millimetre lies in two bands or more.
    BandOverlap = 13,
    /// No such pump, or an interval of 0.
    BadPump = 14,
    /// A start while it runs, a stop while it does not.
    WrongPumpState = 15,
    /// Before the pump's last event, or a count past 32 bits.
    BadSecond = 16,
    /// So many places are not free, or none was asked for.
    NoPlaces = 17,
    /// The sync would pass over promised places.
    Promised = 18,
    /// The writer has no right to store to this home.
    StoreDenied = 19,
    /// The writer has no right to read this home.
    ReadDenied = 20,
    /// A round is under way, or none is.
    WrongRound = 21,
    /// A class out of range, an alarm already open, or one that is not.
    BadAlarm = 24,
    /// 48 alarms are open.
    AlarmsFull = 25,
    /// Lent buffers overlap; only in builds that ask for it.
    BadBuffers = 63,
    /// The store is not open.
    Closed = 64,
    /// The driver has failed, in this call or an earlier one: open again.
    DriverFailed = 65,
    /// The call came from a function of the driver; nothing was done.
    LockFailed = 66,
    /// The memory has not its length of before.
    NotInit = 67,
    /// Homes 8 to 11 are stored by `set_rights`.
    ListGuarded = 68,
}

impl fmt::Display for Answer {
    fn fmt(&self, out: &mut fmt::Formatter<'_>) -> fmt::Result {
        out.write_str(ffi::text(unsafe { ffi::kgt_answer_text(self.number()) }))
    }
}

/// A driver's own error: a number other than 0.
#[derive(Clone, Copy, Debug, PartialEq, Eq, Hash)]
pub struct Fault(i32);

impl Fault {
    /// Of this number; 0, which would be none, becomes -1.
    pub const fn new(number: i32) -> Fault {
        Fault(if number == 0 { -1 } else { number })
    }

    /// Its number, never 0.
    pub const fn number(self) -> i32 {
        self.0
    }
}

/// A call that was not done. But for [`Answer::DriverFailed`] it has changed nothing.
#[derive(Clone, Copy, Debug, PartialEq, Eq, Hash)]
pub struct Error {
    answer: Answer,
    holder: Option<u8>,
    fault: Option<Fault>,
    millimetre: Option<u16>,
}

impl Error {
    /// Why.
    pub const fn answer(&self) -> Answer {
        self.answer
    }

    /// In a full log: the writer whose open transaction holds its oldest groups.
    pub const fn holder(&self) -> Option<u8> {
        self.holder
    }

    /// The driver's own error, if it failed.
    pub const fn fault(&self) -> Option<Fault> {
        self.fault
    }

    /// The lowest millimetre in no band, or in two or more.
    pub const fn millimetre(&self) -> Option<u16> {
        self.millimetre
    }

    pub(crate) const fn of(answer: Answer) -> Error {
        Error { answer, holder: None, fault: None, millimetre: None }
    }
}

impl fmt::Display for Error {
    fn fmt(&self, out: &mut fmt::Formatter<'_>) -> fmt::Result {
        write!(out, "answer {}: {}", self.answer.number(), self.answer)?;
        if let Some(writer) = self.holder {
            write!(out, "; writer {writer} holds the log")?;
        }
        if let Some(fault) = self.fault {
            write!(out, "; error {} of the driver", fault.number())?;
        }
        if let Some(mm) = self.millimetre {
            write!(out, "; at {mm} mm")?;
        }
        Ok(())
    }
}

/// A reply if its call was done.
pub(crate) fn done<R: Reply>(reply: R) -> Result<R, Error> {
    if reply.code() == 0 {
        return Ok(reply);
    }
    Err(Error {
        answer: Answer::of(reply.code()),
        holder: u8::try_from(reply.holder()).ok().filter(|writer| *writer < crate::WRITERS),
        fault: if reply.error() == 0 { None } else { Some(Fault(reply.error())) },
        millimetre: u16::try_from(reply.millimetre()).ok(),
    })
}
