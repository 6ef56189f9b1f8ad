//! The C interface of the units on the store: depth bands, pump hours and
//! alarms, and the store's own calls on several homes. It is loaded from a shared
//! object, since not every build of the library has it.

use crate::library::Reply;
use crate::shared;
use reference::units::{Ask, Told};
use std::ffi::c_void;

#[repr(C)]
#[derive(Clone, Copy)]
struct Hours {
    code: u64,
    starts: u64,
    seconds: u64,
}

#[repr(C)]
#[derive(Clone, Copy)]
struct Services {
    code: u64,
    due: u64,
    left: u64,
}

/// A row of a table, or an alarm.
#[repr(C)]
#[derive(Clone, Copy)]
struct Three {
    code: u64,
    figures: [u64; 3],
}

impl From<Reply> for Told {
    fn from(reply: Reply) -> Told {
        Told { code: reply.code, figures: [reply.figure, 0, 0], size: reply.size }
    }
}

impl From<Hours> for Told {
    fn from(told: Hours) -> Told {
        Told { code: told.code, figures: [told.starts, told.seconds, 0], size: 0 }
    }
}

impl From<Services> for Told {
    fn from(told: Services) -> Told {
        Told { code: told.code, figures: [told.due, told.left, 0], size: 0 }
    }
}

impl From<Three> for Told {
    fn from(told: Three) -> Told {
        Told { code: told.code, figures: told.figures, size: 0 }
    }
}

/// Declares calls: each slice is a pointer and a length; log, area, state and newest positions come first.
macro_rules! declare {
    ($($name:ident: [$($slice:ident)*] [$($number:ident)*] -> $result:ty;)*) => {
        /// The calls of one shared object.
        #[derive(Clone, Copy)]
        pub struct UnitCalls {
            $($name: unsafe extern "C" fn(
                *mut u8, usize, *mut u8, usize, *mut u8, usize, *mut u8, usize, $(declare!(@$slice), usize,)* $($number,)*
            ) -> $result,)*
        }

        impl UnitCalls {
            /// The calls of a shared object, which is never unloaded.
            pub fn load(path: &str) -> Result<UnitCalls, String> {
                let object = shared::open(path)?;
                // The object is a build of dist/, whose headers declare these names with these types.
                unsafe { Ok(UnitCalls { $($name: std::mem::transmute::<*mut c_void, _>(shared::find(object, stringify!($name))?),)* }) }
            }
        }
    };
    (@$slice:ident) => { *mut u8 };
}

declare! {
    kagutin_bands_set: [batch rows] [u64] -> Reply;
    kagutin_bands_look_up: [] [u64 u64] -> Three;
    kagutin_pump_start: [batch] [u64 u64 u32] -> Reply;
    kagutin_pump_stop: [batch] [u64 u64 u32] -> Reply;
    kagutin_pump_hours: [] [u64 u64] -> Hours;
    kagutin_pump_services: [] [u64 u64 u64] -> Services;
    kagutin_alarm_arrive: [batch] [u64 u16 u64 u32] -> Reply;
    kagutin_alarm_clear: [batch] [u64 u16] -> Reply;
    kagutin_alarm_gravest: [] [u64] -> Three;
    kagutin_fetch: [blocks] [u64 u64] -> Reply;
    kagutin_revise: [blocks] [u64 u64] -> Reply;
    kagutin_transact: [blocks batch] [u64 u64] -> Reply;
}

/// Log, area, state, newest positions, blocks, batch and rows.
pub type Slices<'a> = [&'a mut [u8]; 7];

impl UnitCalls {
    pub fn call(&self, slices: Slices, ask: &Ask, writer: u64) -> Told {
        let [(log, g), (area, d), (state, s), (newest, p), (blocks, k), (batch, n), (rows, r)] =
            slices.map(|slice| (slice.as_mut_ptr(), slice.len()));
        // Each pointer goes with the length of its slice, and the slices are apart.
        unsafe {
            match *ask {
                Ask::SetTable(_) => {
                    (self.kagutin_bands_set)(log, g, area, d, state, s, newest, p, batch, n, rows, r, writer).into()
                }
                Ask::LookUp(mm) => {
                    (self.kagutin_bands_look_up)(log, g, area, d, state, s, newest, p, writer, mm).into()
                }
                Ask::Start { pump, second } => {
                    (self.kagutin_pump_start)(log, g, area, d, state, s, newest, p, batch, n, writer, pump, second)
                        .into()
                }
                Ask::Stop { pump, second } => {
                    (self.kagutin_pump_stop)(log, g, area, d, state, s, newest, p, batch, n, writer, pump, second)
                        .into()
                }
                Ask::Hours { pump } => {
                    (self.kagutin_pump_hours)(log, g, area, d, state, s, newest, p, writer, pump).into()
                }
                Ask::Services { pump, interval } => {
                    (self.kagutin_pump_services)(log, g, area, d, state, s, newest, p, writer, pump, interval).into()
                }
                Ask::Arrive { identity, class, second } => {
                    let arrive = self.kagutin_alarm_arrive;
                    arrive(log, g, area, d, state, s, newest, p, batch, n, writer, identity, class, second).into()
                }
                Ask::Clear { identity } => {
                    (self.kagutin_alarm_clear)(log, g, area, d, state, s, newest, p, batch, n, writer, identity).into()
                }
                Ask::Gravest => (self.kagutin_alarm_gravest)(log, g, area, d, state, s, newest, p, writer).into(),
                Ask::Fetch { home } => {
                    (self.kagutin_fetch)(log, g, area, d, state, s, newest, p, blocks, k, writer, home).into()
                }
                Ask::Revise { home } => {
                    (self.kagutin_revise)(log, g, area, d, state, s, newest, p, blocks, k, writer, home).into()
                }
                Ask::Transact { home } => {
                    (self.kagutin_transact)(log, g, area, d, state, s, newest, p, blocks, k, batch, n, writer, home)
                        .into()
                }
            }
        }
    }
}
