//! Lasting memory, as three functions.

use crate::answer::Fault;
use crate::ffi::{Functions, Int};
use core::ffi::c_void;
use core::slice;

/// The two areas of lasting memory, each of a length of its own ([`crate::log_size`], [`crate::homes_size`]).
#[repr(C)]
#[derive(Clone, Copy, Debug, PartialEq, Eq, Hash)]
pub enum Area {
    /// Header and groups.
    Log,
    /// Home blocks.
    Homes,
}

/// What the medium keeps whole if power fails while it is written.
#[repr(C)]
#[derive(Clone, Copy, Debug, PartialEq, Eq, Hash)]
pub enum Landing {
    /// Aligned words of 8 bytes.
    Words,
    /// Aligned blocks of 64 bytes.
    Blocks,
}

/// A driver. What it owes the store is in docs/DRIVERS.md; one that breaks its duties loses commits, never memory safety.
///
/// A panic in one of its functions ends the program, since C called it. A call of the store from there is refused
/// ([`crate::Answer::LockFailed`]).
pub trait Driver {
    /// What the medium keeps whole.
    const LANDING: Landing;

    /// First decides what lasting memory holds, then copies it in: all that it gives is still there after a power cut, and no
    /// earlier write arrives any more.
    fn load(&mut self, area: Area, at: usize, bytes: &mut [u8]) -> Result<(), Fault>;

    /// Writes at an offset of an area; offsets and lengths are multiples of 8. The bytes may arrive at any time up to the next
    /// fence, in any order, in parts no smaller than the landing says; also if it fails.
    fn write(&mut self, area: Area, at: usize, bytes: &[u8]) -> Result<(), Fault>;

    /// Done when all earlier writes are in lasting memory.
    fn fence(&mut self) -> Result<(), Fault>;
}

impl<D: Driver> Driver for &mut D {
    const LANDING: Landing = D::LANDING;

    fn load(&mut self, area: Area, at: usize, bytes: &mut [u8]) -> Result<(), Fault> {
        (**self).load(area, at, bytes)
    }

    fn write(&mut self, area: Area, at: usize, bytes: &[u8]) -> Result<(), Fault> {
        (**self).write(area, at, bytes)
    }

    fn fence(&mut self) -> Result<(), Fault> {
        (**self).fence()
    }
}

/// The functions that C calls; the context is a `D` that nobody else refers to meanwhile.
pub(crate) fn functions<D: Driver>(context: *mut D) -> Functions {
    Functions { context: context.cast(), load: load::<D>, write: write::<D>, fence: fence::<D>, landing: D::LANDING }
}

unsafe extern "C" fn load<D: Driver>(context: *mut c_void, area: Area, at: usize, bytes: *mut u8, size: usize) -> Int {
    // SAFETY: C lends size bytes of the store's own memory, and the driver's address as the store gave it.
    let (driver, bytes) = unsafe { (&mut *context.cast::<D>(), slice::from_raw_parts_mut(bytes, size)) };
    number(|| driver.load(area, at, bytes))
}

unsafe extern "C" fn write<D: Driver>(
    context: *mut c_void,
    area: Area,
    at: usize,
    bytes: *const u8,
    size: usize,
) -> Int {
    // SAFETY: as for load.
    let (driver, bytes) = unsafe { (&mut *context.cast::<D>(), slice::from_raw_parts(bytes, size)) };
    number(|| driver.write(area, at, bytes))
}

unsafe extern "C" fn fence<D: Driver>(context: *mut c_void) -> Int {
    // SAFETY: as for load.
    let driver = unsafe { &mut *context.cast::<D>() };
    number(|| driver.fence())
}

/// 0 or the fault. A panic that would leave by way of C meets a second one here, which ends the program.
fn number(function: impl FnOnce() -> Result<(), Fault>) -> Int {
    struct Guard;
    impl Drop for Guard {
        fn drop(&mut self) {
            panic!("a driver of kagutin panicked");
        }
    }
    let guard = Guard;
    let result = function();
    core::mem::forget(guard);
    result.map_or_else(Fault::number, |()| 0)
}
