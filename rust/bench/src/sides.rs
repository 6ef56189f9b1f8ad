//! The three that are measured: the library, the reference implementation behind
//! functions of the same C form, and the floor. Each call is a function of its
//! own name, so that its instructions can be told from those of the others.

use crate::script::Step;
use bindings::library::{self, Reply, Slices};
use reference::kinds::{Kind, Numbers};
use reference::lent::Lent;
use reference::Answer;
use std::arch::asm;
use std::slice::from_raw_parts_mut;

#[derive(Clone, Copy)]
pub enum Side {
    Library,
    Reference,
}

impl Side {
    pub const BOTH: [Side; 2] = [Side::Library, Side::Reference];

    /// Performs a step's call.
    pub fn run(self, lent: &mut Lent, step: &Step) -> Answer {
        let Lent { log, data, state, newest, block, batch } = lent;
        let slices: Slices = [log, data, state, newest, block, batch];
        match self {
            Side::Library => library::call(step.kind, slices, step.writer, step.home).into(),
            Side::Reference => call(step.kind, slices, step.writer, step.home).into(),
        }
    }
}

/// The prefixes of the functions' names, in the order of the columns.
pub const PREFIXES: [&str; 3] = ["kagutin_", "reference_", "floor_"];

/// Gives each call of the reference implementation the form of its C namesake.
macro_rules! wrap {
    ($($kind:ident $name:ident $c:ident $reference:ident $floor:ident [$($part:ident $len:ident)*] [$($number:ident)*];)*) => {
        $(#[no_mangle]
        #[inline(never)]
        unsafe extern "C" fn $reference($($part: *mut u8, $len: usize,)* $($number: u64,)*) -> Reply {
            $(let $part = from_raw_parts_mut($part, $len);)*
            reference::$name($($part,)* $($number,)*).into()
        })*

        /// As `library::call`.
        fn call(kind: Kind, slices: Slices, writer: u64, home: u64) -> Reply {
            let (parts, numbers) = (library::pointers(slices), Numbers::new(writer, home));
            // Each pointer goes with the length of its slice, and the slices are apart.
            unsafe {
                match kind {
                    $(Kind::$kind => $reference($(parts.$part.0, parts.$part.1,)* $(numbers.$number,)*),)*
                }
            }
        }
    };
}

reference::each_call!(wrap);

/// One memcpy for each call. The empty assembly keeps equal functions apart.
macro_rules! floors {
    ($($kind:ident $name:ident $c:ident $reference:ident $floor:ident [$($part:ident $len:ident)*] [$($number:ident)*];)*) => {
        $(#[no_mangle]
        #[inline(never)]
        unsafe extern "C" fn $floor(to: *mut u8, from: *const u8, len: usize) {
            asm!(concat!("/* ", stringify!($floor), " */"), options(nomem, nostack, preserves_flags));
            std::ptr::copy_nonoverlapping(from, to, len);
        })*

        /// Moves `len` bytes, as a call of this kind must at least.
        pub fn floor(kind: Kind, to: &mut [u8], from: &[u8], len: usize) {
            assert!(len <= to.len() && len <= from.len());
            // Both slices have that many bytes.
            unsafe {
                match kind {
                    $(Kind::$kind => $floor(to.as_mut_ptr(), from.as_ptr(), len),)*
                }
            }
        }
    };
}

reference::each_call!(floors);

/// The profiler writes down its counts and clears them when this returns.
#[no_mangle]
#[inline(never)]
pub extern "C" fn bench_dump() {
    unsafe { asm!("/* bench_dump */", options(nomem, nostack, preserves_flags)) };
}
