//! The C side, as include/kagutin_store.h, kagutin_rights.h and kagutin_units.h have it. Answers of the C calls come as numbers.

use crate::driver::{Area, Landing};
use crate::store::Room;
use core::ffi::c_void;

#[cfg(target_pointer_width = "16")]
compile_error!("kagutin: int has 32 bits here");

/// int
pub type Int = i32;

/// A number that a call tells only if it is done.
pub const NOT_TOLD: u64 = u64::MAX;

/// struct kagutin, whose inside is C's; src/lend.c sees to it that it fits.
#[repr(C, align(8))]
pub struct Object([u8; 256]);

impl Object {
    pub const EMPTY: Object = Object([0; 256]);
}

pub type Load = unsafe extern "C" fn(*mut c_void, Area, usize, *mut u8, usize) -> Int;
pub type Write = unsafe extern "C" fn(*mut c_void, Area, usize, *const u8, usize) -> Int;
pub type Fence = unsafe extern "C" fn(*mut c_void) -> Int;

#[repr(C)]
pub struct Functions {
    pub context: *mut c_void,
    pub load: Load,
    pub write: Write,
    pub fence: Fence,
    pub landing: Landing,
}

/// Answers with the fields that many of the C replies have.
pub trait Reply {
    fn code(&self) -> u64;
    fn error(&self) -> Int;
    fn holder(&self) -> u64 {
        u64::from(crate::WRITERS)
    }
    fn millimetre(&self) -> u64 {
        NOT_TOLD
    }
}

macro_rules! reply {
    ($name:ident { $($field:ident: $kind:ty),* } $($told:ident)*) => {
        #[repr(C)]
        #[derive(Clone, Copy)]
        pub struct $name {
            pub code: u64,
            $(pub $field: $kind,)*
            pub error: Int,
        }
        impl Reply for $name {
            fn code(&self) -> u64 {
                self.code
            }
            fn error(&self) -> Int {
                self.error
            }
            $(fn $told(&self) -> u64 {
                self.$told
            })*
        }
    };
}

reply!(Plain { holder: u64 } holder);
reply!(Opened { commits: u64 });
reply!(TicketReply { ticket: u64, holder: u64 } holder);
reply!(MarkReply { mark: u64 });
reply!(Progress { more: bool });
reply!(Table { ticket: u64, millimetre: u64, holder: u64 } holder millimetre);
reply!(BandReply { from: u64, to: u64, pumps: u64 });
reply!(HoursReply { starts: u64, seconds: u64 });
reply!(ServicesReply { due: u64, left: u64 });
reply!(AlarmReply { shown: Panel, identity: u64, alarm_class: u64, second: u64 });

#[repr(C)]
#[derive(Clone, Copy, PartialEq, Eq)]
#[allow(dead_code)] // C makes them
pub enum Panel {
    NotTold,
    NoneOpen,
    Open,
}

#[repr(C)]
#[derive(Clone, Copy, Default)]
pub struct Places {
    pub code: u64,
    pub live: u64,
    pub dead: u64,
    pub free: u64,
    pub promised: u64,
    pub holder: u64,
    pub first: u64,
}

#[repr(C)]
#[derive(Clone, Copy, PartialEq, Eq)]
pub struct List(pub [u8; 256]);

pub type End = unsafe extern "C" fn(*mut Object, u64) -> TicketReply;

extern "C" {
    pub fn kagutin_rust_lend(store: *mut Object, context: *mut c_void, memory: *mut u8);
    pub fn kagutin_version() -> *const u8;
    pub fn kgt_answer_text(code: u64) -> *const u8;

    pub fn kgt_init(o: *mut Object, memory: *mut u8, size: usize, groups: usize, homes: usize, f: Functions) -> Plain;
    pub fn kgt_set_room(o: *mut Object, room: Room) -> Plain;
    pub fn kgt_allow_list_stores(o: *mut Object) -> Plain;
    pub fn kgt_format(o: *mut Object, scratch: *mut u8, size: usize) -> Plain;
    pub fn kgt_open(o: *mut Object) -> Opened;

    pub fn kgt_begin(o: *mut Object, writer: u64) -> Plain;
    pub fn kgt_reserve(o: *mut Object, writer: u64, places: u64) -> Plain;
    pub fn kgt_store(o: *mut Object, writer: u64, home: u64, block: *const u8) -> Plain;
    pub fn kgt_commit(o: *mut Object, writer: u64) -> TicketReply;
    pub fn kgt_commit_sync(o: *mut Object, writer: u64) -> TicketReply;
    pub fn kgt_abort(o: *mut Object, writer: u64) -> Plain;
    pub fn kgt_read(o: *mut Object, writer: u64, home: u64, block: *mut u8) -> Plain;
    pub fn kgt_sync(o: *mut Object) -> MarkReply;
    pub fn kgt_maintain(o: *mut Object, most: u64) -> Progress;
    pub fn kgt_usage(o: *mut Object, places: *mut Places) -> Plain;

    pub fn kgt_rights_allow_store(list: *mut List, writer: u64, first: u64, number: u64) -> bool;
    pub fn kgt_rights_allow_read(list: *mut List, writer: u64, first: u64, number: u64) -> bool;
    pub fn kgt_rights_may_store(list: *const List, writer: u64, home: u64) -> bool;
    pub fn kgt_rights_may_read(list: *const List, writer: u64, home: u64) -> bool;
    pub fn kgt_set_rights(o: *mut Object, list: *const List) -> TicketReply;
    pub fn kgt_get_rights(o: *mut Object, writer: u64, list: *mut List) -> Plain;

    pub fn kgt_bands_set(o: *mut Object, writer: u64, rows: *const u8, size: usize) -> Table;
    pub fn kgt_bands_look_up(o: *mut Object, writer: u64, mm: u64) -> BandReply;
    pub fn kgt_pump_start(o: *mut Object, writer: u64, pump: u64, second: u32) -> TicketReply;
    pub fn kgt_pump_stop(o: *mut Object, writer: u64, pump: u64, second: u32) -> TicketReply;
    pub fn kgt_pump_hours(o: *mut Object, writer: u64, pump: u64) -> HoursReply;
    pub fn kgt_pump_services(o: *mut Object, writer: u64, pump: u64, interval: u64) -> ServicesReply;
    pub fn kgt_alarm_arrive(o: *mut Object, writer: u64, identity: u16, alarm_class: u64, second: u32) -> TicketReply;
    pub fn kgt_alarm_clear(o: *mut Object, writer: u64, identity: u16) -> TicketReply;
    pub fn kgt_alarm_gravest(o: *mut Object, writer: u64) -> AlarmReply;
}

/// A text that C keeps for ever, in ASCII.
pub fn text(start: *const u8) -> &'static str {
    let mut length = 0;
    // SAFETY: only called with C's own texts, which end with a zero and are never changed.
    let bytes = unsafe {
        while *start.add(length) != 0 {
            length += 1;
        }
        core::slice::from_raw_parts(start, length)
    };
    core::str::from_utf8(bytes).unwrap_or("")
}

#[cfg(test)]
mod tests {
    use super::*;
    use crate::{format_size, memory_size};
    use core::mem::size_of;
    use core::ptr::addr_of;

    extern "C" {
        fn kagutin_rust_lent_right() -> bool;
        static kagutin_rust_layout: [usize; 36];
    }

    /// Offset of a field, from a struct of zeros, which all of these may be.
    macro_rules! offset {
        ($kind:ty, $field:ident) => {{
            let value = core::mem::MaybeUninit::<$kind>::uninit();
            let base = value.as_ptr();
            // SAFETY: the address of a field inside it, nothing is read.
            unsafe { addr_of!((*base).$field) as usize - base as usize }
        }};
    }

    #[test]
    fn structs_are_laid_out_as_in_c() {
        let layout = [
            size_of::<Functions>(),
            offset!(Functions, load),
            offset!(Functions, landing),
            size_of::<Area>(),
            size_of::<Landing>(),
            size_of::<Room>(),
            size_of::<Panel>(),
            size_of::<Plain>(),
            offset!(Plain, error),
            size_of::<Opened>(),
            size_of::<TicketReply>(),
            offset!(TicketReply, holder),
            offset!(TicketReply, error),
            size_of::<MarkReply>(),
            size_of::<Progress>(),
            offset!(Progress, more),
            offset!(Progress, error),
            size_of::<Places>(),
            offset!(Places, first),
            size_of::<List>(),
            size_of::<Table>(),
            offset!(Table, millimetre),
            size_of::<BandReply>(),
            offset!(BandReply, pumps),
            size_of::<HoursReply>(),
            size_of::<ServicesReply>(),
            size_of::<AlarmReply>(),
            offset!(AlarmReply, shown),
            offset!(AlarmReply, identity),
            offset!(AlarmReply, error),
            memory_size(4, 1),
            memory_size(16, 32),
            memory_size(4, 65535),
            memory_size(1024, 65535),
            format_size(4, 1),
            format_size(1024, 65535),
        ];
        assert_eq!(layout, unsafe { kagutin_rust_layout });
    }

    #[test]
    fn parts_of_the_memory_are_those_of_init() {
        assert!(unsafe { kagutin_rust_lent_right() });
    }

    #[test]
    fn the_version_is_that_of_the_crate() {
        assert_eq!(crate::version(), env!("CARGO_PKG_VERSION"));
    }
}
