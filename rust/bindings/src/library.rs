//! The library's C interface.

use crate::shared;
use reference::kinds::{Kind, Numbers, Parts};
use reference::lent::Lent;
use reference::usage::Usage;
use reference::Answer;
use std::ffi::c_void;

/// What every call returns.
#[repr(C)]
#[derive(Clone, Copy, Debug, PartialEq, Eq)]
pub struct Reply {
    pub code: u64,
    pub figure: u64,
    pub size: u64,
}

impl From<Answer> for Reply {
    fn from(answer: Answer) -> Reply {
        Reply { code: answer.code.into(), figure: answer.figure, size: answer.len as u64 }
    }
}

impl From<Reply> for Answer {
    /// A number that does not fit becomes one that no call answers.
    fn from(reply: Reply) -> Answer {
        let code = u32::try_from(reply.code).unwrap_or(u32::MAX);
        let len = usize::try_from(reply.size).unwrap_or(usize::MAX);
        Answer { code, figure: reply.figure, len }
    }
}

/// Declares the calls of the list: each part is a pointer and a length, each number a u64.
macro_rules! declare {
    ($($kind:ident $name:ident $c:ident $reference:ident $floor:ident [$($part:ident $len:ident)*] [$($number:ident)*];)*) => {
        extern "C" {
            $(fn $c($($part: *mut u8, $len: usize,)* $($number: u64,)*) -> Reply;)*
            fn kagutin_usage(log: *const u8, _: usize, area: *const u8, _: usize, state: *const u8, _: usize) -> Usage;
        }

        /// The calls of one build of the library.
        #[derive(Clone, Copy)]
        pub struct Calls {
            $($c: unsafe extern "C" fn($($part: *mut u8, $len: usize,)* $($number: u64,)*) -> Reply,)*
            kagutin_usage: unsafe extern "C" fn(*const u8, usize, *const u8, usize, *const u8, usize) -> Usage,
        }

        /// The calls of the archive that this program is linked with.
        pub const ARCHIVE: Calls = Calls { $($c,)* kagutin_usage };

        impl Calls {
            /// The calls of a shared object, which is never unloaded.
            pub fn load(path: &str) -> Result<Calls, String> {
                let object = shared::open(path)?;
                // The object is a build of dist/kagutin.c, whose header declares these names with these types.
                unsafe {
                    Ok(Calls {
                        $($c: std::mem::transmute::<*mut c_void, _>(shared::find(object, stringify!($c))?),)*
                        kagutin_usage: std::mem::transmute::<*mut c_void, _>(shared::find(object, "kagutin_usage")?),
                    })
                }
            }

            pub fn call(&self, kind: Kind, slices: Slices, writer: u64, home: u64) -> Reply {
                let (parts, numbers) = (pointers(slices), Numbers::new(writer, home));
                // Each pointer goes with the length of its slice, and the slices are apart.
                unsafe {
                    match kind {
                        $(Kind::$kind => (self.$c)($(parts.$part.0, parts.$part.1,)* $(numbers.$number,)*),)*
                    }
                }
            }
        }
    };
}

reference::each_call!(declare);

/// Log, area, state, newest positions, block and batch. An empty slice has a dangling pointer.
pub type Slices<'a> = [&'a mut [u8]; 6];

/// Each slice as C takes it, pointer and length.
pub fn pointers(slices: Slices) -> Parts<(*mut u8, usize)> {
    let [log, area, state, newest, block, batch] = slices.map(|slice| (slice.as_mut_ptr(), slice.len()));
    Parts { log, area, state, newest, block, batch }
}

impl Calls {
    /// What fills the log.
    pub fn usage(&self, lent: &Lent) -> Usage {
        let [(log, g), (area, d), (state, s)] =
            [&lent.log, &lent.data, &lent.state].map(|part| (part.as_ptr(), part.len()));
        // Each pointer goes with the length of its slice; the call writes none of them.
        unsafe { (self.kagutin_usage)(log, g, area, d, state, s) }
    }

    /// The call on the lent memory itself.
    pub fn run(&self, lent: &mut Lent, kind: Kind, writer: u64, home: u64) -> Answer {
        let Lent { log, data, state, newest, block, batch } = lent;
        crate::trap::enter(kind);
        let reply = self.call(kind, [log, data, state, newest, block, batch], writer, home);
        crate::trap::leave();
        reply.into()
    }
}

/// The archive's call.
pub fn call(kind: Kind, slices: Slices, writer: u64, home: u64) -> Reply {
    ARCHIVE.call(kind, slices, writer, home)
}
