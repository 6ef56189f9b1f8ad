//! Who may touch what: the list of rights, in homes 8 to 11.

use crate::answer::Error;
use crate::driver::Driver;
use crate::ffi::{self, List};
use crate::store::{Store, Ticket};
use core::fmt;
use core::ops::Range;

/// Four ranges of homes to store to and four to read, for each writer. One that allows nothing is no list: all homes are open.
#[derive(Clone, PartialEq, Eq)]
pub struct Rights(List);

impl Rights {
    /// No list.
    pub const fn none() -> Rights {
        Rights(List([0; 256]))
    }

    /// Is there a list?
    pub fn is_list(&self) -> bool {
        self.0 .0.iter().any(|byte| *byte != 0)
    }

    /// Adds homes that a writer may store to. False, and the list as it was: no such writer, or four ranges already.
    #[must_use]
    pub fn allow_store(&mut self, writer: u8, homes: Range<u16>) -> bool {
        unsafe { ffi::kgt_rights_allow_store(&mut self.0, writer.into(), homes.start.into(), homes.len() as u64) }
    }

    /// Adds homes that a writer may read, in the same way.
    #[must_use]
    pub fn allow_read(&mut self, writer: u8, homes: Range<u16>) -> bool {
        unsafe { ffi::kgt_rights_allow_read(&mut self.0, writer.into(), homes.start.into(), homes.len() as u64) }
    }

    /// What the list lets a writer do; writers above 7 nothing.
    pub fn may_store(&self, writer: u8, home: u16) -> bool {
        writer < crate::WRITERS && unsafe { ffi::kgt_rights_may_store(&self.0, writer.into(), home.into()) }
    }

    /// The same for reading.
    pub fn may_read(&self, writer: u8, home: u16) -> bool {
        writer < crate::WRITERS && unsafe { ffi::kgt_rights_may_read(&self.0, writer.into(), home.into()) }
    }
}

impl fmt::Debug for Rights {
    fn fmt(&self, out: &mut fmt::Formatter<'_>) -> fmt::Result {
        out.write_str(if self.is_list() { "Rights(list)" } else { "Rights(none)" })
    }
}

impl<M: AsMut<[u8]>, D: Driver> Store<M, D> {
    /// Commits a list as one transaction of writer 0, which must be idle.
    pub fn set_rights(&self, rights: &Rights) -> Result<Ticket, Error> {
        self.event(|object| unsafe { ffi::kgt_set_rights(object, &rights.0) })
    }

    /// The list as the writer sees it.
    pub fn rights(&self, writer: u8) -> Result<Rights, Error> {
        let mut rights = Rights::none();
        let at: *mut List = &mut rights.0;
        self.call(|object| unsafe { ffi::kgt_get_rights(object, writer.into(), at) })?;
        Ok(rights)
    }
}
