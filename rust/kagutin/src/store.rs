//! The store.

use crate::answer::{done, Answer, Error};
use crate::driver::{functions, Driver};
use crate::ffi::{self, Object, Places, Reply, TicketReply};
use crate::transaction::Transaction;
use crate::{Block, BLOCK_SIZE, WRITERS};
use core::cell::{Cell, UnsafeCell};

/// A store on a driver, with its memory.
///
/// The memory is anything that gives bytes, lent or owned: `&mut [u8]`, an array, a `Vec<u8>`. It holds a copy of all that is
/// stored; [`crate::memory_size`] tells its length. So with the driver: a `&mut D` is one, too. A store may move.
///
/// Calls take `&self`, so that several writers have transactions open at a time; several threads share a store behind a mutex.
pub struct Store<M: AsMut<[u8]>, D: Driver> {
    object: UnsafeCell<Object>,
    memory: UnsafeCell<M>,
    driver: UnsafeCell<D>,
    length: usize,
    busy: Cell<bool>,
    openings: u64,
}

/// Of a commit: it is durable once a mark reaches it.
#[derive(Clone, Copy, Debug, PartialEq, Eq, Hash)]
#[must_use = "the commit is not durable before a sync's mark reaches it"]
pub struct Ticket {
    number: u64,
    opening: u64,
}

/// Of a sync: how far commits are durable.
#[derive(Clone, Copy, Debug, PartialEq, Eq, Hash)]
pub struct Mark {
    number: u64,
    opening: u64,
}

impl Mark {
    /// The commit is durable. Never true of a ticket of another opening.
    pub const fn reaches(self, ticket: Ticket) -> bool {
        self.opening == ticket.opening && self.number >= ticket.number
    }
}

/// Who makes room in a full log.
#[repr(C)]
#[derive(Clone, Copy, Debug, PartialEq, Eq, Hash)]
pub enum Room {
    /// The call that finds it full.
    AtOnce,
    /// Only the task that calls [`Store::maintain`]; others are answered 8, 17 or 18.
    ByMaintain,
}

/// What fills the log, in places of entries.
#[derive(Clone, Copy, Debug, PartialEq, Eq, Hash)]
#[non_exhaustive]
pub struct Usage {
    /// Entries of open transactions, and of committed ones that are not trimmed.
    pub live: u64,
    /// Aborted, or passed over by a sync, and not trimmed.
    pub dead: u64,
    /// Free, promised ones included.
    pub free: u64,
    /// Of the free ones: promised to writers that reserved them.
    pub promised: u64,
    /// The writer whose open transaction begins first in the log.
    pub holder: Option<u8>,
}

impl<M: AsMut<[u8]>, D: Driver> Store<M, D> {
    /// A closed store; touches no lasting memory. Answer 1: the memory is too short, or the shape out of range.
    pub fn new(memory: M, groups: usize, homes: usize, driver: D) -> Result<Self, Error> {
        let store = Store {
            object: UnsafeCell::new(Object::EMPTY),
            memory: UnsafeCell::new(memory),
            driver: UnsafeCell::new(driver),
            length: 0,
            busy: Cell::new(false),
            openings: 0,
        };
        store.init(groups, homes)
    }

    fn init(mut self, groups: usize, homes: usize) -> Result<Self, Error> {
        let bytes = self.memory.get_mut().as_mut();
        let (start, length) = (bytes.as_mut_ptr(), bytes.len());
        let driver = functions(self.driver.get());
        // SAFETY: C writes the object alone, and keeps addresses that every call replaces.
        done(unsafe { ffi::kgt_init(self.object.get(), start, length, groups, homes, driver) })?;
        self.length = length;
        Ok(self)
    }

    /// Who makes room in a full log; [`Room::AtOnce`] unless this is called.
    pub fn set_room(&mut self, room: Room) {
        // SAFETY: it sets a field of the object.
        unsafe { ffi::kgt_set_room(self.object.get(), room) };
    }

    /// Lets writer 0 store to the list of rights, homes 8 to 11, block by block; without it such a store is answered 68.
    pub fn allow_list_stores(&mut self) {
        // SAFETY: it sets a field of the object.
        unsafe { ffi::kgt_allow_list_stores(self.object.get()) };
    }

    /// Makes lasting memory an empty store, all homes zero: once in a device's life. The scratch has [`crate::format_size`]
    /// bytes and is free again afterwards. The store is then closed.
    pub fn format(&mut self, scratch: &mut [u8]) -> Result<(), Error> {
        let (start, length) = (scratch.as_mut_ptr(), scratch.len());
        self.call(|object| unsafe { ffi::kgt_format(object, start, length) }).map(|_| ())
    }

    /// Loads lasting memory and brings back the longest run of commits that persisted: how many of them stood in the log.
    /// Needed before all else, and after the driver has failed.
    pub fn open(&mut self) -> Result<u64, Error> {
        self.openings += 1;
        self.call(|object| unsafe { ffi::kgt_open(object) }).map(|reply| reply.commits)
    }

    /// Opens a transaction of an idle writer. It is aborted when it is dropped.
    pub fn begin(&self, writer: u8) -> Result<Transaction<'_, M, D>, Error> {
        self.call(|object| unsafe { ffi::kgt_begin(object, writer.into()) })?;
        Ok(Transaction::new(self, writer))
    }

    /// The same with so many places of the log promised: none of its first so many entries is answered 8. A transaction of n
    /// stores has at most n entries.
    pub fn reserve(&self, writer: u8, places: u64) -> Result<Transaction<'_, M, D>, Error> {
        self.call(|object| unsafe { ffi::kgt_reserve(object, writer.into(), places) })?;
        Ok(Transaction::new(self, writer))
    }

    /// What the writer sees in a home: its own open transaction's newest block, else the newest committed one.
    pub fn read(&self, writer: u8, home: u16) -> Result<Block, Error> {
        let mut block = [0; BLOCK_SIZE];
        let start = block.as_mut_ptr();
        self.call(|object| unsafe { ffi::kgt_read(object, writer.into(), home.into(), start) })?;
        Ok(block)
    }

    /// Makes all commits so far durable. Answer 18: promised places are in the way; sync again when their transaction has ended.
    pub fn sync(&self) -> Result<Mark, Error> {
        let reply = self.call(|object| unsafe { ffi::kgt_sync(object) })?;
        Ok(Mark { number: reply.mark, opening: self.openings })
    }

    /// Frees log space in the background: at most so many homes are written; 0 is no bound. True: there is more to do.
    pub fn maintain(&self, most: u64) -> Result<bool, Error> {
        self.call(|object| unsafe { ffi::kgt_maintain(object, most) }).map(|reply| reply.more)
    }

    /// What fills the log at this moment.
    pub fn usage(&self) -> Result<Usage, Error> {
        let mut places = Places::default();
        let at: *mut Places = &mut places;
        self.call(|object| unsafe { ffi::kgt_usage(object, at) })?;
        let holder = u8::try_from(places.holder).ok().filter(|writer| *writer < WRITERS);
        Ok(Usage { live: places.live, dead: places.dead, free: places.free, promised: places.promised, holder })
    }

    /// The driver, between calls.
    pub fn driver_mut(&mut self) -> &mut D {
        self.driver.get_mut()
    }

    /// Memory and driver back.
    pub fn into_parts(self) -> (M, D) {
        (self.memory.into_inner(), self.driver.into_inner())
    }

    /// A call of C, and what it answers if it is done.
    pub(crate) fn call<R: Reply>(&self, run: impl FnOnce(*mut Object) -> R) -> Result<R, Error> {
        self.reply(run).and_then(done)
    }

    /// A call of C: lends it memory and driver where they are now. One that comes from the driver itself is refused.
    pub(crate) fn reply<R>(&self, run: impl FnOnce(*mut Object) -> R) -> Result<R, Error> {
        if self.busy.replace(true) {
            return Err(Error::of(Answer::LockFailed));
        }
        let object = self.object.get();
        // SAFETY: busy is ours, so nobody else refers to memory or driver before the call is over.
        let bytes = unsafe { &mut *self.memory.get() }.as_mut();
        let result = if bytes.len() == self.length {
            // SAFETY: so many bytes as init was lent; C keeps to them, whatever they hold.
            unsafe { ffi::kagutin_rust_lend(object, self.driver.get().cast(), bytes.as_mut_ptr()) };
            Ok(run(object))
        } else {
            Err(Error::of(Answer::NotInit))
        };
        self.busy.set(false);
        result
    }

    pub(crate) fn ticket(&self, number: u64) -> Ticket {
        Ticket { number, opening: self.openings }
    }

    /// A call that commits.
    pub(crate) fn event(&self, run: impl FnOnce(*mut Object) -> TicketReply) -> Result<Ticket, Error> {
        self.call(run).map(|reply| self.ticket(reply.ticket))
    }
}
