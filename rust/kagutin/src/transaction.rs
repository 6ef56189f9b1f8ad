//! Transactions.

use crate::answer::{done, Answer, Error};
use crate::driver::Driver;
use crate::ffi::{self, End};
use crate::store::{Store, Ticket};
use crate::Block;
use core::fmt;
use core::mem::forget;

/// An open transaction of one writer. Dropped, it is aborted: nothing of it is ever seen.
#[must_use = "a transaction that is dropped is aborted"]
pub struct Transaction<'s, M: AsMut<[u8]>, D: Driver> {
    store: &'s Store<M, D>,
    writer: u8,
}

/// Why a commit is not done, and what became of the transaction.
pub enum Unfinished<'s, M: AsMut<[u8]>, D: Driver> {
    /// Not committed; it is open and as it was. Try again, go on, or drop it.
    StillOpen(Error, Transaction<'s, M, D>),
    /// Committed; durable once a later sync's mark reaches the ticket. Only of `commit_sync`.
    NotDurable(Error, Ticket),
    /// The driver failed: the next opening tells whether it was committed.
    Unknown(Error),
}

impl<'s, M: AsMut<[u8]>, D: Driver> Transaction<'s, M, D> {
    pub(crate) fn new(store: &'s Store<M, D>, writer: u8) -> Self {
        Transaction { store, writer }
    }

    /// Whose it is.
    pub fn writer(&self) -> u8 {
        self.writer
    }

    /// Stores a block; a later one for the same home wins. Refused, the transaction goes on as it was.
    pub fn store(&mut self, home: u16, block: &Block) -> Result<(), Error> {
        let (writer, start) = (self.writer.into(), block.as_ptr());
        self.store.call(|object| unsafe { ffi::kgt_store(object, writer, home.into(), start) }).map(|_| ())
    }

    /// Its own newest block of a home, else the newest committed one.
    pub fn read(&self, home: u16) -> Result<Block, Error> {
        self.store.read(self.writer, home)
    }

    /// Commits: from now on all see it, and no opening brings back a part of it.
    pub fn commit(self) -> Result<Ticket, Unfinished<'s, M, D>> {
        self.end(ffi::kgt_commit)
    }

    /// Commits and syncs. Done: no power cut takes it away.
    pub fn commit_sync(self) -> Result<(), Unfinished<'s, M, D>> {
        self.end(ffi::kgt_commit_sync).map(|_| ())
    }

    /// As a drop, but tells the answer.
    pub fn abort(self) -> Result<(), Error> {
        let result = self.drop_it();
        forget(self);
        result
    }

    fn drop_it(&self) -> Result<(), Error> {
        self.store.call(|object| unsafe { ffi::kgt_abort(object, self.writer.into()) }).map(|_| ())
    }

    fn end(self, call: End) -> Result<Ticket, Unfinished<'s, M, D>> {
        let reply = match self.store.reply(|object| unsafe { call(object, self.writer.into()) }) {
            Ok(reply) => reply,
            Err(error) => return Err(Unfinished::StillOpen(error, self)),
        };
        let ticket = self.store.ticket(reply.ticket);
        match done(reply) {
            Err(error) if error.answer() != Answer::DriverFailed && reply.ticket == ffi::NOT_TOLD => {
                Err(Unfinished::StillOpen(error, self))
            }
            result => {
                forget(self);
                match result {
                    Ok(_) => Ok(ticket),
                    Err(error) if error.answer() == Answer::DriverFailed => Err(Unfinished::Unknown(error)),
                    Err(error) => Err(Unfinished::NotDurable(error, ticket)),
                }
            }
        }
    }
}

impl<M: AsMut<[u8]>, D: Driver> Drop for Transaction<'_, M, D> {
    fn drop(&mut self) {
        let _ = self.drop_it();
    }
}

impl<M: AsMut<[u8]>, D: Driver> fmt::Debug for Transaction<'_, M, D> {
    fn fmt(&self, out: &mut fmt::Formatter<'_>) -> fmt::Result {
        write!(out, "Transaction of writer {}", self.writer)
    }
}

impl<M: AsMut<[u8]>, D: Driver> Unfinished<'_, M, D> {
    /// Why.
    pub fn error(&self) -> Error {
        match self {
            Unfinished::StillOpen(error, _) | Unfinished::NotDurable(error, _) | Unfinished::Unknown(error) => *error,
        }
    }
}

/// For `?`: the error alone. A transaction that was still open is aborted by it.
impl<M: AsMut<[u8]>, D: Driver> From<Unfinished<'_, M, D>> for Error {
    fn from(unfinished: Unfinished<'_, M, D>) -> Error {
        unfinished.error()
    }
}

impl<M: AsMut<[u8]>, D: Driver> fmt::Debug for Unfinished<'_, M, D> {
    fn fmt(&self, out: &mut fmt::Formatter<'_>) -> fmt::Result {
        match self {
            Unfinished::StillOpen(error, _) => write!(out, "StillOpen({error:?})"),
            Unfinished::NotDurable(error, ticket) => write!(out, "NotDurable({error:?}, {ticket:?})"),
            Unfinished::Unknown(error) => write!(out, "Unknown({error:?})"),
        }
    }
}

impl<M: AsMut<[u8]>, D: Driver> fmt::Display for Unfinished<'_, M, D> {
    fn fmt(&self, out: &mut fmt::Formatter<'_>) -> fmt::Result {
        let (error, fate) = match self {
            Unfinished::StillOpen(error, _) => (error, "not committed"),
            Unfinished::NotDurable(error, _) => (error, "committed, not yet durable"),
            Unfinished::Unknown(error) => (error, "the next opening tells whether it was committed"),
        };
        write!(out, "{error}; {fate}")
    }
}
