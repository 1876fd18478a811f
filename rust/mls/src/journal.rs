//! The journal of a monitor.
use crate::monitor::{ascii, found, unknown};
use crate::{Answer, Monitor, Request};
use mls_sys::*;
use std::{error, fmt};

/// An entry of the journal.
#[derive(Clone, Copy, Debug, PartialEq, Eq, Hash)]
pub struct Entry {
    /// The session that the caller named.
    pub session: u32,
    /// What was asked.
    pub request: Request,
    /// What it was answered, with the entry's number.
    pub answer: Answer,
}

/// Why there is no line of an entry.
#[derive(Clone, Copy, Debug, PartialEq, Eq, Hash)]
#[non_exhaustive]
pub enum EntryError {
    /// The journal has no such entry, or it is forgotten.
    NoSuchEntry,
    /// An allocation failed.
    OutOfMemory,
}

impl Monitor {
    /// How many entries the journal has, with those that are forgotten.
    pub fn entry_count(&self) -> u64 {
        self.handle.entries()
    }

    /// How many of the first entries are forgotten, which is the number of the first that can be read.
    pub fn forgotten(&self) -> u64 {
        self.handle.forgotten()
    }

    /// Forgets the entries below n, as far as they are there, so that memory doesn't grow: nobody can read them any
    /// more. The state stays, and so do the numbers of the entries that come.
    pub fn forget(&mut self, n: u64) {
        if let Err(status) = self.handle.forget(n) {
            unknown("mls_forget", status)
        }
    }

    /// Entry n, counted from 0, unless it is forgotten.
    ///
    /// # Panics
    ///
    /// Where it has an action or a mode of a later library.
    pub fn entry(&self, n: u64) -> Option<Entry> {
        let it = found("mls_entry", self.handle.entry(n))?;
        let request = Request::told(&it.request);
        let request = request.unwrap_or_else(|| panic!("libmls: entry {n} has action {}", it.request.action));
        Some(Entry { session: it.session, request, answer: Answer::told(it.number, it.reply, it.object) })
    }

    /// The entries from one on, without those that are forgotten.
    pub fn entries(&self, first: u64) -> impl Iterator<Item = Entry> + '_ {
        (first.max(self.forgotten())..self.entry_count()).filter_map(move |n| self.entry(n))
    }

    /// The line of entry n, counted from 0, with its newline.
    pub fn line(&self, n: u64) -> Result<String, EntryError> {
        match self.handle.entry_text(n) {
            Ok(text) => Ok(ascii(text)),
            Err(MLS_ENOTFOUND) => Err(EntryError::NoSuchEntry),
            Err(MLS_ENOMEM) => Err(EntryError::OutOfMemory),
            Err(status) => unknown("mls_entry_text", status),
        }
    }

    /// The text of the journal from an entry on: for [`resume`](Monitor::resume), and for `mls replay`. Beyond its end
    /// there is none; from one that is forgotten on it is `NoSuchEntry`.
    pub fn journal(&self, first: u64) -> Result<String, EntryError> {
        (first..self.entry_count()).map(|n| self.line(n)).collect()
    }
}

impl fmt::Display for EntryError {
    fn fmt(&self, f: &mut fmt::Formatter<'_>) -> fmt::Result {
        f.write_str(match self {
            EntryError::NoSuchEntry => "no such entry",
            EntryError::OutOfMemory => "an allocation failed",
        })
    }
}

impl error::Error for EntryError {}
