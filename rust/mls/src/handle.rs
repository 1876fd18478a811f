//! A handle of the library: the one module that calls it. What the header has the caller keep is kept here.
#![allow(unsafe_code)]

mod offices;
mod plain;
mod readers;

pub(crate) use offices::{OfficeHandle, SessionHandle};
pub(crate) use plain::{dominates, fault_text, mode_word, reason_word, reply_word, version};

use mls_sys::*;
use std::borrow::Cow;
use std::cell::UnsafeCell;
use std::os::raw::{c_char, c_int};

/// The room for a line or a label's text at first: most have less.
const ROOM: usize = 256;

/// An open handle. It lies in a box, so it stays where it is while it is open. Every call writes to it, also one that
/// changes nothing, so it is no `Sync`: no two threads are in a call at once. The library calls nothing of this crate,
/// so neither are two calls of one thread.
pub(crate) struct Handle(Box<UnsafeCell<mls_monitor>>);

// SAFETY: a handle may go from thread to thread where a lock, or the start or end of a thread, orders its calls. Who
// moves a value to another thread, or lends it there alone, has them ordered.
unsafe impl Send for Handle {}

impl Handle {
    /// A handle that a call is to open.
    fn closed() -> Handle {
        Handle(Box::new(UnsafeCell::new(MLS_INIT)))
    }

    /// The handle that `mls_open` leaves, or its status and the fault.
    pub fn open(start: &[u8]) -> Result<Handle, (c_int, mls_fault)> {
        // SAFETY: the start is valid for its length, and overlaps neither the handle nor the fault, which are new.
        opened(|at, fault| unsafe { mls_open(at, start.as_ptr(), start.len(), fault) })
    }

    /// The handle that `mls_resume` leaves, or its status and the fault.
    pub fn resume(start: &[u8], journal: &[u8]) -> Result<Handle, (c_int, mls_fault)> {
        let journal = apart(start, journal);
        // SAFETY: as for `open`, and the journal doesn't overlap the start.
        opened(|at, fault| unsafe {
            mls_resume(at, start.as_ptr(), start.len(), journal.as_ptr(), journal.len(), fault)
        })
    }

    /// The handle that `mls_open_state` leaves, or its status and the fault.
    pub fn open_state(start: &[u8], state: &[u8], number: u64) -> Result<Handle, (c_int, mls_fault)> {
        let state = apart(start, state);
        // SAFETY: as for `open`, and the state doesn't overlap the start.
        opened(|at, fault| unsafe {
            mls_open_state(at, start.as_ptr(), start.len(), state.as_ptr(), state.len(), number, fault)
        })
    }

    /// The answer of `mls_submit`, or its status.
    pub fn submit(&mut self, session: u32, request: &mls_request) -> Result<mls_answer, c_int> {
        let mut answer = mls_answer::default();
        // SAFETY: `self` is borrowed by nobody else, the request is valid, and the answer is new.
        told(unsafe { mls_submit(self.0.get(), session, request, &mut answer) }, answer)
    }

    /// The answer of `mls_decide`, or its status.
    pub fn decide(&self, request: &mls_request) -> Result<mls_answer, c_int> {
        let mut answer = mls_answer::default();
        // SAFETY: `Handle` is no `Sync`, so this call is the only one; the request is valid, and the answer is new.
        told(unsafe { mls_decide(self.0.get(), request, &mut answer) }, answer)
    }

    pub fn check(&self, subject: u16, object: u16, mode: u8) -> bool {
        // SAFETY: this call is the only one.
        unsafe { mls_check(self.0.get(), subject, object, mode) == 1 }
    }

    pub fn entries(&self) -> u64 {
        // SAFETY: this call is the only one.
        unsafe { mls_entries(self.0.get()) }
    }

    /// The entry of `mls_entry`, or its status.
    pub fn entry(&self, n: u64) -> Result<mls_journal_entry, c_int> {
        let mut entry = mls_journal_entry::default();
        // SAFETY: this call is the only one, and the entry is new.
        told(unsafe { mls_entry(self.0.get(), n, &mut entry) }, entry)
    }

    /// The text of `mls_entry_text`, or its status.
    pub fn entry_text(&self, n: u64) -> Result<Vec<u8>, c_int> {
        // SAFETY: this call is the only one; `copied` lends room and a length that are its own.
        copied(|room, cap, len| unsafe { mls_entry_text(self.0.get(), n, room, cap, len) })
    }

    /// Has `mls_forget` forget the entries below a number.
    pub fn forget(&mut self, n: u64) -> Result<(), c_int> {
        // SAFETY: this call is the only one.
        told(unsafe { mls_forget(self.0.get(), n) }, ())
    }

    pub fn forgotten(&self) -> u64 {
        // SAFETY: this call is the only one.
        unsafe { mls_forgotten(self.0.get()) }
    }

    /// The number of `mls_subject`, or its status.
    pub fn subject(&self, name: &[u8]) -> Result<u16, c_int> {
        let mut subject = 0;
        // SAFETY: this call is the only one; the name is valid for its length, and the number is new.
        told(unsafe { mls_subject(self.0.get(), name.as_ptr(), name.len(), &mut subject) }, subject)
    }

    /// The number of `mls_object`, or its status.
    pub fn object(&self, name: &[u8]) -> Result<u16, c_int> {
        let mut object = 0;
        // SAFETY: as for `subject`.
        told(unsafe { mls_object(self.0.get(), name.as_ptr(), name.len(), &mut object) }, object)
    }

    /// The label of `mls_read_label`, or its status.
    pub fn read_label(&self, kind: c_int, text: &[u8]) -> Result<mls_label, c_int> {
        let mut label = mls_label::default();
        // SAFETY: this call is the only one; the text is valid for its length, and the label is new.
        told(unsafe { mls_read_label(self.0.get(), kind, text.as_ptr(), text.len(), &mut label) }, label)
    }

    /// The text of `mls_write_label`, or its status.
    pub fn write_label(&self, kind: c_int, label: &mls_label) -> Result<Vec<u8>, c_int> {
        // SAFETY: as for `entry_text`; the label is valid.
        copied(|room, cap, len| unsafe { mls_write_label(self.0.get(), kind, label, room, cap, len) })
    }
}

impl Drop for Handle {
    fn drop(&mut self) {
        // SAFETY: nobody else has the handle, and nobody has it after this.
        unsafe { mls_close(self.0.get()) }
    }
}

/// Whether two texts have bytes in common: none that a call is lent may overlap another.
fn overlap(one: &[u8], other: &[u8]) -> bool {
    let (one, other) = (one.as_ptr_range(), other.as_ptr_range());
    one.start.max(other.start) < one.end.min(other.end)
}

/// A text that doesn't overlap another one: itself, or a copy.
fn apart<'a>(from: &[u8], text: &'a [u8]) -> Cow<'a, [u8]> {
    if overlap(from, text) {
        Cow::Owned(text.to_vec())
    } else {
        Cow::Borrowed(text)
    }
}

/// A value that a call has told, or else the call's status.
fn told<T>(status: c_int, value: T) -> Result<T, c_int> {
    if status == MLS_OK {
        Ok(value)
    } else {
        Err(status)
    }
}

/// A handle that a call has opened, or its status and the fault.
fn opened(call: impl FnOnce(*mut mls_monitor, *mut mls_fault) -> c_int) -> Result<Handle, (c_int, mls_fault)> {
    let handle = Handle::closed();
    let mut fault = mls_fault::default();
    match call(handle.0.get(), &mut fault) {
        MLS_OK => Ok(handle),
        status => Err((status, fault)),
    }
}

/// The text that a call copies out, with as much room as it wants.
fn copied(call: impl Fn(*mut c_char, usize, *mut usize) -> c_int) -> Result<Vec<u8>, c_int> {
    filled(vec![0; ROOM], |room: *mut u8, cap, len| call(room.cast(), cap, len))
}

/// What a call copies out into room, or into more where it wants that.
fn filled<T: Clone + Default>(
    mut room: Vec<T>,
    mut call: impl FnMut(*mut T, usize, *mut usize) -> c_int,
) -> Result<Vec<T>, c_int> {
    let mut len = 0;
    loop {
        match call(room.as_mut_ptr(), room.len(), &mut len) {
            MLS_OK => break,
            MLS_ERANGE => room.resize(len, T::default()),
            status => return Err(status),
        }
    }
    room.truncate(len);
    Ok(room)
}

#[cfg(test)]
mod tests {
    use super::overlap;

    #[test]
    fn texts_that_overlap() {
        let text = *b"0123456789";
        let rows =
            [(0..5, 4..6, true), (0..5, 5..10, false), (2..3, 0..9, true), (3..3, 0..9, false), (0..9, 0..9, true)];
        for (one, other, wanted) in rows {
            assert_eq!(overlap(&text[one.clone()], &text[other.clone()]), wanted, "{one:?} {other:?}");
            assert_eq!(overlap(&text[other.clone()], &text[one.clone()]), wanted, "{other:?} {one:?}");
        }
    }
}
