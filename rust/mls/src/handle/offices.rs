//! An office and its sessions: the calls of the library on them.
use super::plain::rows;
use super::{filled, told, Handle};
use crate::Labels;
use mls_sys::*;
use std::os::raw::c_int;

/// An office that is open. Who has it alone closes or drops it.
pub(crate) struct OfficeHandle(Box<mls_office>);

/// The handle of a session that is open. A session is no `Sync`, since each call writes to it; calls on different
/// sessions run side by side.
pub(crate) struct SessionHandle(mls_session);

// SAFETY: handles may go from thread to thread where the start or end of a thread, or a lock, orders their calls. Who
// moves a value to another thread, or lends it there alone, has them ordered.
unsafe impl Send for OfficeHandle {}
unsafe impl Send for SessionHandle {}

// SAFETY: nothing is asked of an office behind a `&`.
unsafe impl Sync for OfficeHandle {}

impl OfficeHandle {
    /// The office that `mls_office_open` leaves, with its sessions, ascending; or its status, with the monitor.
    pub fn open(monitor: Handle, count: u16) -> Result<(OfficeHandle, Vec<SessionHandle>), (c_int, Handle)> {
        let mut office = Box::new(MLS_OFFICE_INIT);
        let mut sessions: Vec<_> = (0..count).map(|_| MLS_SESSION_INIT).collect();
        // SAFETY: the handles are this function's alone, and there are as many sessions as it says.
        match unsafe { mls_office_open(&mut *office, monitor.0.get(), sessions.as_mut_ptr(), count) } {
            MLS_OK => Ok((OfficeHandle(office), sessions.into_iter().map(SessionHandle).collect())),
            status => Err((status, monitor)),
        }
    }

    /// The monitor that `mls_office_close` gives back, or its status, with the office and the sessions.
    pub fn close(mut self, sessions: Vec<SessionHandle>) -> Result<Handle, (c_int, OfficeHandle, Vec<SessionHandle>)> {
        if sessions.len() != usize::from(self.0.count) {
            return Err((MLS_EBUSY, self, sessions));
        }
        let monitor = Handle::closed();
        let mut taken: Vec<_> = sessions.into_iter().map(SessionHandle::into_raw).collect();
        // SAFETY: the handles are this function's alone, and there are as many sessions as the office has.
        let status = unsafe { mls_office_close(&mut *self.0, taken.as_mut_ptr(), monitor.0.get()) };
        let sessions: Vec<_> = taken.into_iter().map(SessionHandle).collect();
        match status {
            MLS_OK => Ok(monitor),
            status => Err((status, self, sessions)),
        }
    }
}

impl Drop for OfficeHandle {
    fn drop(&mut self) {
        // SAFETY: nobody else has the handle, and nobody has it after this.
        unsafe { mls_office_drop(&mut *self.0) }
    }
}

impl SessionHandle {
    /// The handle itself, which isn't dropped.
    fn into_raw(mut self) -> mls_session {
        std::mem::replace(&mut self.0, MLS_SESSION_INIT)
    }

    pub fn number(&self) -> u16 {
        self.0.number
    }

    /// The answer of `mls_session_submit`, or its status.
    pub fn submit(&mut self, request: &mls_request) -> Result<mls_answer, c_int> {
        let mut answer = mls_answer::default();
        // SAFETY: `self` is borrowed by nobody else, the request is valid, and the answer is new.
        told(unsafe { mls_session_submit(&mut self.0, request, &mut answer) }, answer)
    }

    /// The answer of `mls_session_decide`, or its status.
    pub fn decide(&mut self, request: &mls_request) -> Result<mls_answer, c_int> {
        let mut answer = mls_answer::default();
        // SAFETY: as for `submit`.
        told(unsafe { mls_session_decide(&mut self.0, request, &mut answer) }, answer)
    }

    /// What `mls_session_check` writes, or its status.
    pub fn check(&mut self, subject: u16, object: u16, mode: u8) -> Result<bool, c_int> {
        let mut held = 0;
        // SAFETY: `self` is borrowed by nobody else, and the number is new.
        let status = unsafe { mls_session_check(&mut self.0, subject, object, mode, &mut held) };
        told(status, held == 1)
    }

    /// Whether `mls_session_see` sees so many entries, or its status.
    pub fn see(&mut self, n: u64) -> Result<bool, c_int> {
        // SAFETY: `self` is borrowed by nobody else.
        match unsafe { mls_session_see(&mut self.0, n) } {
            MLS_EAGAIN => Ok(false),
            status => told(status, true),
        }
    }

    /// The count that `mls_session_changes` writes, or its status.
    pub fn changes(&mut self) -> Result<u64, c_int> {
        let mut count = 0;
        // SAFETY: `self` is borrowed by nobody else, and the number is new.
        let status = unsafe { mls_session_changes(&mut self.0, &mut count) };
        told(status, count)
    }

    /// Has two sessions meet, or the status of `mls_session_meet`.
    pub fn meet(&mut self, other: &mut SessionHandle) -> Result<(), c_int> {
        // SAFETY: both are borrowed by nobody else, so they are two.
        told(unsafe { mls_session_meet(&mut self.0, &mut other.0) }, ())
    }

    /// The text of `mls_session_entry_text` in so many bytes, with the number of the entry after it, or its status.
    pub fn entry_text(&mut self, from: u64, room: usize) -> Result<(Vec<u8>, u64), c_int> {
        let (mut text, mut len, mut next) = (vec![0u8; room], 0, 0);
        let at = text.as_mut_ptr().cast();
        // SAFETY: `self` is borrowed by nobody else; the room has that length, and the numbers are new.
        let status = unsafe { mls_session_entry_text(&mut self.0, from, at, room, &mut len, &mut next) };
        text.truncate(len);
        told(status, (text, next))
    }

    /// Has `mls_session_forget` forget the entries below a number, or its status.
    pub fn forget(&mut self, n: u64) -> Result<(), c_int> {
        // SAFETY: `self` is borrowed by nobody else.
        told(unsafe { mls_session_forget(&mut self.0, n) }, ())
    }

    /// The reply of `mls_session_decide_label`, or its status.
    pub fn decide_label(
        &mut self,
        subject: u16,
        mode: u8,
        security: &mls_label,
        integrity: &mls_label,
    ) -> Result<u16, c_int> {
        let mut reply = 0;
        // SAFETY: as for `submit`; the labels are valid and are only read, so they may be one.
        told(unsafe { mls_session_decide_label(&mut self.0, subject, mode, security, integrity, &mut reply) }, reply)
    }

    /// The replies of `mls_session_decide_labels`, or its status.
    pub fn decide_labels(&mut self, subject: u16, mode: u8, labels: &[Labels]) -> Result<Vec<u16>, c_int> {
        let mut replies = vec![0; labels.len()];
        let at = replies.as_mut_ptr();
        // SAFETY: as for `submit`; the rows are valid and are only read, and the replies are new and as many.
        let status = unsafe { mls_session_decide_labels(&mut self.0, subject, mode, rows(labels), labels.len(), at) };
        told(status, replies)
    }

    /// The subject of `mls_session_read_subject`, or its status.
    pub fn read_subject(&mut self, subject: u16) -> Result<mls_subject_info, c_int> {
        let mut info = mls_subject_info::default();
        // SAFETY: `self` is borrowed by nobody else, and what the call writes is new.
        told(unsafe { mls_session_read_subject(&mut self.0, subject, &mut info) }, info)
    }

    /// The object of `mls_session_read_object`, or its status.
    pub fn read_object(&mut self, object: u16) -> Result<mls_object_info, c_int> {
        let mut info = mls_object_info::default();
        // SAFETY: as for `read_subject`.
        told(unsafe { mls_session_read_object(&mut self.0, object, &mut info) }, info)
    }

    /// The modes of `mls_session_read_pair`, or its status.
    pub fn read_pair(&mut self, subject: u16, object: u16) -> Result<mls_pair_info, c_int> {
        let mut info = mls_pair_info::default();
        // SAFETY: as for `read_subject`.
        told(unsafe { mls_session_read_pair(&mut self.0, subject, object, &mut info) }, info)
    }

    /// The numbers of `mls_session_count`, or its status.
    pub fn count(&mut self) -> Result<mls_counts, c_int> {
        let mut counts = mls_counts::default();
        // SAFETY: as for `read_subject`.
        told(unsafe { mls_session_count(&mut self.0, &mut counts) }, counts)
    }

    /// The child of `mls_session_next_child`, or its status.
    pub fn next_child(&mut self, object: u16, above: u16) -> Result<u16, c_int> {
        let mut child = 0;
        // SAFETY: as for `read_subject`.
        told(unsafe { mls_session_next_child(&mut self.0, object, above, &mut child) }, child)
    }

    /// The conditions and the remedy of `mls_session_explain`, or its status.
    pub fn explain(&mut self, request: &mls_request) -> Result<(Vec<mls_condition>, mls_remedy), c_int> {
        let (rows, mut remedy) = (vec![mls_condition::default(); MLS_CONDITIONS], mls_remedy::default());
        // SAFETY: as for `submit`; `filled` lends rows and a count that are its own, and the remedy is new.
        let rows = filled(rows, |rows, cap, count| unsafe {
            mls_session_explain(&mut self.0, request, rows, cap, count, &mut remedy)
        })?;
        Ok((rows, remedy))
    }
}

impl Drop for SessionHandle {
    fn drop(&mut self) {
        // SAFETY: nobody else has the handle, and nobody has it after this.
        unsafe { mls_session_drop(&mut self.0) }
    }
}
