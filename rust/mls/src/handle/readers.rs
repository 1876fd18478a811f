//! The calls that tell what a handle holds, and what its rules say.
use super::plain::rows;
use super::{copied, filled, told, Handle};
use crate::Labels;
use mls_sys::*;
use std::os::raw::c_int;

impl Handle {
    /// The reply of `mls_decide_label`, or its status.
    pub fn decide_label(
        &self,
        subject: u16,
        mode: u8,
        security: &mls_label,
        integrity: &mls_label,
    ) -> Result<u16, c_int> {
        let mut reply = 0;
        // SAFETY: `Handle` is no `Sync`, so this call is the only one; the labels are valid and are only read, so they
        // may be one; the reply is new.
        told(unsafe { mls_decide_label(self.0.get(), subject, mode, security, integrity, &mut reply) }, reply)
    }

    /// The replies of `mls_decide_labels`, or its status.
    pub fn decide_labels(&self, subject: u16, mode: u8, labels: &[Labels]) -> Result<Vec<u16>, c_int> {
        let mut replies = vec![0; labels.len()];
        let at = replies.as_mut_ptr();
        // SAFETY: this call is the only one; the rows are valid and are only read, and the replies are new and as many.
        let status = unsafe { mls_decide_labels(self.0.get(), subject, mode, rows(labels), labels.len(), at) };
        told(status, replies)
    }

    /// The subject of `mls_read_subject`, or its status.
    pub fn read_subject(&self, subject: u16) -> Result<mls_subject_info, c_int> {
        let mut info = mls_subject_info::default();
        // SAFETY: this call is the only one, and what it writes is new.
        told(unsafe { mls_read_subject(self.0.get(), subject, &mut info) }, info)
    }

    /// The object of `mls_read_object`, or its status.
    pub fn read_object(&self, object: u16) -> Result<mls_object_info, c_int> {
        let mut info = mls_object_info::default();
        // SAFETY: as for `read_subject`.
        told(unsafe { mls_read_object(self.0.get(), object, &mut info) }, info)
    }

    /// The modes of `mls_read_pair`, or its status.
    pub fn read_pair(&self, subject: u16, object: u16) -> Result<mls_pair_info, c_int> {
        let mut info = mls_pair_info::default();
        // SAFETY: as for `read_subject`.
        told(unsafe { mls_read_pair(self.0.get(), subject, object, &mut info) }, info)
    }

    /// The numbers of `mls_count`, or its status.
    pub fn count(&self) -> Result<mls_counts, c_int> {
        let mut counts = mls_counts::default();
        // SAFETY: as for `read_subject`.
        told(unsafe { mls_count(self.0.get(), &mut counts) }, counts)
    }

    /// The child of `mls_next_child`, or its status.
    pub fn next_child(&self, object: u16, above: u16) -> Result<u16, c_int> {
        let mut child = 0;
        // SAFETY: as for `read_subject`.
        told(unsafe { mls_next_child(self.0.get(), object, above, &mut child) }, child)
    }

    /// The text of `mls_subject_name`, or its status.
    pub fn subject_name(&self, subject: u16) -> Result<Vec<u8>, c_int> {
        // SAFETY: this call is the only one; `copied` lends room and a length that are its own.
        copied(|room, cap, len| unsafe { mls_subject_name(self.0.get(), subject, room, cap, len) })
    }

    /// The text of `mls_object_name`, or its status.
    pub fn object_name(&self, object: u16) -> Result<Vec<u8>, c_int> {
        // SAFETY: as for `subject_name`.
        copied(|room, cap, len| unsafe { mls_object_name(self.0.get(), object, room, cap, len) })
    }

    /// The conditions and the remedy of `mls_explain`, or its status.
    pub fn explain(&self, request: &mls_request) -> Result<(Vec<mls_condition>, mls_remedy), c_int> {
        let (rows, mut remedy) = (vec![mls_condition::default(); MLS_CONDITIONS], mls_remedy::default());
        // SAFETY: this call is the only one; the request is valid, `filled` lends rows and a count that are its own,
        // and the remedy is new.
        let rows = filled(rows, |rows, cap, count| unsafe {
            mls_explain(self.0.get(), request, rows, cap, count, &mut remedy)
        })?;
        Ok((rows, remedy))
    }

    /// The text of `mls_state_start` with the new numbers of objects, or its status.
    pub fn state_start(&self) -> Result<(Vec<u8>, Vec<u16>), c_int> {
        let mut numbers = vec![0; usize::from(MLS_OBJECTS)];
        let at = numbers.as_mut_ptr();
        // SAFETY: this call is the only one; `copied` lends room and a length that are its own, and the numbers are new
        // and as many as the call writes.
        let text = copied(|room, cap, len| unsafe { mls_state_start(self.0.get(), room, cap, len, at) })?;
        Ok((text, numbers))
    }

    /// The text of `mls_state_text`, or its status.
    pub fn state_text(&self) -> Result<Vec<u8>, c_int> {
        // SAFETY: as for `subject_name`.
        copied(|room, cap, len| unsafe { mls_state_text(self.0.get(), room, cap, len) })
    }
}
