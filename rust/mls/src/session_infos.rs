//! What is read of the state that a session sees, and what its rules say.
use crate::monitor::unknown;
use crate::office::until_free;
use crate::{
    Counts, ExplainError, Explanation, Label, Labels, Mode, Object, ObjectInfo, PairInfo, Reply, Request, Session,
    Subject, SubjectInfo,
};
use std::os::raw::c_int;

impl Session {
    /// As [`Monitor::decide_label`](crate::Monitor::decide_label), in the state that the session sees.
    pub fn decide_label(&mut self, subject: Subject, mode: Mode, security: &Label, integrity: &Label) -> Reply {
        let labels = (security.as_told(), integrity.as_told());
        match until_free(|| self.handle.decide_label(subject.0, mode as u8, &labels.0, &labels.1)) {
            Ok(reply) => Reply::told(reply),
            Err(status) => unknown("mls_session_decide_label", status),
        }
    }

    /// As [`Monitor::decide_labels`](crate::Monitor::decide_labels), in one state that the session sees.
    pub fn decide_labels(&mut self, subject: Subject, mode: Mode, rows: &[Labels]) -> Vec<Reply> {
        match until_free(|| self.handle.decide_labels(subject.0, mode as u8, rows)) {
            Ok(replies) => replies.into_iter().map(Reply::told).collect(),
            Err(status) => unknown("mls_session_decide_labels", status),
        }
    }

    /// As [`Monitor::explain`](crate::Monitor::explain), in the state that the session sees.
    pub fn explain(&mut self, request: &Request) -> Result<Explanation, ExplainError> {
        let request = request.as_told();
        Explanation::told("mls_session_explain", until_free(|| self.handle.explain(&request)))
    }

    /// A subject; none where there is no such subject.
    pub fn subject_info(&mut self, subject: Subject) -> Option<SubjectInfo> {
        found("mls_session_read_subject", || self.handle.read_subject(subject.0)).map(SubjectInfo::told)
    }

    /// An object; none where it isn't active.
    pub fn object_info(&mut self, object: Object) -> Option<ObjectInfo> {
        found("mls_session_read_object", || self.handle.read_object(object.0)).map(|it| ObjectInfo::told(object, it))
    }

    /// A subject and an object; none where either isn't there.
    pub fn pair(&mut self, subject: Subject, object: Object) -> Option<PairInfo> {
        found("mls_session_read_pair", || self.handle.read_pair(subject.0, object.0)).map(PairInfo::told)
    }

    /// How much there is.
    pub fn counts(&mut self) -> Counts {
        match until_free(|| self.handle.count()) {
            Ok(counts) => Counts::told(counts),
            Err(status) => unknown("mls_session_count", status),
        }
    }

    /// The child of an object with the least number above another one: called with object 0 and then with each child, it
    /// tells all children, as they are when each is asked for.
    pub fn child_after(&mut self, object: Object, above: Object) -> Option<Object> {
        found("mls_session_next_child", || self.handle.next_child(object.0, above.0)).map(Object)
    }
}

/// What a call finds once no other session is at the monitor, if anything.
fn found<T>(call: &str, told: impl FnMut() -> Result<T, c_int>) -> Option<T> {
    crate::monitor::found(call, until_free(told))
}
