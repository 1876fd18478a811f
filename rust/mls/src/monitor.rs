//! A monitor: a handle of the library, with its calls as methods.
use crate::handle::{version, Handle};
use crate::library::is_known;
use crate::{Answer, Kind, Label, LabelError, Labels, Mode, Object, OpenError, Reply, Request, Subject};
use mls_sys::*;
use std::os::raw::c_int;
use std::{error, fmt};

/// An open monitor. Its state is secure from its start on, and is what the rules make of the requests in its journal.
/// It is closed where it is dropped, and its journal goes with it.
///
/// It is `Send` and not `Sync`: one thread at a time makes its calls, [`check`](Monitor::check) too. Threads share one
/// behind a `Mutex`:
///
/// ```
/// # let start = include_bytes!(concat!(env!("CARGO_MANIFEST_DIR"), "/../../examples/standard.json"));
/// use mls::{Mode, Monitor, Object, Subject};
/// use std::sync::Mutex;
///
/// let monitor = Mutex::new(Monitor::open(start)?);
/// let (ann, plans) = (Subject(0), Object(1));
/// std::thread::scope(|scope| {
///     for session in 0..4 {
///         let monitor = &monitor;
///         scope.spawn(move || monitor.lock().unwrap().get(session, ann, plans, Mode::Read).unwrap().is_granted());
///     }
/// });
/// assert_eq!(monitor.lock().unwrap().entry_count(), 4);
/// # Ok::<(), mls::OpenError>(())
/// ```
///
/// Without one they don't:
///
/// ```compile_fail,E0277
/// fn shared<T: Sync>() {}
/// shared::<mls::Monitor>();
/// ```
pub struct Monitor {
    pub(crate) handle: Handle,
}

impl Monitor {
    /// Opens a monitor from the bytes of a start file, with an empty journal.
    pub fn open(start: &[u8]) -> Result<Monitor, OpenError> {
        is_known(version()).map_err(OpenError::Library)?;
        opened(Handle::open(start))
    }

    /// Opens a monitor from the bytes of a start file and those of a journal, whose replies are computed anew.
    ///
    /// ```
    /// # let start = include_bytes!(concat!(env!("CARGO_MANIFEST_DIR"), "/../../examples/standard.json"));
    /// use mls::{Monitor, OpenError, Reason, ReplayFault, Reply};
    ///
    /// let forged = Monitor::resume(start, b"0 5 1 get-read 2 yes\n").unwrap_err();
    /// let fault = ReplayFault::Differs(Reply::Denied(Reason::Star));
    /// assert_eq!(forged, OpenError::Replay { entry: 0, fault });
    /// ```
    pub fn resume(start: &[u8], journal: &[u8]) -> Result<Monitor, OpenError> {
        is_known(version()).map_err(OpenError::Library)?;
        opened(Handle::resume(start, journal))
    }

    /// Answers a request by the rules, changes the state as they say, and adds just its entry to the journal. The
    /// session is written into the entry and means nothing else.
    pub fn submit(&mut self, session: u32, request: &Request) -> Result<Answer, SubmitError> {
        match self.handle.submit(session, &request.as_told()) {
            Ok(it) => Ok(Answer::told(it.number, it.reply, it.object)),
            Err(MLS_ENOMEM) => Err(SubmitError::OutOfMemory),
            Err(status) => unknown("mls_submit", status),
        }
    }

    /// What [`submit`](Monitor::submit) would answer now. Nothing changes.
    pub fn decide(&self, request: &Request) -> Answer {
        match self.handle.decide(&request.as_told()) {
            Ok(it) => Answer::told(it.number, it.reply, it.object),
            Err(status) => unknown("mls_decide", status),
        }
    }

    /// What simple security, star and integrity say now of an access to what has these labels and isn't an object, say
    /// a row. The matrix isn't asked, nothing is held afterwards, and no entry is made: docs/EMBEDDING.md says how star
    /// is kept over rows.
    pub fn decide_label(&self, subject: Subject, mode: Mode, security: &Label, integrity: &Label) -> Reply {
        match self.handle.decide_label(subject.0, mode as u8, &security.as_told(), &integrity.as_told()) {
            Ok(reply) => Reply::told(reply),
            Err(status) => unknown("mls_decide_label", status),
        }
    }

    /// What [`decide_label`](Monitor::decide_label) says of each of many rows, in their order and all in one state.
    pub fn decide_labels(&self, subject: Subject, mode: Mode, rows: &[Labels]) -> Vec<Reply> {
        match self.handle.decide_labels(subject.0, mode as u8, rows) {
            Ok(replies) => replies.into_iter().map(Reply::told).collect(),
            Err(status) => unknown("mls_decide_labels", status),
        }
    }

    /// Whether the subject holds an access to the object in the mode now. No entry is made.
    pub fn check(&self, subject: Subject, object: Object, mode: Mode) -> bool {
        self.handle.check(subject.0, object.0, mode as u8)
    }

    /// The subject of a name in the start.
    pub fn subject(&self, name: &str) -> Option<Subject> {
        found("mls_subject", self.handle.subject(name.as_bytes())).map(Subject)
    }

    /// The object of a name in the start; objects that were made later have no name.
    pub fn object(&self, name: &str) -> Option<Object> {
        found("mls_object", self.handle.object(name.as_bytes())).map(Object)
    }

    /// The label of a text in the start's scheme of this kind.
    pub fn read_label(&self, kind: Kind, text: &str) -> Result<Label, LabelError> {
        match self.handle.read_label(kind.number(), text.as_bytes()) {
            Ok(label) => Ok(Label::told(label)),
            Err(MLS_EINVAL) => Err(LabelError::NoSuchLabel),
            Err(status) => unknown("mls_read_label", status),
        }
    }

    /// The text of a label in the start's scheme of this kind.
    pub fn write_label(&self, kind: Kind, label: &Label) -> Result<String, LabelError> {
        match self.handle.write_label(kind.number(), &label.as_told()) {
            Ok(text) => Ok(ascii(text)),
            Err(MLS_EINVAL) => Err(LabelError::NoSuchLabel),
            Err(MLS_ENOMEM) => Err(LabelError::OutOfMemory),
            Err(status) => unknown("mls_write_label", status),
        }
    }
}

impl fmt::Debug for Monitor {
    fn fmt(&self, f: &mut fmt::Formatter<'_>) -> fmt::Result {
        f.debug_struct("Monitor").field("entry_count", &self.entry_count()).finish_non_exhaustive()
    }
}

/// Why a request isn't answered. Nothing was changed: it may be submitted again.
#[derive(Clone, Copy, Debug, PartialEq, Eq, Hash)]
#[non_exhaustive]
pub enum SubmitError {
    /// An allocation failed.
    OutOfMemory,
}

impl fmt::Display for SubmitError {
    fn fmt(&self, f: &mut fmt::Formatter<'_>) -> fmt::Result {
        f.write_str("an allocation failed")
    }
}

impl error::Error for SubmitError {}

fn opened(handle: Result<Handle, (c_int, mls_fault)>) -> Result<Monitor, OpenError> {
    match handle {
        Ok(handle) => Ok(Monitor { handle }),
        Err((status, fault)) => Err(OpenError::told(status, fault)),
    }
}

/// What a call has found, if anything.
pub(crate) fn found<T>(call: &str, told: Result<T, c_int>) -> Option<T> {
    match told {
        Ok(value) => Some(value),
        Err(MLS_ENOTFOUND) => None,
        Err(status) => unknown(call, status),
    }
}

/// A text of the library's, which is ASCII.
pub(crate) fn ascii(text: Vec<u8>) -> String {
    String::from_utf8(text).unwrap_or_else(|error| unreachable!("libmls: {error}"))
}

/// A call has a status that it doesn't have: the handle is open, and what is asked is well formed.
pub(crate) fn unknown(call: &str, status: c_int) -> ! {
    panic!("libmls: {call} has status {status}")
}
