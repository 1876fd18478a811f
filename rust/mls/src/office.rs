//! An office: a monitor that threads share, each by a session of its own.
use crate::handle::{OfficeHandle, SessionHandle};
use crate::monitor::{ascii, unknown};
use crate::{Answer, Mode, Monitor, Object, Request, Subject, SubmitError};
use mls_sys::*;
use std::hint::spin_loop;
use std::{error, fmt, thread};

/// A monitor that is open to sessions, each in whatever thread. Their calls run side by side, and leave one journal.
///
/// ```
/// # let start = include_bytes!(concat!(env!("CARGO_MANIFEST_DIR"), "/../../examples/standard.json"));
/// use mls::{Mode, Monitor, Object, Office, Subject};
/// use std::thread;
///
/// let (ann, plans) = (Subject(0), Object(1));
/// let (office, sessions) = Office::open(Monitor::open(start)?, 4).expect("memory");
/// let running = sessions.into_iter().map(|mut session| {
///     thread::spawn(move || {
///         assert!(session.get(ann, plans, Mode::Read).expect("memory").is_granted());
///         assert!(session.check(ann, plans, Mode::Read));
///         session
///     })
/// });
/// let running: Vec<_> = running.collect();
/// let sessions = running.into_iter().map(|it| it.join().unwrap()).collect();
/// let monitor = office.close(sessions).expect("all are back");
/// assert_eq!(monitor.entry_count(), 4);
/// # Ok::<(), mls::OpenError>(())
/// ```
pub struct Office {
    handle: OfficeHandle,
}

/// A session of an office. It is `Send` and not `Sync`: one thread at a time makes its calls.
///
/// ```compile_fail,E0596
/// fn shared(session: &mls::Session) -> bool {
///     session.check(mls::Subject(0), mls::Object(1), mls::Mode::Read)
/// }
/// ```
pub struct Session {
    pub(crate) handle: SessionHandle,
}

impl Office {
    /// The most sessions of an office.
    pub const MAX_SESSIONS: u16 = MLS_SESSIONS;

    /// Opens a monitor to so many sessions, numbered from 0. A number is written into the entries of its session.
    pub fn open(monitor: Monitor, count: u16) -> Result<(Office, Vec<Session>), OfficeError> {
        if count == 0 || count > Office::MAX_SESSIONS {
            return Err(OfficeError::BadCount(monitor));
        }
        match OfficeHandle::open(monitor.handle, count) {
            Ok((handle, sessions)) => {
                Ok((Office { handle }, sessions.into_iter().map(|handle| Session { handle }).collect()))
            }
            Err((MLS_ENOMEM, handle)) => Err(OfficeError::OutOfMemory(Monitor { handle })),
            Err((status, _)) => unknown("mls_office_open", status),
        }
    }

    /// Gives the monitor back, with the one journal of all sessions, which are given in any order.
    pub fn close(self, mut sessions: Vec<Session>) -> Result<Monitor, CloseError> {
        sessions.sort_by_key(Session::number);
        match self.handle.close(sessions.into_iter().map(|it| it.handle).collect()) {
            Ok(handle) => Ok(Monitor { handle }),
            Err((MLS_EBUSY | MLS_EINVAL, handle, sessions)) => Err(CloseError {
                office: Office { handle },
                sessions: sessions.into_iter().map(|handle| Session { handle }).collect(),
            }),
            Err((status, ..)) => unknown("mls_office_close", status),
        }
    }
}

impl Session {
    /// The session's number.
    pub fn number(&self) -> u16 {
        self.handle.number()
    }

    /// Answers a request by the rules, changes the state as they say, and adds just its entry to the one journal. It
    /// asks again while another session is at the monitor.
    pub fn submit(&mut self, request: &Request) -> Result<Answer, SubmitError> {
        let request = request.as_told();
        match until_free(|| self.handle.submit(&request)) {
            Ok(it) => Ok(Answer::told(it.number, it.reply, it.object)),
            Err(MLS_ENOMEM) => Err(SubmitError::OutOfMemory),
            Err(status) => unknown("mls_session_submit", status),
        }
    }

    /// What [`submit`](Session::submit) would answer now, if no other session made an entry before. Nothing changes.
    pub fn decide(&mut self, request: &Request) -> Answer {
        let request = request.as_told();
        match until_free(|| self.handle.decide(&request)) {
            Ok(it) => Answer::told(it.number, it.reply, it.object),
            Err(status) => unknown("mls_session_decide", status),
        }
    }

    /// Whether the subject holds an access to the object in the mode, at some moment between this session's last entry
    /// and its next. It mostly reads one word, and takes no lock.
    pub fn check(&mut self, subject: Subject, object: Object, mode: Mode) -> bool {
        match until_free(|| self.handle.check(subject.0, object.0, mode as u8)) {
            Ok(is_held) => is_held,
            Err(status) => unknown("mls_session_check", status),
        }
    }

    /// Sees the journal, and returns whether it has at least so many entries: if so, all that this session is answered
    /// from then on is of a journal of at least `n` entries. Where another thread tells the number of its entry, `n` is
    /// that number plus one.
    pub fn see(&mut self, n: u64) -> bool {
        match until_free(|| self.handle.see(n)) {
            Ok(is_long) => is_long,
            Err(status) => unknown("mls_session_see", status),
        }
    }

    /// How many changes the journal has since the office was opened: granted requests that took an access or a
    /// permission away, or changed a label. It reads one word, and takes no lock.
    ///
    /// Each is in the count before its [`submit`](Session::submit) returns. While the count is as before, no access or
    /// permission has gone: a cache keeps a yes of this session's check with the count that was read before it. A new
    /// office counts from 0.
    pub fn changes(&mut self) -> u64 {
        match self.handle.changes() {
            Ok(count) => count,
            Err(status) => unknown("mls_session_changes", status),
        }
    }

    /// Gives both sessions what either has seen.
    ///
    /// # Panics
    ///
    /// If they are of two offices.
    pub fn meet(&mut self, other: &mut Session) {
        match self.handle.meet(&mut other.handle) {
            Ok(()) => {}
            Err(MLS_EINVAL) => panic!("sessions of two offices can't meet"),
            Err(status) => unknown("mls_session_meet", status),
        }
    }

    /// The lines of the journal's entries from one on, while the office is open: whole lines, as many as fit into so many
    /// bytes; and the number of the entry after them.
    pub fn lines(&mut self, first: u64, room: usize) -> Result<(String, u64), LinesError> {
        match until_free(|| self.handle.entry_text(first, room)) {
            Ok((text, next)) => Ok((ascii(text), next)),
            Err(MLS_ENOTFOUND) => Err(LinesError::NoSuchEntry),
            Err(MLS_ERANGE) => Err(LinesError::NoRoom),
            Err(MLS_ENOMEM) => Err(LinesError::OutOfMemory),
            Err(status) => unknown("mls_session_entry_text", status),
        }
    }

    /// Forgets the entries below n, as far as they are there, so that memory doesn't grow: no session can read them any
    /// more. All else stays: the state, and the numbers of later entries.
    pub fn forget(&mut self, n: u64) {
        if let Err(status) = until_free(|| self.handle.forget(n)) {
            unknown("mls_session_forget", status)
        }
    }
}

/// A session that waits pauses for so many spins at first.
const SHORTEST: u32 = 64;

/// From this round on it first gives its time slice to other threads.
const YIELDS: u32 = 1;

/// From this round on its pauses are equally long.
const ROUNDS: u32 = 4;

/// Pauses before a call is made again: 1 to 4 microseconds, and twice as long each round, up to 5 to 50. A thread that
/// asks more often takes turns from the others, and each turn costs more.
fn pause(round: u32) {
    if round >= YIELDS {
        thread::yield_now();
    }
    (0..SHORTEST << round.min(ROUNDS)).for_each(|_| spin_loop());
}

/// Makes a call until no other session is at the monitor.
pub(crate) fn until_free<T>(mut call: impl FnMut() -> Result<T, i32>) -> Result<T, i32> {
    for round in 0u32.. {
        match call() {
            Err(MLS_EBUSY) => pause(round),
            told => return told,
        }
    }
    unreachable!("a session is busy for ever")
}

impl fmt::Debug for Office {
    fn fmt(&self, f: &mut fmt::Formatter<'_>) -> fmt::Result {
        f.debug_struct("Office").finish_non_exhaustive()
    }
}

impl fmt::Debug for Session {
    fn fmt(&self, f: &mut fmt::Formatter<'_>) -> fmt::Result {
        f.debug_struct("Session").field("number", &self.number()).finish_non_exhaustive()
    }
}

/// Why an office isn't opened, with the monitor as it was.
#[derive(Debug)]
#[non_exhaustive]
pub enum OfficeError {
    /// The number of sessions isn't 1 to [`Office::MAX_SESSIONS`].
    BadCount(Monitor),
    /// An allocation failed.
    OutOfMemory(Monitor),
}

impl fmt::Display for OfficeError {
    fn fmt(&self, f: &mut fmt::Formatter<'_>) -> fmt::Result {
        f.write_str(match self {
            OfficeError::BadCount(_) => "not 1 to 64 sessions",
            OfficeError::OutOfMemory(_) => "an allocation failed",
        })
    }
}

impl error::Error for OfficeError {}

/// Not all sessions of the office, and no others, were given: it is as it was, and so are they.
#[derive(Debug)]
pub struct CloseError {
    /// The office.
    pub office: Office,
    /// The sessions that were given, ascending by number.
    pub sessions: Vec<Session>,
}

impl fmt::Display for CloseError {
    fn fmt(&self, f: &mut fmt::Formatter<'_>) -> fmt::Result {
        f.write_str("sessions of the office are missing")
    }
}

impl error::Error for CloseError {}

/// Why there are no lines of entries.
#[derive(Clone, Copy, Debug, PartialEq, Eq, Hash)]
#[non_exhaustive]
pub enum LinesError {
    /// The entry is forgotten, or its number is above how many entries there are.
    NoSuchEntry,
    /// There is no room for one line.
    NoRoom,
    /// An allocation failed.
    OutOfMemory,
}

impl fmt::Display for LinesError {
    fn fmt(&self, f: &mut fmt::Formatter<'_>) -> fmt::Result {
        f.write_str(match self {
            LinesError::NoSuchEntry => "no such entry",
            LinesError::NoRoom => "no room for a line",
            LinesError::OutOfMemory => "an allocation failed",
        })
    }
}

impl error::Error for LinesError {}
