//! The text of a state, and monitors that go on from one.
use crate::handle::{version, Handle};
use crate::library::is_known;
use crate::monitor::{ascii, unknown};
use crate::{LoadFault, Monitor, OtherVersion};
use mls_sys::*;
use std::os::raw::c_int;
use std::{error, fmt};

/// Why there is no text of a state.
#[derive(Clone, Copy, Debug, PartialEq, Eq, Hash)]
#[non_exhaustive]
pub enum StateTextError {
    /// An allocation failed.
    OutOfMemory,
}

/// Why no monitor goes on from a state.
#[derive(Clone, Copy, Debug, PartialEq, Eq, Hash)]
#[non_exhaustive]
pub enum OpenStateError {
    /// The library that was found has this version, and another is wanted.
    Library(OtherVersion),
    /// The start file is refused.
    Start(LoadFault),
    /// The text isn't that of a state: this line, counted from 0, isn't as it must be.
    Line(u64),
    /// It is the text of a state of another start.
    OtherStart,
    /// It is the text of a state that isn't secure.
    NotSecure,
    /// There are too many entries before it: more than 2^63.
    TooManyEntries,
    /// An allocation failed.
    OutOfMemory,
    /// A fault of a later library, by its numbers.
    Other {
        /// The status.
        status: c_int,
        /// The kind of the fault.
        kind: u16,
        /// What says more.
        number: u16,
        /// Its place.
        place: u64,
    },
}

impl Monitor {
    /// The text of the present state, as `mls state` prints it. [`open_state`](Monitor::open_state) goes on from it.
    pub fn state_text(&self) -> Result<String, StateTextError> {
        match self.handle.state_text() {
            Ok(text) => Ok(ascii(text)),
            Err(MLS_ENOMEM) => Err(StateTextError::OutOfMemory),
            Err(status) => unknown("mls_state_text", status),
        }
    }

    /// Opens a monitor from the bytes of a start file and the text of a state to which so many entries led. It goes on
    /// from there: objects keep their numbers, the next entry has this number, and those before are forgotten. The
    /// state is secure, and one of that start; that those entries led to it is for the caller to know.
    ///
    /// ```
    /// # let start = include_bytes!(concat!(env!("CARGO_MANIFEST_DIR"), "/../../examples/standard.json"));
    /// use mls::{Mode, Monitor, Object, Subject};
    ///
    /// let (ann, plans) = (Subject(0), Object(1));
    /// let mut monitor = Monitor::open(start)?;
    /// monitor.get(0, ann, plans, Mode::Read)?;
    /// let (state, number) = (monitor.state_text()?, monitor.entry_count());
    /// drop(monitor);
    /// let mut monitor = Monitor::open_state(start, state.as_bytes(), number)?;
    /// assert!(monitor.check(ann, plans, Mode::Read) && monitor.entry(0).is_none());
    /// assert_eq!(monitor.release(0, ann, plans, Mode::Read)?.number, 1);
    /// # Ok::<(), Box<dyn std::error::Error>>(())
    /// ```
    pub fn open_state(start: &[u8], state: &[u8], number: u64) -> Result<Monitor, OpenStateError> {
        is_known(version()).map_err(OpenStateError::Library)?;
        match Handle::open_state(start, state, number) {
            Ok(handle) => Ok(Monitor { handle }),
            Err((status, fault)) => Err(OpenStateError::told(status, fault)),
        }
    }
}

impl OpenStateError {
    /// What a status below 0 says, with the fault beside it.
    fn told(status: c_int, fault: mls_fault) -> OpenStateError {
        let mls_fault { kind, number, place } = fault;
        let known = match (status, kind) {
            (MLS_ENOMEM, _) => Some(OpenStateError::OutOfMemory),
            (MLS_EINVAL, _) => Some(OpenStateError::TooManyEntries),
            (MLS_ESTART, _) => LoadFault::told(kind, number).map(OpenStateError::Start),
            (MLS_ESTATE, 1) => Some(OpenStateError::Line(place)),
            (MLS_ESTATE, 2) => Some(OpenStateError::OtherStart),
            (MLS_ESTATE, 3) => Some(OpenStateError::NotSecure),
            _ => None,
        };
        known.unwrap_or(OpenStateError::Other { status, kind, number, place })
    }
}

impl fmt::Display for StateTextError {
    fn fmt(&self, f: &mut fmt::Formatter<'_>) -> fmt::Result {
        f.write_str("an allocation failed")
    }
}

impl error::Error for StateTextError {}

impl fmt::Display for OpenStateError {
    fn fmt(&self, f: &mut fmt::Formatter<'_>) -> fmt::Result {
        match self {
            OpenStateError::Library(other) => other.fmt(f),
            OpenStateError::Start(fault) => write!(f, "start {fault}"),
            OpenStateError::Line(line) => write!(f, "line {}: not of a state", line.saturating_add(1)),
            OpenStateError::OtherStart => f.write_str("a state of another start"),
            OpenStateError::NotSecure => f.write_str("a state that is not secure"),
            OpenStateError::TooManyEntries => f.write_str("too many entries"),
            OpenStateError::OutOfMemory => f.write_str("an allocation failed"),
            OpenStateError::Other { status, kind, number, place } => {
                write!(f, "status {status}: fault {kind} {number} at {place}")
            }
        }
    }
}

impl error::Error for OpenStateError {}

#[cfg(test)]
mod tests {
    use super::*;

    #[test]
    fn faults() {
        let told = |status, kind, number, place| OpenStateError::told(status, mls_fault { kind, number, place });
        let rows = [
            (told(MLS_ENOMEM, 0, 0, 0), OpenStateError::OutOfMemory, "an allocation failed"),
            (told(MLS_EINVAL, 0, 0, 0), OpenStateError::TooManyEntries, "too many entries"),
            (told(MLS_ESTART, 1, 0, 0), OpenStateError::Start(LoadFault::Json), "start 1 Json"),
            (told(MLS_ESTATE, 1, 0, 4), OpenStateError::Line(4), "line 5: not of a state"),
            (told(MLS_ESTATE, 2, 0, 0), OpenStateError::OtherStart, "a state of another start"),
            (told(MLS_ESTATE, 3, 0, 0), OpenStateError::NotSecure, "a state that is not secure"),
        ];
        for (error, wanted, text) in rows {
            assert_eq!((error, error.to_string().as_str()), (wanted, text));
        }
        for (status, kind, number) in [(MLS_ESTATE, 4, 0), (MLS_ESTATE, 0, 0), (MLS_ESTART, 9, 0), (MLS_EOPEN, 0, 0)] {
            assert_eq!(told(status, kind, number, 4), OpenStateError::Other { status, kind, number, place: 4 });
        }
    }
}
