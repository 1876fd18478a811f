//! Why a monitor isn't opened.
use crate::handle::fault_text;
use crate::{EntryFault, LoadFault, OtherVersion, Reply};
use mls_sys::*;
use std::os::raw::c_int;
use std::{error, fmt};

/// Why a monitor isn't opened or resumed. The first that applies decides, in this order, but that an allocation may
/// fail at any time. A text says what the program `mls` says, and counts lines from 1 as that does.
#[derive(Clone, Copy, Debug, PartialEq, Eq, Hash)]
#[non_exhaustive]
pub enum OpenError {
    /// The library that was found has this version, and another is wanted.
    Library(OtherVersion),
    /// The start file is refused.
    Start(LoadFault),
    /// A line of the journal is no entry's.
    Line {
        /// The first line that is none, counted from 0.
        line: u64,
        /// Its fault.
        fault: EntryFault,
    },
    /// The journal isn't one of its start.
    Replay {
        /// The first entry, counted from 0, that isn't as the start and the rules have it.
        entry: u64,
        /// What is wrong with it.
        fault: ReplayFault,
    },
    /// An allocation failed.
    OutOfMemory,
    /// A fault of a later library, by its numbers.
    Other {
        /// The status.
        status: c_int,
        /// The kind of the fault.
        kind: u16,
        /// What says more.
        number: u16,
        /// Its place.
        place: u64,
    },
}

/// What is wrong with an entry that the start and the rules don't lead to.
#[derive(Clone, Copy, Debug, PartialEq, Eq, Hash)]
pub enum ReplayFault {
    /// It hasn't its place in the journal as number.
    Number,
    /// It hasn't the reply that the rules give, which is this one.
    Differs(Reply),
}

impl OpenError {
    /// What a status below 0 says, with the fault beside it.
    pub(crate) fn told(status: c_int, fault: mls_fault) -> OpenError {
        let mls_fault { kind, number, place } = fault;
        let known = match status {
            MLS_ENOMEM => Some(OpenError::OutOfMemory),
            MLS_ESTART => LoadFault::told(kind, number).map(OpenError::Start),
            MLS_EJOURNAL => EntryFault::told(kind).map(|fault| OpenError::Line { line: place, fault }),
            MLS_EREPLAY => ReplayFault::told(kind, number).map(|fault| OpenError::Replay { entry: place, fault }),
            _ => None,
        };
        known.unwrap_or(OpenError::Other { status, kind, number, place })
    }
}

impl ReplayFault {
    fn told(kind: u16, number: u16) -> Option<ReplayFault> {
        match kind {
            1 => Some(ReplayFault::Number),
            2 => Some(ReplayFault::Differs(Reply::told(number))),
            _ => None,
        }
    }
}

impl fmt::Display for OpenError {
    fn fmt(&self, f: &mut fmt::Formatter<'_>) -> fmt::Result {
        match self {
            OpenError::Library(other) => other.fmt(f),
            OpenError::Start(fault) => write!(f, "start {fault}"),
            OpenError::Line { line, fault } => write!(f, "line {}: entry {fault}", line.saturating_add(1)),
            OpenError::Replay { entry, fault: ReplayFault::Number } => write!(f, "replay 1 Number at {entry}"),
            OpenError::Replay { entry, fault: ReplayFault::Differs(wanted) } => {
                write!(f, "replay 2 Differs at {entry} expected {wanted}")
            }
            OpenError::OutOfMemory => f.write_str("an allocation failed"),
            OpenError::Other { status, kind, number, place } => {
                let fault = mls_fault { kind: *kind, number: *number, place: *place };
                write!(f, "status {status}: {}", fault_text(*status, &fault))
            }
        }
    }
}

impl error::Error for OpenError {}

#[cfg(test)]
mod tests {
    use super::*;

    #[test]
    fn the_library_says_the_same() {
        let mut known = 0;
        for status in [MLS_ESTART, MLS_EJOURNAL, MLS_EREPLAY] {
            for (kind, number) in (0..9).flat_map(|kind| (0..26).map(move |number| (kind, number))) {
                let fault = mls_fault { kind, number, place: 6 };
                let told = OpenError::told(status, fault);
                let is_known = !matches!(Reply::told(number), Reply::Other(_)) || (status, kind) != (MLS_EREPLAY, 2);
                if is_known && !matches!(told, OpenError::Other { .. }) {
                    assert_eq!(told.to_string(), fault_text(status, &fault), "{status} {kind} {number}");
                    known += 1;
                }
            }
        }
        assert!(known > 100);
        let later = OpenError::told(MLS_ESTART, mls_fault { kind: 9, number: 0, place: 0 });
        assert_eq!(later.to_string(), "status -5: start 9 ?");
    }

    #[test]
    fn faults_of_a_later_library() {
        for (status, kind, number) in [(MLS_ESTART, 9, 0), (MLS_EJOURNAL, 5, 0), (MLS_EREPLAY, 3, 0), (MLS_EOPEN, 0, 0)]
        {
            let told = OpenError::told(status, mls_fault { kind, number, place: 4 });
            assert_eq!(told, OpenError::Other { status, kind, number, place: 4 });
        }
        let differs = |number| OpenError::told(MLS_EREPLAY, mls_fault { kind: 2, number, place: 4 }).to_string();
        assert_eq!(differs(26), "replay 2 Differs at 4 expected reply 26");
        assert_eq!(differs(1), "replay 2 Differs at 4 expected created");
        let memory = OpenError::told(MLS_ENOMEM, mls_fault::default());
        assert_eq!((memory, memory.to_string().as_str()), (OpenError::OutOfMemory, "an allocation failed"));
    }
}
