//! Requests, and what they name.
use crate::handle::mode_word;
use crate::Label;
use mls_sys::*;
use std::fmt;

/// A subject, by its number. [`Monitor::subject`](crate::Monitor::subject) finds the number of a name. A request that
/// names a subject that isn't there is answered `undefined`.
#[derive(Clone, Copy, Debug, PartialEq, Eq, PartialOrd, Ord, Hash)]
pub struct Subject(pub u16);

/// An object, by its number. [`Monitor::object`](crate::Monitor::object) finds the number of a name in the start; an
/// object that is made later has a number alone. A request that names one that isn't there is answered `undefined`.
#[derive(Clone, Copy, Debug, PartialEq, Eq, PartialOrd, Ord, Hash)]
pub struct Object(pub u16);

/// A mode of access. Its text is its word: `read`.
#[derive(Clone, Copy, Debug, PartialEq, Eq, PartialOrd, Ord, Hash)]
#[repr(u8)]
pub enum Mode {
    /// Neither observing nor altering.
    Execute = MLS_EXECUTE,
    /// Observing.
    Read = MLS_READ,
    /// Altering without observing.
    Append = MLS_APPEND,
    /// Observing and altering.
    Write = MLS_WRITE,
}

impl Mode {
    /// The modes, by their numbers.
    pub const ALL: [Mode; 4] = [Mode::Execute, Mode::Read, Mode::Append, Mode::Write];
}

impl fmt::Display for Mode {
    fn fmt(&self, f: &mut fmt::Formatter<'_>) -> fmt::Result {
        f.pad(mode_word(*self as u8))
    }
}

/// A request. The subject is the one that asks.
#[derive(Clone, Copy, Debug, PartialEq, Eq, Hash)]
#[allow(missing_docs)]
#[non_exhaustive]
pub enum Request {
    /// An access to an object.
    Get { subject: Subject, object: Object, mode: Mode },
    /// The end of an access.
    Release { subject: Subject, object: Object, mode: Mode },
    /// A permission for another subject.
    Give { subject: Subject, other: Subject, object: Object, mode: Mode },
    /// That another subject be permitted it no longer.
    Rescind { subject: Subject, other: Subject, object: Object, mode: Mode },
    /// An object below its parent.
    Create { subject: Subject, parent: Object, security: Label, integrity: Label },
    /// That an object and all below it be deleted.
    Delete { subject: Subject, object: Object },
    /// Another current label of the subject.
    Level { subject: Subject, security: Label },
    /// Another security label of an object.
    Relabel { subject: Subject, object: Object, security: Label },
}

impl Request {
    /// The request in numbers.
    pub(crate) fn as_told(&self) -> mls_request {
        let of = |action, subject: Subject| mls_request { action, subject: subject.0, ..mls_request::default() };
        let on = |action, subject, object: Object| mls_request { object: object.0, ..of(action, subject) };
        let access = |action, subject, object, mode| mls_request { mode: mode as u8, ..on(action, subject, object) };
        match *self {
            Request::Get { subject, object, mode } => access(MLS_GET, subject, object, mode),
            Request::Release { subject, object, mode } => access(MLS_RELEASE, subject, object, mode),
            Request::Give { subject, other, object, mode } => {
                mls_request { other: other.0, ..access(MLS_GIVE, subject, object, mode) }
            }
            Request::Rescind { subject, other, object, mode } => {
                mls_request { other: other.0, ..access(MLS_RESCIND, subject, object, mode) }
            }
            Request::Create { subject, parent, security, integrity } => mls_request {
                security: security.as_told(),
                integrity: integrity.as_told(),
                ..on(MLS_CREATE, subject, parent)
            },
            Request::Delete { subject, object } => on(MLS_DELETE, subject, object),
            Request::Level { subject, security } => {
                mls_request { security: security.as_told(), ..of(MLS_SUBJECT_LEVEL, subject) }
            }
            Request::Relabel { subject, object, security } => {
                mls_request { security: security.as_told(), ..on(MLS_OBJECT_LEVEL, subject, object) }
            }
        }
    }

    /// The request that numbers of the library say; none where their action or mode is one of a later version.
    pub(crate) fn told(request: &mls_request) -> Option<Request> {
        let (subject, other, object) = (Subject(request.subject), Subject(request.other), Object(request.object));
        let mode = || Mode::ALL.get(usize::from(request.mode)).copied();
        let security = Label::told(request.security);
        Some(match request.action {
            MLS_GET => Request::Get { subject, object, mode: mode()? },
            MLS_RELEASE => Request::Release { subject, object, mode: mode()? },
            MLS_GIVE => Request::Give { subject, other, object, mode: mode()? },
            MLS_RESCIND => Request::Rescind { subject, other, object, mode: mode()? },
            MLS_CREATE => {
                Request::Create { subject, parent: object, security, integrity: Label::told(request.integrity) }
            }
            MLS_DELETE => Request::Delete { subject, object },
            MLS_SUBJECT_LEVEL => Request::Level { subject, security },
            MLS_OBJECT_LEVEL => Request::Relabel { subject, object, security },
            _ => return None,
        })
    }
}

#[cfg(test)]
mod tests {
    use super::*;

    /// What a library of today doesn't have is no request, and what an action doesn't use isn't looked at.
    #[test]
    fn numbers_of_requests() {
        for (action, mode) in (0..=255).flat_map(|action| (0..8).map(move |mode| (action, mode))) {
            let numbers = mls_request { action, mode, subject: 1, other: 2, object: 3, ..mls_request::default() };
            let told = Request::told(&numbers);
            assert_eq!(told.is_some(), action < 4 && mode < 4 || (4..8).contains(&action));
            if let Some(request) = told {
                let back = request.as_told();
                assert_eq!((back.action, back.subject, Request::told(&back)), (action, 1, told));
            }
        }
    }
}
