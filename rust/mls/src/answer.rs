//! What a request is answered.
use crate::handle::{reason_word, reply_word};
use crate::Object;
use mls_sys::*;
use std::fmt;

/// The answer to a request. Its text is as in a script's answers and a journal's lines: `yes`, `created 4`, `no star`,
/// `undefined`.
#[derive(Clone, Copy, Debug, PartialEq, Eq, Hash)]
#[must_use = "the decision is in the answer's reply"]
pub struct Answer {
    /// The number of its entry in the journal.
    pub number: u64,
    /// What the rules reply.
    pub reply: Reply,
    /// The object that was made, where the reply is `Created`.
    pub object: Option<Object>,
}

impl Answer {
    /// Whether the request was granted.
    pub fn is_granted(&self) -> bool {
        self.reply.is_granted()
    }

    pub(crate) fn told(number: u64, reply: u16, object: u16) -> Answer {
        let reply = Reply::told(reply);
        Answer { number, reply, object: (reply == Reply::Created).then_some(Object(object)) }
    }
}

impl fmt::Display for Answer {
    fn fmt(&self, f: &mut fmt::Formatter<'_>) -> fmt::Result {
        match self.object {
            Some(object) => write!(f, "{} {}", self.reply, object.0),
            None => self.reply.fmt(f),
        }
    }
}

/// A reply.
#[derive(Clone, Copy, Debug, PartialEq, Eq, Hash)]
#[non_exhaustive]
pub enum Reply {
    /// Granted.
    Yes,
    /// Granted: an object was made.
    Created,
    /// An unknown subject, an object that isn't active, or a label outside the bounds.
    Undefined,
    /// Denied, for this reason.
    Denied(Reason),
    /// A reply of a later library, by its number. It counts as not granted.
    Other(u16),
}

impl Reply {
    /// Whether it grants what was asked for.
    pub fn is_granted(&self) -> bool {
        matches!(self, Reply::Yes | Reply::Created)
    }

    pub(crate) fn told(reply: u16) -> Reply {
        let reason = || Reason::told(reply.checked_sub(MLS_DENIED)?);
        match reply {
            MLS_YES => Reply::Yes,
            MLS_CREATED => Reply::Created,
            MLS_UNDEFINED => Reply::Undefined,
            _ => reason().map_or(Reply::Other(reply), Reply::Denied),
        }
    }
}

impl fmt::Display for Reply {
    fn fmt(&self, f: &mut fmt::Formatter<'_>) -> fmt::Result {
        match self {
            Reply::Yes => f.write_str(reply_word(MLS_YES)),
            Reply::Created => f.write_str(reply_word(MLS_CREATED)),
            Reply::Undefined => f.write_str(reply_word(MLS_UNDEFINED)),
            Reply::Denied(reason) => write!(f, "{} {reason}", reply_word(MLS_DENIED + *reason as u16)),
            Reply::Other(number) => write!(f, "reply {number}"),
        }
    }
}

/// Why a request is denied: the first condition of its rule that fails. Its text is its word: `star`.
#[derive(Clone, Copy, Debug, PartialEq, Eq, Hash)]
#[non_exhaustive]
#[repr(u16)]
pub enum Reason {
    /// The matrix doesn't permit it.
    Discretionary = MLS_DISCRETIONARY,
    /// Simple security would be broken.
    Simple = MLS_SIMPLE,
    /// The star property would be broken.
    Star = MLS_STAR,
    /// Strict integrity would be broken, or a child's integrity would pass its parent's.
    Integrity = MLS_INTEGRITY,
    /// The subject holds no right over the object's place in the tree.
    Authority = MLS_AUTHORITY,
    /// A child would stand at a label that doesn't dominate its parent's.
    Compatibility = MLS_COMPATIBILITY,
    /// A current label would pass the maximum.
    Ceiling = MLS_CEILING,
    /// The root would be deleted.
    Root = MLS_ROOT,
    /// No object number is left.
    Full = MLS_FULL,
}

impl Reason {
    /// The reasons, by their numbers.
    pub const ALL: [Reason; 9] = [
        Reason::Discretionary,
        Reason::Simple,
        Reason::Star,
        Reason::Integrity,
        Reason::Authority,
        Reason::Compatibility,
        Reason::Ceiling,
        Reason::Root,
        Reason::Full,
    ];

    /// The reason of a number; none where it is one of a later version.
    pub(crate) fn told(number: u16) -> Option<Reason> {
        Reason::ALL.into_iter().find(|it| number == *it as u16)
    }
}

impl fmt::Display for Reason {
    fn fmt(&self, f: &mut fmt::Formatter<'_>) -> fmt::Result {
        f.pad(reason_word(*self as u16))
    }
}

#[cfg(test)]
mod tests {
    use super::*;

    /// What isn't known isn't granted.
    #[test]
    fn numbers_of_replies() {
        for number in 0..100 {
            let answer = Answer::told(3, number, 4);
            let text = answer.to_string();
            match number {
                0 => assert_eq!((answer.is_granted(), text.as_str()), (true, "yes")),
                1 => assert_eq!((answer.is_granted(), text.as_str()), (true, "created 4")),
                2 => assert_eq!((answer.is_granted(), text.as_str()), (false, "undefined")),
                17..=25 => assert_eq!((answer.is_granted(), text.split_once(' ').unwrap().0), (false, "no")),
                _ => assert_eq!((answer.is_granted(), answer.reply), (false, Reply::Other(number))),
            }
        }
    }
}
