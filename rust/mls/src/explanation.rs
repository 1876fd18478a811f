//! Why a request is answered as it is.
use crate::monitor::unknown;
use crate::{Basis, Label, Monitor, Reason, Request};
use mls_sys::*;
use std::os::raw::c_int;
use std::{error, fmt};

/// A condition of a request.
#[derive(Clone, Copy, Debug, PartialEq, Eq, Hash)]
pub struct Condition {
    /// The reason of the denial, where it is the first that doesn't hold.
    pub reason: Reason,
    /// Whether it holds.
    pub holds: bool,
    /// What it rests on.
    pub basis: Basis,
}

/// Why a request would be answered as it would be now.
#[derive(Clone, Debug, PartialEq, Eq, Hash)]
pub struct Explanation {
    /// The conditions of the request, in the order of its rule.
    pub conditions: Vec<Condition>,
    /// Of a get, the least current label that the subject can take now after which it is granted.
    pub remedy: Option<Label>,
}

/// Why a request isn't explained.
#[derive(Clone, Copy, Debug, PartialEq, Eq, Hash)]
#[non_exhaustive]
pub enum ExplainError {
    /// It is answered `undefined`: a subject or an object isn't there, or a label is outside the bounds.
    Undefined,
    /// An allocation failed.
    OutOfMemory,
    /// A condition has numbers of a later library.
    Other,
}

impl Explanation {
    /// Whether all conditions hold, so that the request is granted.
    pub fn is_granted(&self) -> bool {
        self.failed().is_none()
    }

    /// The first condition that doesn't hold, whose reason is that of the denial.
    pub fn failed(&self) -> Option<&Condition> {
        self.conditions.iter().find(|it| !it.holds)
    }
}

impl Condition {
    /// The condition of numbers; none where one is of a later version.
    fn told(it: &mls_condition) -> Option<Condition> {
        Some(Condition { reason: Reason::told(it.reason)?, holds: it.holds == 1, basis: Basis::told(it)? })
    }
}

impl Monitor {
    /// The conditions of a request, each with whether it holds now and what it rests on, and the remedy of a get. No
    /// entry is made.
    pub fn explain(&self, request: &Request) -> Result<Explanation, ExplainError> {
        Explanation::told("mls_explain", self.handle.explain(&request.as_told()))
    }
}

impl Explanation {
    /// What a call has told, or its status.
    pub(crate) fn told(
        call: &str,
        told: Result<(Vec<mls_condition>, mls_remedy), c_int>,
    ) -> Result<Explanation, ExplainError> {
        let (rows, remedy) = match told {
            Ok(told) => told,
            Err(MLS_ENOTFOUND) => return Err(ExplainError::Undefined),
            Err(MLS_ENOMEM) => return Err(ExplainError::OutOfMemory),
            Err(status) => unknown(call, status),
        };
        let conditions = rows.iter().map(Condition::told).collect::<Option<_>>().ok_or(ExplainError::Other)?;
        Ok(Explanation { conditions, remedy: (remedy.there == 1).then_some(Label::told(remedy.label)) })
    }
}

impl fmt::Display for ExplainError {
    fn fmt(&self, f: &mut fmt::Formatter<'_>) -> fmt::Result {
        f.write_str(match self {
            ExplainError::Undefined => "the request is undefined",
            ExplainError::OutOfMemory => "an allocation failed",
            ExplainError::Other => "a condition has numbers of a later library",
        })
    }
}

impl error::Error for ExplainError {}
