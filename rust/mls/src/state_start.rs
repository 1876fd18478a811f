//! The present state as a start file.
use crate::monitor::unknown;
use crate::{Monitor, Object};
use mls_sys::*;
use std::{error, fmt};

/// A start file of a state, with the numbers that the state's objects have there.
#[derive(Clone, Debug, PartialEq, Eq, Hash)]
pub struct StateStart {
    /// The bytes of the file.
    pub text: Vec<u8>,
    numbers: Vec<u16>,
}

/// Why there is no start file of a state.
#[derive(Clone, Copy, Debug, PartialEq, Eq, Hash)]
#[non_exhaustive]
pub enum StateStartError {
    /// An allocation failed.
    OutOfMemory,
    /// What was written doesn't open with the state. No state is known for which this happens.
    Differs,
}

impl StateStart {
    /// The object in the start that an object of the state is; none where that isn't active.
    pub fn object(&self, object: Object) -> Option<Object> {
        self.numbers.get(usize::from(object.0)).filter(|it| **it < MLS_OBJECTS).map(|it| Object(*it))
    }
}

impl Monitor {
    /// A start file of the present state. A monitor that is opened from it holds what this one does, with an empty
    /// journal. Its objects are numbered without gaps, parents before their children.
    ///
    /// ```
    /// # let start = include_bytes!(concat!(env!("CARGO_MANIFEST_DIR"), "/../../examples/standard.json"));
    /// use mls::{Mode, Monitor, Object, Subject};
    ///
    /// let (ann, plans) = (Subject(0), Object(1));
    /// let mut old = Monitor::open(start)?;
    /// old.get(0, ann, plans, Mode::Read)?;
    /// let rotated = old.state_start()?;
    /// let monitor = Monitor::open(&rotated.text)?;
    /// assert_eq!((old.entry_count(), monitor.entry_count()), (1, 0));
    /// assert!(monitor.check(ann, rotated.object(plans).unwrap(), Mode::Read));
    /// # Ok::<(), Box<dyn std::error::Error>>(())
    /// ```
    pub fn state_start(&self) -> Result<StateStart, StateStartError> {
        match self.handle.state_start() {
            Ok((text, numbers)) => Ok(StateStart { text, numbers }),
            Err(MLS_ENOMEM) => Err(StateStartError::OutOfMemory),
            Err(MLS_ESTART) => Err(StateStartError::Differs),
            Err(status) => unknown("mls_state_start", status),
        }
    }
}

impl fmt::Display for StateStartError {
    fn fmt(&self, f: &mut fmt::Formatter<'_>) -> fmt::Result {
        f.write_str(match self {
            StateStartError::OutOfMemory => "an allocation failed",
            StateStartError::Differs => "the start file differs from the state",
        })
    }
}

impl error::Error for StateStartError {}
