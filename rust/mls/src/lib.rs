#![doc = include_str!("../README.md")]
#![deny(unsafe_code, missing_docs)]

mod actions;
mod answer;
mod basis;
mod explanation;
mod faults;
mod handle;
mod infos;
mod journal;
mod label;
mod library;
mod modes;
mod monitor;
mod office;
mod refusals;
mod request;
mod session_infos;
mod state_start;
mod state_text;

pub use answer::{Answer, Reason, Reply};
pub use basis::{Basis, Compared, Term};
pub use explanation::{Condition, ExplainError, Explanation};
pub use faults::{EntryFault, LoadFault, SchemeFault, StartFault};
pub use infos::{Counts, ObjectInfo, PairInfo, SubjectInfo};
pub use journal::{Entry, EntryError};
pub use label::{Kind, Label, LabelError, Labels};
pub use library::OtherVersion;
pub use modes::Modes;
pub use monitor::{Monitor, SubmitError};
pub use office::{CloseError, LinesError, Office, OfficeError, Session};
pub use refusals::{OpenError, ReplayFault};
pub use request::{Mode, Object, Request, Subject};
pub use state_start::{StateStart, StateStartError};
pub use state_text::{OpenStateError, StateTextError};
