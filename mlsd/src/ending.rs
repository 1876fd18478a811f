//! Why the front ends before it was asked to, with its status.
use std::fmt::Display;
use std::process::ExitStatus;

const OWN: i32 = 1;
const WORDS: i32 = 2;
const REFUSED: i32 = 3;
const CORE: i32 = 4;
const FAILED: i32 = 5;
const FULL: i32 = 6;
/// Statuses of the core that are the front's too: a failed append or sync; the journal is in use.
const PASSED_ON: [i32; 2] = [5, 75];

#[derive(Debug, PartialEq, Eq)]
pub struct End {
    pub status: i32,
    pub told: String,
}

impl End {
    /// A file or a socket of the front's own.
    pub fn own(what: &str, why: impl Display) -> End {
        End { status: OWN, told: format!("{what}: {why}") }
    }

    /// A file of the front's own wasn't synced: what is read of it now need not be on the disk.
    pub fn failed(what: &str, why: impl Display) -> End {
        End { status: FAILED, told: format!("{what}: sync: {why}") }
    }

    /// The journal takes no entry more.
    pub fn full(journal: &str, bytes: u64, limit: u64) -> End {
        End { status: FULL, told: format!("{journal}: full, {bytes} of {limit} bytes: a new journal is to be begun") }
    }

    pub fn words(told: &str) -> End {
        End { status: WORDS, told: told.to_string() }
    }

    /// The core has ended, before it was ready or after.
    pub fn core(was_ready: bool, status: ExitStatus) -> End {
        let told = format!("the core ended{}: {status}", if was_ready { "" } else { " before it was ready" });
        let own = if was_ready { CORE } else { REFUSED };
        End { status: status.code().filter(|code| PASSED_ON.contains(code)).unwrap_or(own), told }
    }

    /// Whether it is the core's.
    pub fn is_core(&self) -> bool {
        self.status == CORE
    }

    /// What the core's own end adds, where it is the cause.
    pub fn with_core(self, status: ExitStatus) -> End {
        if self.is_core() {
            End { status: End::core(true, status).status, told: format!("{}: {status}", self.told) }
        } else {
            self
        }
    }

    /// The core has ended unasked, or does what no core does.
    pub fn strange(told: &str) -> End {
        End { status: CORE, told: told.to_string() }
    }
}

#[cfg(test)]
mod tests {
    use super::*;
    use std::os::unix::process::ExitStatusExt;

    #[test]
    fn the_core_s_own_statuses_are_passed_on() {
        let status = |was_ready, code: i32| End::core(was_ready, ExitStatus::from_raw(code << 8)).status;
        assert_eq!([1, 3, 5, 75].map(|code| status(false, code)), [3, 3, 5, 75]);
        assert_eq!([0, 1, 5, 75].map(|code| status(true, code)), [4, 4, 5, 75]);
        assert_eq!(End::core(true, ExitStatus::from_raw(9)).status, 4);
    }
}
