//! Sets of modes.
use crate::Mode;
use std::fmt;

/// A set of modes. Its text has their words, by their numbers: `read write`.
///
/// ```
/// use mls::{Mode, Modes};
///
/// let modes = Modes::from_iter([Mode::Write, Mode::Read]);
/// assert!(modes.has(Mode::Read) && !modes.has(Mode::Append));
/// assert_eq!(modes.to_string(), "read write");
/// ```
#[derive(Clone, Copy, Default, PartialEq, Eq, Hash)]
pub struct Modes(u8);

impl Modes {
    /// Whether the set has a mode.
    pub fn has(self, mode: Mode) -> bool {
        self.0 >> mode as u8 & 1 == 1
    }

    /// Whether it has none.
    pub fn is_empty(self) -> bool {
        self.iter().next().is_none()
    }

    /// The modes, by their numbers.
    pub fn iter(self) -> impl Iterator<Item = Mode> {
        Mode::ALL.into_iter().filter(move |it| self.has(*it))
    }

    /// The set of a sum of the library's. Bits of a later library aren't kept.
    pub(crate) fn told(sum: u8) -> Modes {
        Modes(sum).iter().collect()
    }
}

impl FromIterator<Mode> for Modes {
    fn from_iter<I: IntoIterator<Item = Mode>>(modes: I) -> Modes {
        Modes(modes.into_iter().fold(0, |sum, it| sum | 1 << it as u8))
    }
}

impl fmt::Display for Modes {
    fn fmt(&self, f: &mut fmt::Formatter<'_>) -> fmt::Result {
        for (n, it) in self.iter().enumerate() {
            write!(f, "{}{it}", if n == 0 { "" } else { " " })?;
        }
        Ok(())
    }
}

impl fmt::Debug for Modes {
    fn fmt(&self, f: &mut fmt::Formatter<'_>) -> fmt::Result {
        f.debug_set().entries(self.iter()).finish()
    }
}

#[cfg(test)]
mod tests {
    use super::*;
    use mls_sys::{MLS_APPENDS, MLS_EXECUTES, MLS_READS, MLS_WRITES};

    #[test]
    fn sums() {
        for (mode, sum) in Mode::ALL.into_iter().zip([MLS_EXECUTES, MLS_READS, MLS_APPENDS, MLS_WRITES]) {
            assert_eq!(Modes::told(sum).iter().collect::<Vec<_>>(), [mode]);
        }
        assert_eq!(Modes::told(0xff), Mode::ALL.into_iter().collect());
        assert!(Modes::told(0xf0).is_empty() && !Modes::told(MLS_WRITES).is_empty());
        assert_eq!(format!("{:?}", Modes::told(MLS_READS + MLS_WRITES)), "{Read, Write}");
    }
}
