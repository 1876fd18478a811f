//! Labels, by numbers.
use crate::handle::dominates;
use mls_sys::{mls_label, mls_labels, MLS_INTEGRITY_LABEL, MLS_SECURITY_LABEL};
use std::os::raw::c_int;
use std::{error, fmt};

/// A kind of labels. Each has a scheme of its own in the start: the names of its levels and categories.
#[derive(Clone, Copy, Debug, PartialEq, Eq, Hash)]
pub enum Kind {
    /// How secret something is.
    Security,
    /// How far something is to be trusted.
    Integrity,
}

impl Kind {
    pub(crate) fn number(self) -> c_int {
        match self {
            Kind::Security => MLS_SECURITY_LABEL,
            Kind::Integrity => MLS_INTEGRITY_LABEL,
        }
    }
}

/// A label: a level below 16, and a set of the categories 0 to 255. [`Monitor::read_label`] reads a label's text.
///
/// Its text here is by numbers, as in a journal's lines:
///
/// ```
/// let label = mls::Label::new(2, [7, 0]).unwrap();
/// assert_eq!(label.to_string(), "2:0,7");
/// assert_eq!(label.level(), 2);
/// assert!(label.has(7) && !label.has(1));
/// assert!(label.dominates(&mls::Label::new(1, [7]).unwrap()));
/// assert_eq!(mls::Label::new(16, []), None);
/// ```
///
/// [`Monitor::read_label`]: crate::Monitor::read_label
#[derive(Clone, Copy, Debug, Default, PartialEq, Eq, Hash)]
pub struct Label(mls_label);

impl Label {
    /// The label of a level with these categories; none where the level isn't below 16.
    pub fn new(level: u8, categories: impl IntoIterator<Item = u8>) -> Option<Label> {
        let mut label = mls_label { level, ..mls_label::default() };
        for it in categories {
            label.categories[usize::from(it) / 64] |= 1 << (it % 64);
        }
        if level < 16 {
            Some(Label(label))
        } else {
            None
        }
    }

    /// The level.
    pub fn level(&self) -> u8 {
        self.0.level
    }

    /// Whether the label has a category.
    pub fn has(&self, category: u8) -> bool {
        self.0.categories[usize::from(category) / 64] >> (category % 64) & 1 == 1
    }

    /// The categories, ascending.
    pub fn categories(&self) -> impl Iterator<Item = u8> + '_ {
        (0..=255).filter(move |it| self.has(*it))
    }

    /// Whether this label dominates another: its level is no lower, and it has all categories of the other.
    pub fn dominates(&self, other: &Label) -> bool {
        dominates(&self.0, &other.0)
    }

    /// A label that the library has told: its level is below 16.
    pub(crate) fn told(label: mls_label) -> Label {
        Label(label)
    }

    pub(crate) fn as_told(&self) -> mls_label {
        self.0
    }
}

impl fmt::Display for Label {
    fn fmt(&self, f: &mut fmt::Formatter<'_>) -> fmt::Result {
        write!(f, "{}", self.level())?;
        for (n, it) in self.categories().enumerate() {
            write!(f, "{}{it}", if n == 0 { ':' } else { ',' })?;
        }
        Ok(())
    }
}

/// The security label and the integrity label of something that is no object, say a row of a table.
/// [`Monitor::decide_labels`] takes many.
///
/// [`Monitor::decide_labels`]: crate::Monitor::decide_labels
#[derive(Clone, Copy, Debug, Default, PartialEq, Eq, Hash)]
#[repr(transparent)]
pub struct Labels(mls_labels);

impl Labels {
    /// Both labels of a row.
    pub fn new(security: &Label, integrity: &Label) -> Labels {
        Labels(mls_labels { security: security.0, integrity: integrity.0 })
    }

    /// The security label.
    pub fn security(&self) -> Label {
        Label(self.0.security)
    }

    /// The integrity label.
    pub fn integrity(&self) -> Label {
        Label(self.0.integrity)
    }
}

/// Why a label isn't read or written.
#[derive(Clone, Copy, Debug, PartialEq, Eq, Hash)]
#[non_exhaustive]
pub enum LabelError {
    /// The text spells no label of the scheme, or the scheme has no such label.
    NoSuchLabel,
    /// An allocation failed. Reading a label allocates nothing.
    OutOfMemory,
}

impl fmt::Display for LabelError {
    fn fmt(&self, f: &mut fmt::Formatter<'_>) -> fmt::Result {
        f.write_str(match self {
            LabelError::NoSuchLabel => "the scheme has no such label",
            LabelError::OutOfMemory => "an allocation failed",
        })
    }
}

impl error::Error for LabelError {}
