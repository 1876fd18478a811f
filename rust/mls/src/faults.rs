//! The faults of start files and of journals' lines, by their names in docs/FORMATS.md.
use std::fmt;

/// Declares an enum of faults that are numbered from 1 on in their order, with their names as text.
macro_rules! faults {
    ($(#[$about:meta])* $name:ident: $($(#[$of_one:meta])* $fault:ident,)+) => {
        $(#[$about])*
        #[derive(Clone, Copy, Debug, PartialEq, Eq, Hash)]
        #[non_exhaustive]
        pub enum $name {
            $($(#[$of_one])* $fault,)+
        }

        impl $name {
            const ALL: &'static [$name] = &[$($name::$fault),+];

            /// The fault of a number; none where it is one of a later version.
            pub(crate) fn told(number: u16) -> Option<$name> {
                $name::ALL.get(usize::from(number).checked_sub(1)?).copied()
            }
        }

        impl fmt::Display for $name {
            fn fmt(&self, f: &mut fmt::Formatter<'_>) -> fmt::Result {
                write!(f, "{} {self:?}", *self as u16 + 1)
            }
        }
    };
}

faults! {
    /// Why a scheme is refused.
    SchemeFault:
    /// There are no levels.
    NoLevels,
    /// There are over 16 levels.
    TooManyLevels,
    /// There are over 256 categories.
    TooManyCategories,
    /// A level or a category has no proper name.
    BadName,
    /// A name stands twice among the levels, or among the categories.
    RepeatedName,
}

faults! {
    /// Why a start is refused whose file can be read.
    StartFault:
    /// There is no subject.
    NoSubjects,
    /// There are more than 256.
    TooManySubjects,
    /// There are more than 4,096 objects.
    TooManyObjects,
    /// Some label isn't within the bounds of its kind.
    BadLabel,
    /// Some object's parent isn't an object of a smaller number.
    BadParent,
    /// Some subject's maximum label doesn't dominate its current one.
    CurrentAboveMaximum,
    /// Some object's security label doesn't dominate its parent's.
    NotCompatible,
    /// Some parent's integrity label doesn't dominate its child's.
    IntegrityAboveParent,
    /// Some cell of the matrix, or some access, names a subject or an object that isn't there.
    NoSuchCell,
    /// Some access isn't permitted, or breaks simple security, the star property or strict integrity.
    NotSecure,
}

faults! {
    /// Why a line of a journal is no entry's.
    EntryFault:
    /// It isn't of the form.
    BadForm,
    /// A number isn't a decimal number of its range.
    BadNumber,
    /// A label isn't of the form.
    BadLabel,
    /// What stands at its end is no reply.
    BadReply,
}

/// Why a start file is refused: the first of these that applies to all of it. `mls lint` prints where the fault is.
#[derive(Clone, Copy, Debug, PartialEq, Eq, Hash)]
#[non_exhaustive]
pub enum LoadFault {
    /// The bytes aren't JSON.
    Json,
    /// A member is missing, isn't one of those of a start file, or is of another type.
    Members,
    /// A scheme is refused.
    Scheme(SchemeFault),
    /// A name is none, or two subjects or two objects have one.
    Name,
    /// A label's text is refused by its scheme.
    Label,
    /// A parent, a subject or an object isn't there, or a mode is none.
    Unknown,
    /// The start is refused.
    Start(StartFault),
}

impl LoadFault {
    /// The fault of a number and its cause's; none where either is one of a later version.
    pub(crate) fn told(kind: u16, cause: u16) -> Option<LoadFault> {
        Some(match kind {
            1 => LoadFault::Json,
            2 => LoadFault::Members,
            3 => LoadFault::Scheme(SchemeFault::told(cause)?),
            4 => LoadFault::Name,
            5 => LoadFault::Label,
            6 => LoadFault::Unknown,
            7 => LoadFault::Start(StartFault::told(cause)?),
            _ => return None,
        })
    }
}

impl fmt::Display for LoadFault {
    fn fmt(&self, f: &mut fmt::Formatter<'_>) -> fmt::Result {
        match self {
            LoadFault::Json => f.write_str("1 Json"),
            LoadFault::Members => f.write_str("2 Members"),
            LoadFault::Scheme(fault) => write!(f, "3 Scheme {fault}"),
            LoadFault::Name => f.write_str("4 Name"),
            LoadFault::Label => f.write_str("5 Label"),
            LoadFault::Unknown => f.write_str("6 Unknown"),
            LoadFault::Start(fault) => write!(f, "7 Start {fault}"),
        }
    }
}

#[cfg(test)]
mod tests {
    use super::*;

    /// The texts of the faults of these numbers, `-` where there is none.
    fn texts<T: fmt::Display>(told: impl Fn(u16) -> Option<T>, numbers: impl Iterator<Item = u16>) -> String {
        let texts = numbers.map(|it| told(it).map_or("-".to_string(), |fault| fault.to_string()));
        texts.collect::<Vec<_>>().join(", ")
    }

    #[test]
    fn numbers() {
        assert_eq!(
            texts(SchemeFault::told, 0..7),
            "-, 1 NoLevels, 2 TooManyLevels, 3 TooManyCategories, 4 BadName, 5 RepeatedName, -"
        );
        assert_eq!(
            texts(StartFault::told, 0..12),
            "-, 1 NoSubjects, 2 TooManySubjects, 3 TooManyObjects, 4 BadLabel, 5 BadParent, 6 CurrentAboveMaximum, \
             7 NotCompatible, 8 IntegrityAboveParent, 9 NoSuchCell, 10 NotSecure, -"
        );
        assert_eq!(texts(EntryFault::told, 0..6), "-, 1 BadForm, 2 BadNumber, 3 BadLabel, 4 BadReply, -");
        assert_eq!(
            texts(|kind| LoadFault::told(kind, 1), 0..10),
            "-, 1 Json, 2 Members, 3 Scheme 1 NoLevels, 4 Name, 5 Label, 6 Unknown, 7 Start 1 NoSubjects, -, -"
        );
        assert_eq!((LoadFault::told(3, 6), LoadFault::told(7, 11), LoadFault::told(7, 0)), (None, None, None));
    }
}
