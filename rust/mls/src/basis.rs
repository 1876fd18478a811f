//! What the conditions of requests rest on.
use crate::{Label, Mode, Object, Subject};
use mls_sys::*;

/// What a label that a condition compares is the label of.
#[derive(Clone, Copy, Debug, PartialEq, Eq, Hash)]
#[non_exhaustive]
pub enum Compared {
    /// The maximum label of the subject that asks.
    MaximumOfCaller,
    /// Its current label.
    CurrentOfCaller,
    /// The security label that the request names.
    RequestedSecurity,
    /// An object's security label.
    SecurityOfObject(Object),
    /// The integrity label that the request names.
    RequestedIntegrity,
    /// An object's integrity label.
    IntegrityOfObject(Object),
    /// A subject's integrity label.
    IntegrityOfSubject(Subject),
}

/// A label that a condition compares.
#[derive(Clone, Copy, Debug, PartialEq, Eq, Hash)]
pub struct Term {
    /// What it is the label of.
    pub of: Compared,
    /// The label.
    pub label: Label,
}

impl Term {
    /// The term of numbers; none where they say none, or one of a later version.
    fn told(term: &mls_term) -> Option<Term> {
        let of = match term.kind {
            MLS_MAXIMUM_OF_CALLER => Compared::MaximumOfCaller,
            MLS_CURRENT_OF_CALLER => Compared::CurrentOfCaller,
            MLS_REQUESTED_SECURITY => Compared::RequestedSecurity,
            MLS_SECURITY_OF_OBJECT => Compared::SecurityOfObject(Object(term.of)),
            MLS_REQUESTED_INTEGRITY => Compared::RequestedIntegrity,
            MLS_INTEGRITY_OF_OBJECT => Compared::IntegrityOfObject(Object(term.of)),
            MLS_INTEGRITY_OF_SUBJECT => Compared::IntegrityOfSubject(Subject(term.of)),
            _ => return None,
        };
        Some(Term { of, label: Label::told(term.label) })
    }
}

/// What a condition rests on: it holds where this is so.
#[derive(Clone, Copy, Debug, PartialEq, Eq, Hash)]
#[allow(missing_docs)]
#[non_exhaustive]
pub enum Basis {
    /// The matrix permits the subject the object in the mode.
    Permission { subject: Subject, object: Object, mode: Mode },
    /// The mode doesn't observe.
    NoObserving { mode: Mode },
    /// Execute neither observes nor alters.
    Execute,
    /// The subject is trusted.
    Trust { subject: Subject },
    /// The first label dominates the second.
    Dominance { first: Term, second: Term },
    /// The labels are equal.
    Equality { first: Term, second: Term },
    /// The subject holds write on the object.
    Writing { subject: Subject, object: Object },
    /// The subject holds append or write on the object.
    Altering { subject: Subject, object: Object },
    /// The object has no parent.
    NoParent { object: Object },
    /// The next number, which this object has, is below 4,096.
    Number { object: Object },
    /// The object isn't the root.
    NoRoot { object: Object },
    /// Star of all that the subject holds, with this current label.
    Holdings { subject: Subject, current: Term },
    /// The subject writes the parent, as `writes` says, and its current label and the new one dominate the object's.
    Relabelling {
        subject: Subject,
        object: Object,
        parent: Object,
        writes: bool,
        current: Term,
        label: Term,
        new: Term,
    },
    /// The label of each child of the object dominates the new one.
    Children { object: Object, new: Term },
    /// The new label dominates that of the object's parent, and each child's dominates it, as `is_below` says.
    Place { object: Object, parent: Object, new: Term, label: Term, is_below: bool },
    /// Simple security of all that is held of the object, with the new label.
    Observers { object: Object, new: Term },
    /// Star of all that is held of the object, with the new label.
    Holders { object: Object, new: Term },
}

impl Basis {
    /// The basis of a condition's numbers; none where one is of a later version.
    pub(crate) fn told(it: &mls_condition) -> Option<Basis> {
        let (subject, object, parent) = (Subject(it.subject), Object(it.object), Object(it.parent));
        let mode = || Mode::ALL.get(usize::from(it.mode)).copied();
        let [first, second, third] = [&it.first, &it.second, &it.third].map(|term| move || Term::told(term));
        Some(match it.basis {
            MLS_BY_PERMISSION => Basis::Permission { subject, object, mode: mode()? },
            MLS_BY_NO_OBSERVING => Basis::NoObserving { mode: mode()? },
            MLS_BY_EXECUTE => Basis::Execute,
            MLS_BY_TRUST => Basis::Trust { subject },
            MLS_BY_DOMINANCE => Basis::Dominance { first: first()?, second: second()? },
            MLS_BY_EQUALITY => Basis::Equality { first: first()?, second: second()? },
            MLS_BY_WRITING => Basis::Writing { subject, object },
            MLS_BY_ALTERING => Basis::Altering { subject, object },
            MLS_BY_NO_PARENT => Basis::NoParent { object },
            MLS_BY_NUMBER => Basis::Number { object },
            MLS_BY_NO_ROOT => Basis::NoRoot { object },
            MLS_BY_HOLDINGS => Basis::Holdings { subject, current: first()? },
            MLS_BY_RELABELLING => {
                let (current, label, new) = (first()?, second()?, third()?);
                Basis::Relabelling { subject, object, parent, writes: it.also == 1, current, label, new }
            }
            MLS_BY_CHILDREN => Basis::Children { object, new: first()? },
            MLS_BY_PLACE => Basis::Place { object, parent, new: first()?, label: second()?, is_below: it.also == 1 },
            MLS_BY_OBSERVERS => Basis::Observers { object, new: first()? },
            MLS_BY_HOLDERS => Basis::Holders { object, new: first()? },
            _ => return None,
        })
    }
}

#[cfg(test)]
mod tests {
    use super::*;

    /// Conditions with each number, and with other terms than a library of today has.
    #[test]
    fn numbers_of_bases() {
        let term = |kind| mls_term { kind, of: 3, ..mls_term::default() };
        let with = |basis, mode, kind| {
            let (first, second, third) = (term(kind), term(kind), term(kind));
            Basis::told(&mls_condition { basis, mode, first, second, third, ..mls_condition::default() })
        };
        for basis in 0..=255 {
            assert_eq!(with(basis, MLS_READ, MLS_CURRENT_OF_CALLER).is_some(), (1..=17).contains(&basis));
            let has_mode = [MLS_BY_PERMISSION, MLS_BY_NO_OBSERVING].contains(&basis);
            assert_eq!(with(basis, 4, MLS_CURRENT_OF_CALLER).is_some(), (1..=17).contains(&basis) && !has_mode);
            let has_terms = [5, 6].contains(&basis) || (12..=17).contains(&basis);
            for kind in [MLS_NO_TERM, 8] {
                assert_eq!(with(basis, MLS_READ, kind).is_some(), (1..=17).contains(&basis) && !has_terms);
            }
        }
        let kinds = (0..9).map(|kind| Term::told(&term(kind)).map(|it| it.of));
        let wanted = [
            Compared::MaximumOfCaller,
            Compared::CurrentOfCaller,
            Compared::RequestedSecurity,
            Compared::SecurityOfObject(Object(3)),
            Compared::RequestedIntegrity,
            Compared::IntegrityOfObject(Object(3)),
            Compared::IntegrityOfSubject(Subject(3)),
        ];
        assert!(kinds.eq([None].into_iter().chain(wanted.map(Some)).chain([None])));
    }
}
