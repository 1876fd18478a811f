//! What a monitor's state holds.
use crate::monitor::{ascii, found, unknown};
use crate::{Label, Modes, Monitor, Object, Subject};
use mls_sys::*;
use std::iter;

/// A subject.
#[derive(Clone, Copy, Debug, PartialEq, Eq, Hash)]
pub struct SubjectInfo {
    /// Its maximum security label.
    pub maximum: Label,
    /// Its current security label.
    pub current: Label,
    /// Its integrity label.
    pub integrity: Label,
    /// Whether the star property doesn't bind it.
    pub is_trusted: bool,
}

/// An object.
#[derive(Clone, Copy, Debug, PartialEq, Eq, Hash)]
pub struct ObjectInfo {
    /// Its security label.
    pub security: Label,
    /// Its integrity label.
    pub integrity: Label,
    /// Its parent; the root, object 0, has none.
    pub parent: Option<Object>,
}

/// A subject and an object.
#[derive(Clone, Copy, Debug, PartialEq, Eq, Hash)]
pub struct PairInfo {
    /// The modes that the matrix permits.
    pub permitted: Modes,
    /// The modes in which the subject holds the object.
    pub held: Modes,
}

/// How much there is.
#[derive(Clone, Copy, Debug, PartialEq, Eq, Hash)]
pub struct Counts {
    /// The entries of the journal.
    pub entries: u64,
    /// The subjects: they have the numbers below this.
    pub subjects: u16,
    /// The active objects.
    pub objects: u16,
    /// The object that would be made next, where a number is left.
    pub next: Option<Object>,
}

impl SubjectInfo {
    pub(crate) fn told(it: mls_subject_info) -> SubjectInfo {
        let [maximum, current, integrity] = [it.maximum, it.current, it.integrity].map(Label::told);
        SubjectInfo { maximum, current, integrity, is_trusted: it.trusted == 1 }
    }
}

impl ObjectInfo {
    pub(crate) fn told(object: Object, it: mls_object_info) -> ObjectInfo {
        let parent = (object.0 != 0).then_some(Object(it.parent));
        ObjectInfo { security: Label::told(it.security), integrity: Label::told(it.integrity), parent }
    }
}

impl PairInfo {
    pub(crate) fn told(it: mls_pair_info) -> PairInfo {
        PairInfo { permitted: Modes::told(it.permitted), held: Modes::told(it.held) }
    }
}

impl Counts {
    pub(crate) fn told(it: mls_counts) -> Counts {
        let next = (it.next < MLS_OBJECTS).then_some(Object(it.next));
        Counts { entries: it.entries, subjects: it.subjects, objects: it.objects, next }
    }
}

impl Monitor {
    /// A subject; none where there is no such subject.
    pub fn subject_info(&self, subject: Subject) -> Option<SubjectInfo> {
        found("mls_read_subject", self.handle.read_subject(subject.0)).map(SubjectInfo::told)
    }

    /// An object; none where it isn't active.
    pub fn object_info(&self, object: Object) -> Option<ObjectInfo> {
        found("mls_read_object", self.handle.read_object(object.0)).map(|it| ObjectInfo::told(object, it))
    }

    /// A subject and an object; none where either isn't there.
    pub fn pair(&self, subject: Subject, object: Object) -> Option<PairInfo> {
        found("mls_read_pair", self.handle.read_pair(subject.0, object.0)).map(PairInfo::told)
    }

    /// How much there is.
    pub fn counts(&self) -> Counts {
        match self.handle.count() {
            Ok(counts) => Counts::told(counts),
            Err(status) => unknown("mls_count", status),
        }
    }

    /// The children of an object, by their numbers; none where it isn't active.
    pub fn children(&self, object: Object) -> impl Iterator<Item = Object> + '_ {
        let above = move |n| found("mls_next_child", self.handle.next_child(object.0, n)).map(Object);
        iter::successors(above(0), move |last| above(last.0))
    }

    /// The name that the start has for a subject's number.
    pub fn subject_name(&self, subject: Subject) -> Option<String> {
        found("mls_subject_name", self.handle.subject_name(subject.0)).map(ascii)
    }

    /// The name that the start has for an object's number. An object that was made later has none, or that of a deleted
    /// one whose number it has.
    pub fn object_name(&self, object: Object) -> Option<String> {
        found("mls_object_name", self.handle.object_name(object.0)).map(ascii)
    }
}
