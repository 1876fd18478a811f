#![doc = include_str!("../README.md")]
#![allow(non_camel_case_types)]

use std::os::raw::{c_char, c_int, c_void};
use std::ptr;

/// The version of the header that this file says.
pub const MLS_VERSION_MAJOR: u32 = 0;
pub const MLS_VERSION_MINOR: u32 = 3;

// Statuses.
pub const MLS_OK: c_int = 0;
pub const MLS_ECLOSED: c_int = -1;
pub const MLS_EOPEN: c_int = -2;
pub const MLS_ENOMEM: c_int = -3;
pub const MLS_EINVAL: c_int = -4;
pub const MLS_ESTART: c_int = -5;
pub const MLS_EJOURNAL: c_int = -6;
pub const MLS_EREPLAY: c_int = -7;
pub const MLS_ERANGE: c_int = -8;
pub const MLS_ENOTFOUND: c_int = -9;
pub const MLS_ESTATE: c_int = -10;
pub const MLS_EBUSY: c_int = -11;
pub const MLS_EAGAIN: c_int = -12;

// Actions.
pub const MLS_GET: u8 = 0;
pub const MLS_RELEASE: u8 = 1;
pub const MLS_GIVE: u8 = 2;
pub const MLS_RESCIND: u8 = 3;
pub const MLS_CREATE: u8 = 4;
pub const MLS_DELETE: u8 = 5;
pub const MLS_SUBJECT_LEVEL: u8 = 6;
pub const MLS_OBJECT_LEVEL: u8 = 7;

// Modes of access.
pub const MLS_EXECUTE: u8 = 0;
pub const MLS_READ: u8 = 1;
pub const MLS_APPEND: u8 = 2;
pub const MLS_WRITE: u8 = 3;

// Replies.
pub const MLS_YES: u16 = 0;
pub const MLS_CREATED: u16 = 1;
pub const MLS_UNDEFINED: u16 = 2;
pub const MLS_DENIED: u16 = 16;

// Reasons of denials.
pub const MLS_DISCRETIONARY: u16 = 1;
pub const MLS_SIMPLE: u16 = 2;
pub const MLS_STAR: u16 = 3;
pub const MLS_INTEGRITY: u16 = 4;
pub const MLS_AUTHORITY: u16 = 5;
pub const MLS_COMPATIBILITY: u16 = 6;
pub const MLS_CEILING: u16 = 7;
pub const MLS_ROOT: u16 = 8;
pub const MLS_FULL: u16 = 9;

// Kinds of labels.
pub const MLS_SECURITY_LABEL: c_int = 0;
pub const MLS_INTEGRITY_LABEL: c_int = 1;

// Sets of modes.
pub const MLS_EXECUTES: u8 = 1;
pub const MLS_READS: u8 = 2;
pub const MLS_APPENDS: u8 = 4;
pub const MLS_WRITES: u8 = 8;

/// Object numbers are below this.
pub const MLS_OBJECTS: u16 = 4096;

// What a label that a condition compares is the label of.
pub const MLS_NO_TERM: u16 = 0;
pub const MLS_MAXIMUM_OF_CALLER: u16 = 1;
pub const MLS_CURRENT_OF_CALLER: u16 = 2;
pub const MLS_REQUESTED_SECURITY: u16 = 3;
pub const MLS_SECURITY_OF_OBJECT: u16 = 4;
pub const MLS_REQUESTED_INTEGRITY: u16 = 5;
pub const MLS_INTEGRITY_OF_OBJECT: u16 = 6;
pub const MLS_INTEGRITY_OF_SUBJECT: u16 = 7;

// What a condition rests on.
pub const MLS_BY_PERMISSION: u8 = 1;
pub const MLS_BY_NO_OBSERVING: u8 = 2;
pub const MLS_BY_EXECUTE: u8 = 3;
pub const MLS_BY_TRUST: u8 = 4;
pub const MLS_BY_DOMINANCE: u8 = 5;
pub const MLS_BY_EQUALITY: u8 = 6;
pub const MLS_BY_WRITING: u8 = 7;
pub const MLS_BY_ALTERING: u8 = 8;
pub const MLS_BY_NO_PARENT: u8 = 9;
pub const MLS_BY_NUMBER: u8 = 10;
pub const MLS_BY_NO_ROOT: u8 = 11;
pub const MLS_BY_HOLDINGS: u8 = 12;
pub const MLS_BY_RELABELLING: u8 = 13;
pub const MLS_BY_CHILDREN: u8 = 14;
pub const MLS_BY_PLACE: u8 = 15;
pub const MLS_BY_OBSERVERS: u8 = 16;
pub const MLS_BY_HOLDERS: u8 = 17;

/// No request has more conditions than this.
pub const MLS_CONDITIONS: usize = 4;

/// A handle. Its fields are the library's. It is no `Copy`: an open one is neither copied nor moved.
#[repr(C)]
#[derive(Debug)]
pub struct mls_monitor {
    pub held: u32,
    pub monitor: *mut c_void,
}

/// A closed handle.
pub const MLS_INIT: mls_monitor = mls_monitor { held: 0, monitor: ptr::null_mut() };

/// An office: a monitor that threads share by sessions. Its fields are the library's.
#[repr(C)]
#[derive(Debug)]
pub struct mls_office {
    pub held: u32,
    pub hall: *mut c_void,
    pub serial: u64,
    pub count: u16,
}

/// A closed office.
pub const MLS_OFFICE_INIT: mls_office = mls_office { held: 0, hall: ptr::null_mut(), serial: 0, count: 0 };

/// The handle of a session of an office. Its fields are the library's.
#[repr(C)]
#[derive(Debug)]
pub struct mls_session {
    pub held: u32,
    pub place: *mut c_void,
    pub office: u64,
    pub number: u16,
}

/// A closed handle of a session.
pub const MLS_SESSION_INIT: mls_session = mls_session { held: 0, place: ptr::null_mut(), office: 0, number: 0 };

/// An office has no more sessions than this.
pub const MLS_SESSIONS: u16 = 64;

/// A label: a level below 16, and bit n % 64 of word n / 64 for category n, 0 to 255.
#[repr(C)]
#[derive(Clone, Copy, Debug, Default, PartialEq, Eq, Hash)]
pub struct mls_label {
    pub level: u8,
    pub categories: [u64; 4],
}

/// The labels of something that isn't an object, say a row or a file.
#[repr(C)]
#[derive(Clone, Copy, Debug, Default, PartialEq, Eq, Hash)]
pub struct mls_labels {
    pub security: mls_label,
    pub integrity: mls_label,
}

/// A request. What its action doesn't use isn't looked at.
#[repr(C)]
#[derive(Clone, Copy, Debug, Default, PartialEq, Eq, Hash)]
pub struct mls_request {
    pub action: u8,
    pub mode: u8,
    pub subject: u16,
    pub other: u16,
    pub object: u16,
    pub security: mls_label,
    pub integrity: mls_label,
}

/// An answer: the number of its entry, the reply, and the object that was made where the reply is `MLS_CREATED`, else
/// 0.
#[repr(C)]
#[derive(Clone, Copy, Debug, Default, PartialEq, Eq, Hash)]
pub struct mls_answer {
    pub number: u64,
    pub reply: u16,
    pub object: u16,
}

/// An entry of the journal.
#[repr(C)]
#[derive(Clone, Copy, Debug, Default, PartialEq, Eq, Hash)]
pub struct mls_journal_entry {
    pub number: u64,
    pub session: u32,
    pub reply: u16,
    pub object: u16,
    pub request: mls_request,
}

/// Why a start, a journal or a state is refused: the kind of the fault, a number that says more, and the place.
#[repr(C)]
#[derive(Clone, Copy, Debug, Default, PartialEq, Eq, Hash)]
pub struct mls_fault {
    pub kind: u16,
    pub number: u16,
    pub place: u64,
}

/// The line of a fault is not longer than this.
pub const MLS_FAULT_TEXT: usize = 80;

/// A subject: its labels, and 1 where the star property doesn't bind it, else 0.
#[repr(C)]
#[derive(Clone, Copy, Debug, Default, PartialEq, Eq, Hash)]
pub struct mls_subject_info {
    pub maximum: mls_label,
    pub current: mls_label,
    pub integrity: mls_label,
    pub trusted: u8,
}

/// An object: its labels, and its parent, 0 where it is the root.
#[repr(C)]
#[derive(Clone, Copy, Debug, Default, PartialEq, Eq, Hash)]
pub struct mls_object_info {
    pub security: mls_label,
    pub integrity: mls_label,
    pub parent: u16,
}

/// A subject and an object: the modes that the matrix permits, and those in which it is held.
#[repr(C)]
#[derive(Clone, Copy, Debug, Default, PartialEq, Eq, Hash)]
pub struct mls_pair_info {
    pub permitted: u8,
    pub held: u8,
}

/// How many entries, subjects and active objects there are, and the number that the next object will have,
/// `MLS_OBJECTS` where there is none.
#[repr(C)]
#[derive(Clone, Copy, Debug, Default, PartialEq, Eq, Hash)]
pub struct mls_counts {
    pub entries: u64,
    pub subjects: u16,
    pub objects: u16,
    pub next: u16,
}

/// A label that a condition compares: what it is the label of, the number of the object or the subject, else 0, and the
/// label.
#[repr(C)]
#[derive(Clone, Copy, Debug, Default, PartialEq, Eq, Hash)]
pub struct mls_term {
    pub kind: u16,
    pub of: u16,
    pub label: mls_label,
}

/// A condition of a request: the reason of the denial where it is the first that fails, 1 where it holds, and what it
/// rests on. The fields that its basis doesn't have are 0.
#[repr(C)]
#[derive(Clone, Copy, Debug, Default, PartialEq, Eq, Hash)]
pub struct mls_condition {
    pub reason: u16,
    pub holds: u8,
    pub also: u8,
    pub basis: u8,
    pub mode: u8,
    pub subject: u16,
    pub object: u16,
    pub parent: u16,
    pub first: mls_term,
    pub second: mls_term,
    pub third: mls_term,
}

/// The remedy of a get: 1 and the least current label that the subject can take now after which the get is granted; 0
/// where there is none.
#[repr(C)]
#[derive(Clone, Copy, Debug, Default, PartialEq, Eq, Hash)]
pub struct mls_remedy {
    pub there: u8,
    pub label: mls_label,
}

extern "C" {
    pub fn mls_open(m: *mut mls_monitor, start: *const u8, len: usize, fault: *mut mls_fault) -> c_int;
    pub fn mls_resume(
        m: *mut mls_monitor,
        start: *const u8,
        len: usize,
        journal: *const u8,
        journal_len: usize,
        fault: *mut mls_fault,
    ) -> c_int;
    pub fn mls_open_state(
        m: *mut mls_monitor,
        start: *const u8,
        len: usize,
        state: *const u8,
        state_len: usize,
        number: u64,
        fault: *mut mls_fault,
    ) -> c_int;
    pub fn mls_submit(m: *mut mls_monitor, session: u32, request: *const mls_request, answer: *mut mls_answer)
        -> c_int;
    pub fn mls_check(m: *mut mls_monitor, subject: u16, object: u16, mode: u8) -> c_int;
    pub fn mls_decide(m: *mut mls_monitor, request: *const mls_request, answer: *mut mls_answer) -> c_int;
    pub fn mls_entries(m: *mut mls_monitor) -> u64;
    pub fn mls_entry(m: *mut mls_monitor, n: u64, entry: *mut mls_journal_entry) -> c_int;
    pub fn mls_entry_text(m: *mut mls_monitor, n: u64, buf: *mut c_char, cap: usize, len: *mut usize) -> c_int;
    pub fn mls_forget(m: *mut mls_monitor, n: u64) -> c_int;
    pub fn mls_forgotten(m: *mut mls_monitor) -> u64;
    pub fn mls_subject(m: *mut mls_monitor, name: *const u8, len: usize, subject: *mut u16) -> c_int;
    pub fn mls_object(m: *mut mls_monitor, name: *const u8, len: usize, object: *mut u16) -> c_int;
    pub fn mls_read_label(
        m: *mut mls_monitor,
        kind: c_int,
        text: *const u8,
        len: usize,
        label: *mut mls_label,
    ) -> c_int;
    pub fn mls_write_label(
        m: *mut mls_monitor,
        kind: c_int,
        label: *const mls_label,
        buf: *mut c_char,
        cap: usize,
        len: *mut usize,
    ) -> c_int;
    pub fn mls_dominates(a: *const mls_label, b: *const mls_label) -> c_int;
    pub fn mls_decide_label(
        m: *mut mls_monitor,
        subject: u16,
        mode: u8,
        security: *const mls_label,
        integrity: *const mls_label,
        reply: *mut u16,
    ) -> c_int;
    pub fn mls_decide_labels(
        m: *mut mls_monitor,
        subject: u16,
        mode: u8,
        rows: *const mls_labels,
        n: usize,
        replies: *mut u16,
    ) -> c_int;
    pub fn mls_read_subject(m: *mut mls_monitor, subject: u16, info: *mut mls_subject_info) -> c_int;
    pub fn mls_read_object(m: *mut mls_monitor, object: u16, info: *mut mls_object_info) -> c_int;
    pub fn mls_read_pair(m: *mut mls_monitor, subject: u16, object: u16, info: *mut mls_pair_info) -> c_int;
    pub fn mls_count(m: *mut mls_monitor, counts: *mut mls_counts) -> c_int;
    pub fn mls_next_child(m: *mut mls_monitor, object: u16, above: u16, child: *mut u16) -> c_int;
    pub fn mls_subject_name(m: *mut mls_monitor, subject: u16, buf: *mut c_char, cap: usize, len: *mut usize) -> c_int;
    pub fn mls_object_name(m: *mut mls_monitor, object: u16, buf: *mut c_char, cap: usize, len: *mut usize) -> c_int;
    pub fn mls_explain(
        m: *mut mls_monitor,
        request: *const mls_request,
        conditions: *mut mls_condition,
        cap: usize,
        count: *mut usize,
        remedy: *mut mls_remedy,
    ) -> c_int;
    pub fn mls_state_start(
        m: *mut mls_monitor,
        buf: *mut c_char,
        cap: usize,
        len: *mut usize,
        numbers: *mut u16,
    ) -> c_int;
    pub fn mls_state_text(m: *mut mls_monitor, buf: *mut c_char, cap: usize, len: *mut usize) -> c_int;
    pub fn mls_close(m: *mut mls_monitor);
    pub fn mls_office_open(
        office: *mut mls_office,
        m: *mut mls_monitor,
        sessions: *mut mls_session,
        count: u16,
    ) -> c_int;
    pub fn mls_office_close(office: *mut mls_office, sessions: *mut mls_session, m: *mut mls_monitor) -> c_int;
    pub fn mls_office_drop(office: *mut mls_office);
    pub fn mls_session_drop(s: *mut mls_session);
    pub fn mls_session_submit(s: *mut mls_session, request: *const mls_request, answer: *mut mls_answer) -> c_int;
    pub fn mls_session_check(s: *mut mls_session, subject: u16, object: u16, mode: u8, held: *mut c_int) -> c_int;
    pub fn mls_session_decide(s: *mut mls_session, request: *const mls_request, answer: *mut mls_answer) -> c_int;
    pub fn mls_session_see(s: *mut mls_session, n: u64) -> c_int;
    pub fn mls_session_changes(s: *mut mls_session, count: *mut u64) -> c_int;
    pub fn mls_session_meet(s: *mut mls_session, other: *mut mls_session) -> c_int;
    pub fn mls_session_entry_text(
        s: *mut mls_session,
        from: u64,
        buf: *mut c_char,
        cap: usize,
        len: *mut usize,
        next: *mut u64,
    ) -> c_int;
    pub fn mls_session_forget(s: *mut mls_session, n: u64) -> c_int;
    pub fn mls_session_decide_label(
        s: *mut mls_session,
        subject: u16,
        mode: u8,
        security: *const mls_label,
        integrity: *const mls_label,
        reply: *mut u16,
    ) -> c_int;
    pub fn mls_session_decide_labels(
        s: *mut mls_session,
        subject: u16,
        mode: u8,
        rows: *const mls_labels,
        n: usize,
        replies: *mut u16,
    ) -> c_int;
    pub fn mls_session_explain(
        s: *mut mls_session,
        request: *const mls_request,
        conditions: *mut mls_condition,
        cap: usize,
        count: *mut usize,
        remedy: *mut mls_remedy,
    ) -> c_int;
    pub fn mls_session_read_subject(s: *mut mls_session, subject: u16, info: *mut mls_subject_info) -> c_int;
    pub fn mls_session_read_object(s: *mut mls_session, object: u16, info: *mut mls_object_info) -> c_int;
    pub fn mls_session_read_pair(s: *mut mls_session, subject: u16, object: u16, info: *mut mls_pair_info) -> c_int;
    pub fn mls_session_count(s: *mut mls_session, counts: *mut mls_counts) -> c_int;
    pub fn mls_session_next_child(s: *mut mls_session, object: u16, above: u16, child: *mut u16) -> c_int;
    pub fn mls_fault_text(
        status: c_int,
        fault: *const mls_fault,
        buf: *mut c_char,
        cap: usize,
        len: *mut usize,
    ) -> c_int;
    pub fn mls_version() -> *const c_char;
    pub fn mls_status_word(status: c_int) -> *const c_char;
    pub fn mls_action_word(action: c_int) -> *const c_char;
    pub fn mls_mode_word(mode: c_int) -> *const c_char;
    pub fn mls_reply_word(reply: c_int) -> *const c_char;
    pub fn mls_reason_word(reason: c_int) -> *const c_char;
}
