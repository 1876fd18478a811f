//! The calls that take no handle: dominance, the words of numbers, and the version.
use crate::Labels;
use mls_sys::*;
use std::ffi::CStr;
use std::os::raw::{c_char, c_int};

/// Whether a label dominates another, by `mls_dominates`.
pub(crate) fn dominates(a: &mls_label, b: &mls_label) -> bool {
    // SAFETY: the labels are valid, and are only read; the call takes no handle.
    unsafe { mls_dominates(a, b) == 1 }
}

/// The rows of a slice, as calls take them.
pub(super) fn rows(labels: &[Labels]) -> *const mls_labels {
    // (`Labels` is transparent over `mls_labels`)
    labels.as_ptr().cast()
}

/// A word of the library's, which stays where it is.
fn word(call: unsafe extern "C" fn(c_int) -> *const c_char, number: c_int) -> &'static str {
    // SAFETY: the calls of words take every number, and return text that ends with 0 and stays.
    unsafe { CStr::from_ptr(call(number)) }.to_str().unwrap_or("?")
}

pub(crate) fn mode_word(mode: u8) -> &'static str {
    word(mls_mode_word, mode.into())
}

pub(crate) fn reply_word(reply: u16) -> &'static str {
    word(mls_reply_word, reply.into())
}

pub(crate) fn reason_word(reason: u16) -> &'static str {
    word(mls_reason_word, reason.into())
}

/// The line that the program mls prints of a fault, by `mls_fault_text`.
pub(crate) fn fault_text(status: c_int, fault: &mls_fault) -> String {
    let (mut room, mut len) = ([0u8; MLS_FAULT_TEXT], 0);
    // SAFETY: the fault is valid, and the room and the length are this function's alone.
    let status = unsafe { mls_fault_text(status, fault, room.as_mut_ptr().cast(), room.len(), &mut len) };
    let len = if status == MLS_OK { len.min(room.len()) } else { 0 };
    String::from_utf8_lossy(&room[..len]).into_owned()
}

/// The library's version, as MAJOR.MINOR.
pub(crate) fn version() -> &'static str {
    // SAFETY: it is text that ends with 0 and stays.
    unsafe { CStr::from_ptr(mls_version()) }.to_str().unwrap_or("?")
}
