//! What is told on standard error.
use std::io::Write;

/// Tells a line. If it can't be written, to a full disk or a reader that is gone, nobody is told, and mlsd goes on.
pub fn say(text: impl std::fmt::Display) {
    let _ = std::io::stderr().write_all(format!("mlsd: {text}\n").as_bytes());
}
