//! The journal's files as the front finds them: how full the live one is, and whether another was begun.
use crate::ending::End;
use std::fs::{self, File};
use std::io::Read;
use std::os::unix::fs::MetadataExt;
use std::path::{Path, PathBuf};

/// The core takes no longer file, and asks no line without so much room.
pub const LIMIT: u64 = 268_435_456;
const ROOM: u64 = 2_265;
/// It is told when so many percent are used.
const PERCENTS: [u64; 2] = [80, 95];
/// The digits of a number in a file's name.
const DIGITS: usize = 20;

#[derive(Default, Debug)]
pub struct Journal {
    /// Its path, and where that is a link what it leads to.
    path: PathBuf,
    name: String,
    /// Whether it is in segments: none of its files grows to the limit.
    in_segments: bool,
    /// The device and the number on it of the live file, and its bytes.
    node: (u64, u64),
    pub bytes: u64,
    /// The percents that were told.
    told: u64,
}

/// The device of a file, and its number on it.
pub fn node(path: &Path) -> Option<(u64, u64)> {
    fs::symlink_metadata(path).ok().map(|meta| (meta.dev(), meta.ino()))
}

/// The path of the file that belongs to the entry of a number.
pub fn numbered(path: &Path, number: u64) -> PathBuf {
    let mut name = path.as_os_str().to_os_string();
    name.push(format!(".{number:0width$}", width = DIGITS));
    name.into()
}

/// The folder that a file is in.
pub fn folder(path: &Path) -> &Path {
    path.parent().filter(|folder| !folder.as_os_str().is_empty()).unwrap_or_else(|| Path::new("."))
}

/// The numbers of the files that have this path, a dot and a number.
pub fn numbers(path: &Path) -> Vec<u64> {
    let base = path.file_name().unwrap_or_default().to_string_lossy().into_owned();
    let number = |entry: fs::DirEntry| {
        let name = entry.file_name();
        let digits = name.to_str()?.strip_prefix(&base)?.strip_prefix('.')?;
        let is_one = digits.len() == DIGITS && digits.bytes().all(|b| b.is_ascii_digit());
        digits.parse().ok().filter(|_| is_one)
    };
    let mut found: Vec<u64> = fs::read_dir(folder(path)).into_iter().flatten().flatten().filter_map(number).collect();
    found.sort_unstable();
    found
}

/// How many files have a path, or it and a dot and a number, and their bytes. One that has two names counts once.
pub fn size(path: &Path) -> (u64, u64) {
    let live = fs::metadata(path).ok();
    let bytes = |meta: &fs::Metadata| (meta.ino(), meta.len());
    let closed = numbers(path).into_iter().filter_map(|number| fs::metadata(numbered(path, number)).ok());
    let mut files: Vec<(u64, u64)> = closed.chain(live).map(|meta| bytes(&meta)).collect();
    files.dedup();
    (files.len() as u64, files.iter().map(|(_, bytes)| bytes).sum())
}

impl Journal {
    pub fn new(path: &str, in_segments: bool) -> Journal {
        let real = fs::canonicalize(path).unwrap_or_else(|_| path.into());
        let mut journal = Journal { path: real, name: path.to_string(), in_segments, ..Journal::default() };
        journal.look();
        journal
    }

    /// Looks at the live file: whether it is another than before.
    pub fn look(&mut self) -> bool {
        let found = match fs::metadata(&self.path) {
            Ok(found) => found,
            Err(_) => return false,
        };
        let node = (found.dev(), found.ino());
        let is_other = self.node != node;
        (self.node, self.bytes) = (node, found.len());
        is_other
    }

    /// How many bytes it may have; none where it is in segments.
    pub fn limit(&self) -> Option<u64> {
        if self.in_segments {
            None
        } else {
            Some(LIMIT)
        }
    }

    /// What is to be told of how full it is: once for each percent of these that was reached.
    pub fn warning(&mut self) -> Option<String> {
        let limit = self.limit()?;
        let percent = *PERCENTS.iter().rev().find(|percent| self.bytes >= limit / 100 * **percent)?;
        if percent <= self.told {
            return None;
        }
        self.told = percent;
        let (name, left) = (&self.name, limit.saturating_sub(self.bytes));
        Some(format!("{name}: {percent} percent full: {left} of {limit} bytes are left; then mlsd ends with status 6"))
    }

    /// Whether there is no room for a line more.
    pub fn is_full(&self) -> bool {
        self.limit().map_or(false, |limit| self.bytes + ROOM > limit)
    }

    pub fn full(&self) -> End {
        End::full(&self.name, self.bytes, LIMIT)
    }

    /// How many files it has, and their bytes.
    pub fn size(&self) -> (u64, u64) {
        size(&self.path)
    }

    /// The number of the entry that the live file begins with, where it has one.
    pub fn first(&self) -> Option<u64> {
        let mut front = Vec::new();
        File::open(&self.path).ok()?.take(DIGITS as u64 + 1).read_to_end(&mut front).ok()?;
        let end = front.iter().position(|b| *b == b' ')?;
        std::str::from_utf8(&front[..end]).ok()?.parse().ok()
    }

    /// The number of the last file that was closed, below a number.
    pub fn closed(&self, below: u64) -> Option<u64> {
        let is_closed = |number: &u64| *number < below && node(&numbered(&self.path, *number)) != Some(self.node);
        numbers(&self.path).into_iter().rev().find(is_closed)
    }
}

#[cfg(test)]
mod tests {
    use super::*;

    fn journal(bytes: u64) -> Journal {
        Journal { name: "j".to_string(), bytes, ..Journal::default() }
    }

    #[test]
    fn it_is_told_twice_how_full_it_is() {
        let mut journal = journal(0);
        let mut told = |percent: u64| {
            journal.bytes = LIMIT / 100 * percent;
            journal.warning().map(|text| text.split(' ').nth(1).unwrap().to_string())
        };
        let found: Vec<String> = (70..100).filter_map(&mut told).collect();
        assert_eq!(found, ["80", "95"]);
        assert_eq!((told(80), told(96)), (None, None));
    }

    #[test]
    fn a_start_tells_the_last_of_them() {
        let wanted = "j: 95 percent full: 8053118 of 268435456 bytes are left; then mlsd ends with status 6";
        assert_eq!(journal(LIMIT / 100 * 97).warning(), Some(wanted.to_string()));
        assert_eq!(Journal { in_segments: true, ..journal(LIMIT) }.warning(), None);
    }

    #[test]
    fn it_is_full_where_the_core_asks_no_line_more() {
        let rows = [(LIMIT, true), (LIMIT - ROOM + 1, true), (LIMIT - ROOM, false), (0, false)];
        for (bytes, wanted) in rows {
            assert_eq!(journal(bytes).is_full(), wanted, "{bytes}");
        }
        assert!(!Journal { in_segments: true, ..journal(LIMIT) }.is_full());
    }

    #[test]
    fn files_with_numbers() {
        let folder = std::env::temp_dir().join(format!("mlsd-journal-{}", std::process::id()));
        let _ = fs::remove_dir_all(&folder);
        fs::create_dir(&folder).unwrap();
        let path = folder.join("j");
        for (name, text) in [("j", "40 0 0 get-read 1 yes\n"), ("j.00000000000000000007", "7\n"), ("j.start", "x")] {
            fs::write(folder.join(name), text).unwrap();
        }
        fs::write(numbered(&path, 0), "0 1\n").unwrap();
        fs::hard_link(&path, numbered(&path, 40)).unwrap();
        let journal = Journal::new(path.to_str().unwrap(), true);
        assert_eq!((numbers(&path), journal.size()), (vec![0, 7, 40], (3, 28)));
        assert_eq!((journal.first(), journal.closed(u64::MAX), journal.closed(7)), (Some(40), Some(7), Some(0)));
        fs::remove_dir_all(&folder).unwrap();
    }
}
