//! The sessions file: `SESSION WHAT TIME entry N ..` for what begins, ends or is noted; session 0 is the front itself,
//! and N the next entry's number then. A session's number is used once, over all starts: the file has it on the disk
//! before anything of that session is said or asked.
//!
//! Where the journal is in segments, the file is closed with the journal's, and another begins with the next number.
use crate::clock;
use crate::ending::End;
use crate::journal::{folder, node, numbered, numbers};
use crate::say::say;
use std::fs::{self, File, OpenOptions, Permissions};
use std::io::{self, BufRead, BufReader, Read, Seek, SeekFrom, Write};
use std::os::unix::fs::{OpenOptionsExt, PermissionsExt};
use std::path::{Path, PathBuf};

/// The core takes none above it.
const LAST: u32 = u32::MAX - 1;
/// The mode of a file, and of one that was closed.
const PRIVATE: u32 = 0o600;
const CLOSED: u32 = 0o400;

#[derive(Debug)]
pub struct Sessions {
    path: PathBuf,
    file: File,
    lines: String,
    last: u32,
    /// The next entry's number when its first line was written; the greatest number where it has none.
    since: u64,
    must_sync: bool,
    pub syncs: u64,
}

/// The last number that a line says was used: one that was opened, or the one before the next.
fn used(line: &[u8]) -> u32 {
    let words: Vec<&str> = match std::str::from_utf8(line) {
        Ok(line) => line.split(' ').collect(),
        Err(_) => return 0,
    };
    match words[..] {
        [session, "opened", ..] => session.parse().unwrap_or(0),
        ["0", "started" | "ended" | "begun", _, "entry", _, "next", next, ..] => {
            next.parse().unwrap_or(0u32).saturating_sub(1)
        }
        _ => 0,
    }
}

/// The next entry's number when a line was written.
fn entry(line: &[u8]) -> Option<u64> {
    let mut words = std::str::from_utf8(line).ok()?.split(' ').skip(3);
    let is_one = words.next() == Some("entry");
    words.next()?.parse().ok().filter(|_| is_one)
}

/// Syncs the folder of a file.
fn sync_folder(path: &Path) -> io::Result<()> {
    File::open(folder(path))?.sync_all()
}

impl Sessions {
    pub fn open(name: &str) -> Result<Sessions, End> {
        let own = |error| End::own(name, error);
        let path = PathBuf::from(name);
        let mut options = OpenOptions::new();
        let mut file = options.read(true).append(true).create(true).mode(PRIVATE).open(&path).map_err(own)?;
        sync_folder(&path).map_err(|error| End::failed(name, error))?;
        let (mut last, mut since) = (0, None);
        for line in BufReader::new(&file).split(b'\n') {
            let line = line.map_err(own)?;
            last = last.max(used(&line));
            since = since.or_else(|| entry(&line));
        }
        let end = last_byte(&mut file).map_err(own)?;
        // (an end that a crash has torn becomes a line of its own)
        let lines = String::from(if end == b'\n' { "" } else { "\n" });
        mend(&path);
        Ok(Sessions { path, file, lines, last, since: since.unwrap_or(u64::MAX), must_sync: true, syncs: 0 })
    }

    /// A number that was never used, where there is one.
    pub fn next(&mut self) -> Option<u32> {
        let next = self.last.checked_add(1).filter(|next| *next <= LAST)?;
        self.last = next;
        Some(next)
    }

    /// A line on a session; one that must be on the disk before the core is asked anything more.
    pub fn tell_first(&mut self, session: u32, what: &str, entries: u64, more: &str) {
        self.tell(session, what, entries, more);
        self.must_sync = true;
    }

    pub fn tell(&mut self, session: u32, what: &str, entries: u64, more: &str) {
        self.since = self.since.min(entries);
        let space = if more.is_empty() { "" } else { " " };
        self.lines.push_str(&format!("{session} {what} {} entry {entries}{space}{more}\n", clock::now()));
    }

    /// A line on the front itself, which says what number comes next: a file may begin with it.
    pub fn tell_front(&mut self, what: &str, entries: u64, more: &str) {
        let next = u64::from(self.last) + 1;
        let space = if more.is_empty() { "" } else { " " };
        self.tell_first(0, what, entries, &format!("next {next}{space}{more}"));
    }

    fn name(&self) -> String {
        self.path.to_string_lossy().into_owned()
    }

    pub fn flush(&mut self) -> Result<(), End> {
        if !self.lines.is_empty() {
            self.file.write_all(self.lines.as_bytes()).map_err(|error| End::own(&self.name(), error))?;
            self.lines.clear();
        }
        if self.must_sync {
            // (what is read of it now need not be on the disk, and numbers of sessions rest on it)
            self.file.sync_data().map_err(|error| End::failed(&self.name(), error))?;
            self.syncs += 1;
        }
        self.must_sync = false;
        Ok(())
    }

    /// Whether it has lines from before an entry.
    pub fn is_before(&self, entry: u64) -> bool {
        self.since < entry
    }

    /// How many files there are, and their bytes.
    pub fn size(&self) -> (u64, u64) {
        crate::journal::size(&self.path)
    }

    /// Closes the file with the journal's file that begins with an entry, and begins another before the next entry. The
    /// name is never missing: what is left of a step is used again.
    pub fn close(&mut self, closed: u64, entries: u64) -> Result<(), End> {
        self.must_sync = true;
        self.flush()?;
        let own = |error| End::own(&self.path.to_string_lossy(), error);
        let kept = numbered(&self.path, closed);
        match fs::hard_link(&self.path, &kept) {
            Err(error) if error.kind() == io::ErrorKind::AlreadyExists && node(&kept) != node(&self.path) => {
                say(format!("{}: is there already: the sessions file goes on", kept.display()));
                return Ok(());
            }
            Err(error) if error.kind() != io::ErrorKind::AlreadyExists => return Err(own(error)),
            _ => (),
        }
        let beside = beside(&self.path);
        let _ = fs::remove_file(&beside);
        let mut options = OpenOptions::new();
        let file = options.read(true).append(true).create_new(true).mode(PRIVATE).open(&beside).map_err(own)?;
        self.file = file;
        self.since = entries;
        self.tell_front("begun", entries, "");
        self.flush()?;
        fs::rename(&beside, &self.path).map_err(|error| End::own(&self.name(), error))?;
        sync_folder(&self.path).map_err(|error| End::failed(&self.name(), error))?;
        let _ = fs::set_permissions(&kept, Permissions::from_mode(CLOSED));
        Ok(())
    }
}

/// The file that is begun, as long as it hasn't its name.
fn beside(path: &Path) -> PathBuf {
    let mut name = path.as_os_str().to_os_string();
    name.push(".new");
    name.into()
}

fn last_byte(file: &mut File) -> io::Result<u8> {
    let mut end = [b'\n'];
    if file.metadata()?.len() > 0 {
        file.seek(SeekFrom::End(-1))?;
        file.read_exact(&mut end)?;
    }
    Ok(end[0])
}

/// Does what a kill has left undone: nobody writes a file that was closed, and what was being begun goes.
fn mend(path: &Path) {
    let _ = fs::remove_file(beside(path));
    let closed = numbers(path).into_iter().map(|number| numbered(path, number));
    for file in closed.filter(|file| node(file) != node(path)) {
        let mode = fs::metadata(&file).map_or(0, |meta| meta.permissions().mode());
        if mode & 0o222 != 0 {
            let _ = fs::set_permissions(&file, Permissions::from_mode(CLOSED));
        }
    }
}

#[cfg(test)]
mod tests {
    use super::*;

    #[test]
    fn no_number_is_used_twice() {
        let path = std::env::temp_dir().join(format!("mlsd-sessions-{}", std::process::id()));
        let path = path.to_str().unwrap();
        let _ = std::fs::remove_file(path);
        for wanted in 1..4 {
            let mut sessions = Sessions::open(path).unwrap();
            assert_eq!(sessions.next(), Some(wanted));
            sessions.tell_first(wanted, "opened", 7, "uid 0 pid 1 as ann");
            sessions.tell(wanted, "note", 7, "9 opened");
            sessions.flush().unwrap();
            let mut torn = OpenOptions::new().append(true).open(path).unwrap();
            torn.write_all(b"88 ope").unwrap();
        }
        let text = std::fs::read_to_string(path).unwrap();
        std::fs::remove_file(path).unwrap();
        let words: Vec<&str> = text.lines().map(|line| line.split(' ').nth(1).unwrap()).collect();
        assert_eq!(words, ["opened", "note", "ope", "opened", "note", "ope", "opened", "note", "ope"]);
    }

    #[test]
    fn a_line_tells_what_was_used() {
        let rows: [(&[u8], u32); 8] = [
            (b"31 opened 2026-11-27T11:12:31.101Z entry 176 uid 101 pid 28287 as ann", 31),
            (b"31 closed 2026-11-27T11:12:31.101Z entry 176", 0),
            (b"31 note 2026-11-27T11:12:31.101Z entry 176 next 99", 0),
            (b"0 ended 2026-11-27T11:12:31.101Z entry 176 next 45 core exit status: 0", 44),
            (b"0 started 2026-11-27T11:12:31.101Z entry 176 next 1 pid 7 core 8", 0),
            (b"0 begun 2026-11-27T11:12:31.101Z entry 176 next 45", 44),
            (b"4294967295 opened", 4_294_967_295),
            (b"\0\0\0 opened", 0),
        ];
        for (line, wanted) in rows {
            assert_eq!(used(line), wanted);
        }
    }

    #[test]
    fn a_file_is_closed_and_another_goes_on() {
        let folder = std::env::temp_dir().join(format!("mlsd-closed-{}", std::process::id()));
        let _ = fs::remove_dir_all(&folder);
        fs::create_dir(&folder).unwrap();
        let path = folder.join("s");
        let name = path.to_str().unwrap();
        let mut sessions = Sessions::open(name).unwrap();
        sessions.tell_front("started", 3, "pid 1 core 2");
        for (closed, entries) in [(0, 40), (40, 80)] {
            let next = sessions.next().unwrap();
            sessions.tell_first(next, "opened", entries - 1, "uid 0 pid 1 as ann");
            sessions.flush().unwrap();
            assert!(sessions.is_before(entries) && !sessions.is_before(closed));
            sessions.close(closed, entries).unwrap();
        }
        assert_eq!((numbers(&path), sessions.size().0), (vec![0, 40], 3));
        // (a kill behind the link, and one before the mode is set)
        fs::hard_link(&path, numbered(&path, 80)).unwrap();
        fs::set_permissions(numbered(&path, 40), Permissions::from_mode(0o600)).unwrap();
        fs::write(folder.join("s.new"), "x").unwrap();
        let mut sessions = Sessions::open(name).unwrap();
        assert_eq!((sessions.next(), sessions.since), (Some(3), 80));
        sessions.close(80, 90).unwrap();
        sessions.close(80, 90).unwrap();
        let mode = |number| fs::metadata(numbered(&path, number)).unwrap().permissions().mode() & 0o777;
        assert_eq!([0, 40, 80].map(mode), [0o400; 3]);
        assert_eq!((Sessions::open(name).unwrap().next(), folder.join("s.new").exists()), (Some(4), false));
        fs::remove_dir_all(&folder).unwrap();
    }
}
