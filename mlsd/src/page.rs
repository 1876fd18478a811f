//! A page that clients have by a descriptor and can only read: one number, which is raised before each answer of a
//! request that took something away.
use crate::sys;
use std::io;
use std::os::unix::io::OwnedFd;
use std::sync::atomic::{AtomicU64, Ordering};

#[derive(Debug)]
pub struct Page {
    pub file: OwnedFd,
    number: &'static AtomicU64,
}

impl Page {
    pub fn new() -> io::Result<Page> {
        let (file, number) = sys::shared_number()?;
        Ok(Page { file, number })
    }

    pub fn raise(&self) {
        self.number.fetch_add(1, Ordering::SeqCst);
    }
}

#[cfg(test)]
mod tests {
    use super::*;
    use std::fs::{File, OpenOptions};
    use std::io::Write;
    use std::os::unix::fs::FileExt;
    use std::os::unix::io::AsRawFd;

    #[test]
    fn who_has_it_reads_it_and_does_not_write_it() {
        let page = Page::new().unwrap();
        let path = format!("/proc/self/fd/{}", page.file.as_raw_fd());
        let file = File::open(&path).unwrap();
        let read = || {
            let mut bytes = [0; 8];
            file.read_exact_at(&mut bytes, 0).unwrap();
            u64::from_ne_bytes(bytes)
        };
        let first = read();
        page.raise();
        assert_eq!((first, read(), file.metadata().unwrap().len()), (1, 2, 4_096));
        let written = OpenOptions::new().write(true).open(&path).and_then(|mut file| file.write_all(b"x"));
        assert!(written.is_err() && read() == 2);
        assert!(file.set_len(8_192).is_err());
    }
}
