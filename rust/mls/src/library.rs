//! Which version of the library this crate is for, and what is said of another.
use crate::handle::version;
use mls_sys::{MLS_VERSION_MAJOR, MLS_VERSION_MINOR};
use std::{fmt, fs};

/// The version of a library that this crate isn't for. Its text has both versions, and the file that the library was
/// loaded from, if the system says so; a library that was linked statically is in the program's own file.
#[derive(Clone, Copy, PartialEq, Eq, Hash)]
pub struct OtherVersion(pub(crate) &'static str);

impl OtherVersion {
    /// The version that the library has, as MAJOR.MINOR.
    pub fn found(&self) -> &'static str {
        self.0
    }
}

impl fmt::Display for OtherVersion {
    fn fmt(&self, f: &mut fmt::Formatter<'_>) -> fmt::Result {
        let maps = fs::read_to_string("/proc/self/maps").unwrap_or_default();
        // (the text of the version is a constant of the library's)
        match file_at(&maps, version().as_ptr() as usize) {
            Some(file) => write!(f, "libmls of {file}")?,
            None => f.write_str("libmls")?,
        }
        write!(f, " has version {}, and this crate wants {}", self.0, wanted())
    }
}

/// As it is displayed: a program that ends with an error shows this.
impl fmt::Debug for OtherVersion {
    fn fmt(&self, f: &mut fmt::Formatter<'_>) -> fmt::Result {
        fmt::Display::fmt(self, f)
    }
}

/// The version that is wanted, as MAJOR.MINOR.
fn wanted() -> String {
    format!("{MLS_VERSION_MAJOR}.{MLS_VERSION_MINOR}")
}

/// Whether the library has the version that this crate is for. The next minor version may add numbers that this crate
/// has no names for.
pub(crate) fn is_known(version: &'static str) -> Result<(), OtherVersion> {
    if version == wanted() {
        Ok(())
    } else {
        Err(OtherVersion(version))
    }
}

/// The file that an address is mapped from, by the lines of /proc/self/maps.
fn file_at(maps: &str, address: usize) -> Option<&str> {
    maps.lines().find_map(|line| {
        let (range, rest) = line.split_once(' ')?;
        let (first, end) = range.split_once('-')?;
        let (first, end) = (usize::from_str_radix(first, 16).ok()?, usize::from_str_radix(end, 16).ok()?);
        let file = &rest[rest.find('/')?..];
        (first..end).contains(&address).then(|| file)
    })
}

#[cfg(test)]
mod tests {
    use super::*;

    #[test]
    fn versions() {
        assert_eq!(is_known("0.3"), Ok(()));
        for other in ["0.2", "0.4", "0.30", "1.3", "1.0", "0", "", "0.", "?", "0.3.0", "-0.3"] {
            assert_eq!(is_known(other), Err(OtherVersion(other)));
        }
    }

    #[test]
    fn files() {
        let maps = "1000-2000 r--p 00000000 fd:01 7    /bin/a b\n2000-3000 rw-p 00000000 00:00 0\n3000-4000 r-xp 0 fd:01 8 /c\n";
        for (address, file) in [(0xfff, None), (0x1000, Some("/bin/a b")), (0x2000, None), (0x3fff, Some("/c"))] {
            assert_eq!(file_at(maps, address), file);
        }
    }

    #[test]
    fn another_version_is_named_with_its_file() {
        let other = OtherVersion("0.9");
        let told = other.to_string();
        let (front, end) = told.split_once(" has ").unwrap();
        assert!(front.starts_with("libmls of /"), "{told}");
        assert_eq!((end, other.found()), ("version 0.9, and this crate wants 0.3", "0.9"));
        assert_eq!(format!("{:?}", crate::OpenError::Library(other)), format!("Library({told})"));
    }
}
