//! What a client has sent and what of it is taken, as lines.
use crate::line::LINE_MAX;
use std::io::{self, Read};

const PIECE: usize = 4_096;

#[derive(Default, Debug)]
pub struct Inbox {
    bytes: Vec<u8>,
    /// What is before it was taken.
    at: usize,
    /// The first newline behind it.
    end: Option<usize>,
    /// Whether `at` is in the midst of a line that is too long.
    is_long: bool,
}

#[derive(Debug, PartialEq, Eq)]
pub enum Line<'a> {
    Whole(&'a [u8]),
    Long,
}

fn newline(bytes: &[u8], from: usize) -> Option<usize> {
    bytes[from..].iter().position(|b| *b == b'\n').map(|place| from + place)
}

impl Inbox {
    /// Whether more may be read.
    pub fn has_room(&self) -> bool {
        self.bytes.len() - self.at <= LINE_MAX
    }

    pub fn has_line(&self) -> bool {
        self.end.is_some()
    }

    /// Reads once: how many bytes, and whether a line ends among them.
    pub fn read(&mut self, source: &mut impl Read) -> io::Result<(usize, bool)> {
        let mut piece = [0; PIECE];
        let count = source.read(&mut piece)?;
        let piece = &piece[..count];
        self.bytes.drain(..self.at);
        self.end = self.end.map(|end| end - self.at);
        self.at = 0;
        let before = self.bytes.len();
        self.bytes.extend_from_slice(piece);
        if self.end.is_none() {
            self.end = newline(&self.bytes, before);
            if self.end.is_none() && (self.is_long || self.bytes.len() > LINE_MAX) {
                self.is_long = true;
                self.bytes.clear();
            }
        }
        Ok((count, piece.contains(&b'\n')))
    }

    /// The first line that is whole.
    pub fn line(&self) -> Option<Line<'_>> {
        let end = self.end?;
        let is_whole = !self.is_long && end - self.at <= LINE_MAX;
        Some(if is_whole { Line::Whole(&self.bytes[self.at..end]) } else { Line::Long })
    }

    /// That line is taken.
    pub fn taken(&mut self) {
        if let Some(end) = self.end {
            self.at = end + 1;
            self.is_long = false;
            self.end = newline(&self.bytes, self.at);
        }
        if self.at == self.bytes.len() {
            self.bytes.clear();
            self.at = 0;
        }
    }
}

#[cfg(test)]
mod tests {
    use super::*;

    /// Reads all, in pieces of at most so many bytes, and takes each line at once: short ones as they are.
    fn lines(bytes: &[u8], piece: usize) -> Vec<String> {
        let (mut inbox, mut found) = (Inbox::default(), Vec::new());
        for mut piece in bytes.chunks(piece) {
            while !piece.is_empty() {
                assert!(inbox.has_room());
                inbox.read(&mut piece).unwrap();
                while let Some(line) = inbox.line() {
                    found.push(match line {
                        Line::Whole(bytes) if bytes.len() < 9 => String::from_utf8_lossy(bytes).into_owned(),
                        Line::Whole(bytes) => format!("{} bytes", bytes.len()),
                        Line::Long => "long".to_string(),
                    });
                    inbox.taken();
                }
            }
        }
        assert!(inbox.bytes.len() <= LINE_MAX);
        found
    }

    #[test]
    fn lines_come_whole_however_they_are_sent() {
        let long = |count| [vec![b'x'; count], b"\n".to_vec()].concat();
        let most =
            [&b"a\n\n"[..], &long(LINE_MAX), b"b\n", &long(LINE_MAX + 1), b"c\n", &long(90_000), b"d\nhalf"].concat();
        for piece in [1, 7, PIECE, 99_999] {
            assert_eq!(lines(&most, piece), ["a", "", "20000 bytes", "b", "long", "c", "long", "d"], "{piece}");
        }
        assert_eq!((lines(b"half", 1), lines(b"\n", 1)), (vec![], vec!["".to_string()]));
    }

    #[test]
    fn a_line_stays_until_it_is_taken() {
        let mut inbox = Inbox::default();
        assert_eq!(inbox.read(&mut &b"one\ntwo\nthr"[..]).unwrap(), (11, true));
        assert_eq!((inbox.line(), inbox.line()), (Some(Line::Whole(b"one")), Some(Line::Whole(b"one"))));
        inbox.taken();
        assert_eq!(inbox.read(&mut &b"ee"[..]).unwrap(), (2, false));
        assert_eq!((inbox.line(), inbox.has_line()), (Some(Line::Whole(b"two")), true));
        inbox.taken();
        assert_eq!((inbox.line(), inbox.has_line(), inbox.has_room()), (None, false, true));
        assert_eq!(inbox.read(&mut &b"\n"[..]).unwrap(), (1, true));
        assert_eq!(inbox.line(), Some(Line::Whole(b"three")));
    }
}
