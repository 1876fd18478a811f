//! The names of the start and their numbers. The core is asked in numbers alone, so that `#0`, `ann` and `  ann` are
//! one.
use std::collections::HashMap;

pub const MODES: [&str; 4] = ["execute", "read", "append", "write"];

/// An access, by numbers; the mode by its place in `MODES`.
#[derive(Clone, Copy, Debug, PartialEq, Eq, PartialOrd, Ord, Hash)]
pub struct Triple {
    pub subject: u16,
    pub object: u16,
    pub mode: u8,
}

impl Triple {
    /// What asks the core to release it.
    pub fn release(self) -> String {
        format!("#{} release {} #{}", self.subject, MODES[usize::from(self.mode)], self.object)
    }
}

#[derive(Default, Debug)]
pub struct Names {
    /// By number.
    pub subjects: Vec<String>,
    objects: Vec<String>,
    numbers_of_subjects: HashMap<String, u16>,
    numbers_of_objects: HashMap<String, u16>,
}

/// The number in `#N`: decimal, without leading zeros, at most 65535.
fn plain_number(digits: &str) -> Option<u16> {
    let is_plain = digits.bytes().all(|b| b.is_ascii_digit()) && (digits.len() == 1 || !digits.starts_with('0'));
    if is_plain {
        digits.parse().ok()
    } else {
        None
    }
}

fn number(names: &HashMap<String, u16>, token: &str) -> Option<u16> {
    match token.strip_prefix('#') {
        Some(digits) => plain_number(digits),
        None => names.get(token).copied(),
    }
}

impl Names {
    pub fn subject(&self, token: &str) -> Option<u16> {
        number(&self.numbers_of_subjects, token)
    }

    pub fn object(&self, token: &str) -> Option<u16> {
        number(&self.numbers_of_objects, token)
    }

    /// What START calls an object, or else `#` and its number.
    pub fn object_name(&self, object: u16) -> String {
        match self.objects.get(usize::from(object)) {
            Some(name) => name.clone(),
            None => format!("#{object}"),
        }
    }

    /// The number of a subject that START has by this name.
    pub fn subject_named(&self, name: &str) -> Option<u16> {
        self.numbers_of_subjects.get(name).copied()
    }

    /// Takes the next name of a kind; false where it isn't the next, or is there already.
    fn add(&mut self, is_subject: bool, place: &str, name: &str) -> bool {
        let numbers = if is_subject { &mut self.numbers_of_subjects } else { &mut self.numbers_of_objects };
        let next = numbers.len() as u16;
        let is_next = plain_number(place) == Some(next) && numbers.insert(name.to_string(), next).is_none();
        if is_next {
            let names = if is_subject { &mut self.subjects } else { &mut self.objects };
            names.push(name.to_string());
        }
        is_next
    }
}

/// What the core says before its first answer: names, what is held, and how many entries the journal has.
#[derive(Default, Debug)]
pub struct Opening {
    pub names: Names,
    /// What is held, and whether START opens with it.
    pub held: Vec<(Triple, bool)>,
    pub entries: u64,
}

impl Opening {
    /// Takes a line: whether it is the last, or nothing where it is none of an opening.
    pub fn take(&mut self, line: &str) -> Option<bool> {
        let words: Vec<&str> = line.split(' ').collect();
        let access = |subject: &str, mode: &str, object: &str| {
            let mode = MODES.iter().position(|m| *m == mode)? as u8;
            Some(Triple { subject: plain_number(subject)?, object: plain_number(object)?, mode })
        };
        let is_taken = match words[..] {
            ["ready", entries] => {
                self.entries = entries.parse().ok()?;
                return Some(true);
            }
            [kind @ ("subject" | "object"), place, name] => self.names.add(kind == "subject", place, name),
            ["access", subject, mode, object] => {
                self.held.push((access(subject, mode, object)?, false));
                true
            }
            ["access", subject, mode, object, "start"] => {
                self.held.push((access(subject, mode, object)?, true));
                true
            }
            _ => false,
        };
        if is_taken {
            Some(false)
        } else {
            None
        }
    }
}

#[cfg(test)]
pub mod tests {
    use super::*;

    /// The names of the standard start.
    pub fn standard() -> Names {
        let mut opening = Opening::default();
        for (k, name) in ["ann", "bob", "sec", "aud"].iter().enumerate() {
            assert_eq!(opening.take(&format!("subject {k} {name}")), Some(false));
        }
        for (k, name) in ["root", "plans", "memo", "tool"].iter().enumerate() {
            assert_eq!(opening.take(&format!("object {k} {name}")), Some(false));
        }
        opening.names
    }

    #[test]
    fn a_subject_is_a_name_or_a_plain_number() {
        let names = standard();
        let rows = [("ann", Some(0)), ("#0", Some(0)), ("#65535", Some(65_535)), ("#65536", None), ("#00", None)];
        let more =
            [("#", None), ("#+0", None), ("#-0", None), ("Ann", None), ("", None), ("root", None), ("#aud", None)];
        for (token, wanted) in rows.iter().chain(&more) {
            assert_eq!(names.subject(token), *wanted, "{token}");
        }
        assert_eq!((names.object_name(2), names.object_name(9)), ("memo".to_string(), "#9".to_string()));
        assert_eq!((names.object("memo"), names.object("ann"), names.subject_named("#0")), (Some(2), None, None));
    }

    #[test]
    fn an_opening_has_its_lines_in_their_order() {
        let mut opening = Opening::default();
        for line in ["subject 1 bob", "subject 00 ann", "subject 0", "access 0 read", "ready", "ready x", "yes", ""] {
            assert_eq!(opening.take(line), None, "{line}");
        }
        let lines = ["subject 0 ann", "object 0 root", "access 0 read 7", "access 0 write 0 start"];
        assert!(lines.iter().all(|line| opening.take(line) == Some(false)));
        assert_eq!(opening.take("subject 1 ann"), None);
        assert_eq!(opening.take("ready 175"), Some(true));
        let held = |object, mode| Triple { subject: 0, object, mode };
        assert_eq!(opening.held, [(held(7, 1), false), (held(0, 3), true)]);
        assert_eq!((opening.entries, held(7, 1).release()), (175, "#0 release read #7".to_string()));
    }
}
