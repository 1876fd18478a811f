//! What START says of its subjects, as `mls state START /dev/null` prints it: whether those of a pool are alike, and what
//! is held at first.
use crate::names::{Names, Triple, MODES};
use crate::users::Pool;
use std::collections::{BTreeSet, HashMap, HashSet};

#[derive(Default, Debug, PartialEq, Eq)]
struct Facts {
    maximum: String,
    current: String,
    integrity: String,
    is_trusted: bool,
    permits: BTreeSet<(String, String)>,
    has_access: bool,
}

/// The subjects, by number, with what START says of them.
#[derive(Default, Debug)]
pub struct Start {
    subjects: Vec<Facts>,
    numbers: HashMap<String, u16>,
    /// Subject, mode and object of each access that it opens with.
    accesses: Vec<[String; 3]>,
}

impl Start {
    pub fn read(text: &str) -> Option<Start> {
        let mut start = Start::default();
        for line in text.lines() {
            let words: Vec<&str> = line.split(' ').collect();
            match words[..] {
                ["subject", name, "maximum", maximum, "current", current, "integrity", integrity, ref rest @ ..] => {
                    start.numbers.insert(name.to_string(), start.subjects.len() as u16);
                    let [maximum, current, integrity] = [maximum, current, integrity].map(str::to_string);
                    let is_trusted = rest == ["trusted"];
                    start.subjects.push(Facts { maximum, current, integrity, is_trusted, ..Facts::default() });
                }
                ["permit", subject, mode, object] => {
                    start.of(subject)?.permits.insert((mode.to_string(), object.to_string()));
                }
                ["access", subject, mode, object] => {
                    start.of(subject)?.has_access = true;
                    start.accesses.push([subject, mode, object].map(str::to_string));
                }
                _ => (),
            }
        }
        Some(start)
    }

    fn of(&mut self, name: &str) -> Option<&mut Facts> {
        let number = *self.numbers.get(name)?;
        self.subjects.get_mut(usize::from(number))
    }

    /// What it opens with, by the names that the core has told.
    pub fn accesses(&self, names: &Names) -> HashSet<Triple> {
        let triple = |[subject, mode, object]: &[String; 3]| {
            let mode = MODES.iter().position(|it| it == mode)? as u8;
            Some(Triple { subject: names.subject_named(subject)?, object: names.object(object)?, mode })
        };
        self.accesses.iter().filter_map(triple).collect()
    }

    /// Whether the subjects are those that the core has told.
    pub fn is_of(&self, names: &[String]) -> bool {
        let is_numbered = |(place, name): (usize, &String)| self.numbers.get(name) == Some(&(place as u16));
        names.len() == self.subjects.len() && names.iter().enumerate().all(is_numbered)
    }

    /// The level that a subject has at first.
    pub fn level(&self, subject: u16) -> &str {
        self.subjects.get(usize::from(subject)).map_or("", |facts| &facts.current)
    }

    /// Why a pool can't be one: a client is not to know which of its subjects it has.
    pub fn fault(&self, pool: &Pool) -> Option<&'static str> {
        let mut facts = pool.members.iter().filter_map(|subject| self.subjects.get(usize::from(*subject)));
        let first = facts.next()?;
        if first.has_access || facts.clone().any(|it| it.has_access) {
            return Some("has accesses in the start");
        }
        let labels = |it: &Facts| [&it.maximum, &it.current, &it.integrity].map(String::clone);
        if facts.clone().any(|it| labels(it) != labels(first)) {
            return Some("has subjects with different labels");
        }
        if facts.clone().any(|it| it.is_trusted != first.is_trusted) {
            return Some("has trusted subjects and others");
        }
        if facts.any(|it| it.permits != first.permits) {
            return Some("has subjects with different permissions");
        }
        None
    }
}

#[cfg(test)]
mod tests {
    use super::*;

    const TEXT: &str = "profile 1\nnext 2\n\
        subject a-1 maximum S:A current U integrity hi\nsubject a-2 maximum S:A current U integrity hi\n\
        subject b maximum S current U integrity hi\nsubject t maximum S:A current U integrity hi trusted\n\
        subject p maximum S:A current U integrity hi\nsubject h maximum S:A current U integrity hi\n\
        object root security U integrity hi\nobject plans security S:A integrity hi parent root\n\
        permit a-1 read plans\npermit a-2 read plans\npermit b read plans\npermit t read plans\npermit p write plans\n\
        permit h read plans\naccess h read plans\n";

    fn fault(members: &[u16]) -> Option<&'static str> {
        Start::read(TEXT).unwrap().fault(&Pool { name: "a".to_string(), members: members.to_vec() })
    }

    #[test]
    fn the_subjects_of_a_pool_are_alike() {
        assert_eq!((fault(&[0, 1]), fault(&[1]), fault(&[2])), (None, None, None));
        assert_eq!(fault(&[0, 1, 2]), Some("has subjects with different labels"));
        assert_eq!(fault(&[0, 3]), Some("has trusted subjects and others"));
        assert_eq!(fault(&[0, 4]), Some("has subjects with different permissions"));
        assert_eq!(
            (fault(&[0, 5]), fault(&[5])),
            (Some("has accesses in the start"), Some("has accesses in the start"))
        );
    }

    #[test]
    fn what_it_opens_with() {
        let text = "subject ann maximum S current U integrity hi\naccess ann read plans\n";
        let held = Start::read(text).unwrap().accesses(&crate::names::tests::standard());
        assert_eq!(held, [Triple { subject: 0, object: 1, mode: 1 }].into());
    }

    #[test]
    fn the_names_are_those_of_the_core() {
        let start = Start::read(TEXT).unwrap();
        let names: Vec<String> = ["a-1", "a-2", "b", "t", "p", "h"].iter().map(|name| name.to_string()).collect();
        assert!(start.is_of(&names) && !start.is_of(&names[1..]) && !start.is_of(&[&names[1..], &names[..1]].concat()));
        assert_eq!((start.level(0), start.level(9)), ("U", ""));
        assert!(Start::read("permit a read b\n").is_none());
    }
}
