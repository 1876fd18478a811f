//! What the monitor's state is, as far as the front has to know it: labels, the tree and permissions. `mls state` tells it
//! at a start; from then on the core's answers are followed.
use crate::names::{Names, Triple, MODES};
use std::collections::{BTreeMap, BTreeSet, HashSet};

#[derive(Debug)]
struct Subject {
    maximum: String,
    current: String,
    integrity: String,
    is_trusted: bool,
}

#[derive(Debug)]
struct Object {
    security: String,
    integrity: String,
    parent: Option<u16>,
}

#[derive(Default, Debug)]
pub struct World {
    subjects: Vec<Subject>,
    objects: BTreeMap<u16, Object>,
    permits: HashSet<Triple>,
    /// The categories of both kinds of labels, in the order in which a label has them.
    categories: [Vec<String>; 2],
}

/// What a request has taken away.
#[derive(Debug, PartialEq, Eq)]
pub enum Taken {
    Nothing,
    Access(Triple),
    /// What its asker let go of, and with it who else got it.
    Release(Triple),
    Objects(BTreeSet<u16>),
}

/// The categories of a scheme in a start file, as they stand there.
fn categories(start: &str, kind: &str) -> Option<Vec<String>> {
    let key = format!("\"{kind}\"");
    let scheme = start.match_indices(&key).find_map(|(place, _)| {
        let rest = start[place + key.len()..].trim_start().strip_prefix(':')?.trim_start().strip_prefix('{')?;
        rest.split('}').next()
    })?;
    let list = scheme.split("\"categories\"").nth(1)?.split('[').nth(1)?.split(']').next()?;
    Some(list.split('"').skip(1).step_by(2).map(str::to_string).collect())
}

pub fn mode_of(word: &str) -> Option<u8> {
    MODES.iter().position(|mode| *mode == word).map(|place| place as u8)
}

impl World {
    /// By the text of a state, and of the start file.
    pub fn read(text: &str, start: &str, names: &Names) -> Option<World> {
        let of_kind = |kind| categories(start, kind).unwrap_or_default();
        let mut world = World { categories: [of_kind("security"), of_kind("integrity")], ..World::default() };
        for line in text.lines() {
            let words: Vec<&str> = line.split(' ').collect();
            match words[..] {
                ["subject", _, "maximum", maximum, "current", current, "integrity", integrity, ref rest @ ..] => {
                    let [maximum, current, integrity] = [maximum, current, integrity].map(str::to_string);
                    world.subjects.push(Subject { maximum, current, integrity, is_trusted: !rest.is_empty() });
                }
                ["object", name, "security", security, "integrity", integrity, ref rest @ ..] => {
                    let parent = match rest {
                        ["parent", parent] => Some(names.object(parent)?),
                        _ => None,
                    };
                    let [security, integrity] = [security, integrity].map(str::to_string);
                    world.objects.insert(names.object(name)?, Object { security, integrity, parent });
                }
                ["permit", subject, mode, object] => {
                    world.permits.insert(triple(names, subject, mode, object)?);
                }
                _ => (),
            }
        }
        Some(world).filter(|world| world.subjects.len() == names.subjects.len())
    }

    pub fn permits(&self, triple: Triple) -> bool {
        self.permits.contains(&triple)
    }

    /// A label's text with its categories in their order.
    fn label(&self, kind: usize, text: &str) -> String {
        let (level, list) = text.split_once(':').unwrap_or((text, ""));
        let mut found: Vec<&str> = list.split(',').filter(|it| !it.is_empty()).collect();
        let place = |it: &&str| self.categories[kind].iter().position(|category| category == it);
        found.sort_by_key(place);
        if found.is_empty() {
            level.to_string()
        } else {
            format!("{level}:{}", found.join(","))
        }
    }

    /// An object and all below it.
    fn below(&self, object: u16) -> BTreeSet<u16> {
        let mut found = BTreeSet::from([object]);
        let mut waiting = vec![object];
        while let Some(parent) = waiting.pop() {
            let children = self.objects.iter().filter(|(_, it)| it.parent == Some(parent));
            for (child, _) in children.filter(|(child, _)| !found.contains(child)).collect::<Vec<_>>() {
                found.insert(*child);
                waiting.push(*child);
            }
        }
        found
    }

    /// A subject's request was answered so, without the entry's number.
    pub fn follow(&mut self, names: &Names, subject: u16, action: &str, answer: &str) -> Taken {
        let words: Vec<&str> = action.split(' ').collect();
        self.followed(names, subject, &words, answer).unwrap_or(Taken::Nothing)
    }

    fn followed(&mut self, names: &Names, subject: u16, words: &[&str], answer: &str) -> Option<Taken> {
        let made = answer.strip_prefix("created ").map(|rest| rest.split(' ').next().unwrap_or(""));
        match *words {
            ["create", parent, security, integrity] => {
                let (security, integrity) = (self.label(0, security), self.label(1, integrity));
                let object = Object { security, integrity, parent: names.object(parent) };
                self.objects.insert(made?.parse().ok()?, object);
            }
            _ if answer != "yes" => (),
            ["level", label] => self.subjects.get_mut(usize::from(subject))?.current = self.label(0, label),
            ["relabel", object, label] => {
                let label = self.label(0, label);
                self.objects.get_mut(&names.object(object)?)?.security = label;
            }
            ["give", mode, whose, object] => {
                self.permits.insert(triple(names, whose, mode, object)?);
            }
            ["rescind", mode, whose, object] => {
                let taken = triple(names, whose, mode, object)?;
                self.permits.remove(&taken);
                return Some(Taken::Access(taken));
            }
            ["release", mode, object] => {
                let (object, mode) = (names.object(object)?, mode_of(mode)?);
                return Some(Taken::Release(Triple { subject, object, mode }));
            }
            ["delete", object] => {
                let gone = self.below(names.object(object)?);
                self.objects.retain(|object, _| !gone.contains(object));
                self.permits.retain(|triple| !gone.contains(&triple.object));
                return Some(Taken::Objects(gone));
            }
            _ => (),
        }
        None
    }

    pub fn labels_of_object(&self, object: u16) -> Option<String> {
        let found = self.objects.get(&object)?;
        Some(format!("security {} integrity {}", found.security, found.integrity))
    }

    pub fn labels_of_subject(&self, subject: u16) -> Option<String> {
        let found = self.subjects.get(usize::from(subject))?;
        let trusted = if found.is_trusted { " trusted" } else { "" };
        let (maximum, current, integrity) = (&found.maximum, &found.current, &found.integrity);
        Some(format!("maximum {maximum} current {current} integrity {integrity}{trusted}"))
    }
}

fn triple(names: &Names, subject: &str, mode: &str, object: &str) -> Option<Triple> {
    Some(Triple { subject: names.subject(subject)?, object: names.object(object)?, mode: mode_of(mode)? })
}

/// Whether an action may change what is followed here.
pub fn is_followed(action: &str) -> bool {
    let word = action.split(' ').next().unwrap_or("");
    matches!(word, "create" | "level" | "relabel" | "give" | "rescind" | "release" | "delete")
}

#[cfg(test)]
mod tests {
    use super::*;
    use crate::names::tests::standard;

    const START: &str = r#"{"objects": [{"security": "S:A"}], "integrity": {"levels": ["lo"], "categories": []},
        "security" : {"levels": ["U", "S"], "categories": [ "A","B" , "C"]}}"#;
    const STATE: &str = "subject ann maximum S:A current S:A integrity hi\nsubject bob maximum C current U integrity lo\n\
        subject sec maximum T:A,B current U integrity hi trusted\nsubject aud maximum S:A current U integrity hi trusted\n\
        object root security U integrity hi\nobject plans security S:A integrity hi parent root\n\
        object #7 security S integrity hi parent plans\npermit ann read plans\naccess ann read plans\n";

    fn world() -> World {
        World::read(STATE, START, &standard()).unwrap()
    }

    fn triple(subject: u16, object: u16, mode: u8) -> Triple {
        Triple { subject, object, mode }
    }

    #[test]
    fn labels_are_followed() {
        let (mut world, names) = (world(), standard());
        assert_eq!(world.labels_of_object(7), Some("security S integrity hi".to_string()));
        assert_eq!(world.labels_of_subject(2).unwrap(), "maximum T:A,B current U integrity hi trusted");
        for (action, answer) in [("level S:B,A", "yes"), ("level U", "no star"), ("level U", "undefined")] {
            assert_eq!(world.follow(&names, 2, action, answer), Taken::Nothing);
        }
        assert_eq!(world.labels_of_subject(2).unwrap(), "maximum T:A,B current S:A,B integrity hi trusted");
        world.follow(&names, 2, "create #7 S:C,A hi", "created 9 41");
        world.follow(&names, 2, "relabel plans S:C", "yes");
        assert_eq!(world.labels_of_object(9), Some("security S:A,C integrity hi".to_string()));
        assert_eq!(world.labels_of_object(1), Some("security S:C integrity hi".to_string()));
        assert_eq!((world.labels_of_object(3), world.labels_of_subject(9)), (None, None));
    }

    #[test]
    fn what_is_taken_is_told() {
        let (mut world, names) = (world(), standard());
        assert_eq!(world.follow(&names, 0, "release read #1", "yes"), Taken::Release(triple(0, 1, 1)));
        assert_eq!(world.follow(&names, 2, "rescind read ann plans", "no authority"), Taken::Nothing);
        assert!(world.permits(triple(0, 1, 1)));
        assert_eq!(world.follow(&names, 2, "rescind read #0 plans", "yes"), Taken::Access(triple(0, 1, 1)));
        assert!(!world.permits(triple(0, 1, 1)));
        world.follow(&names, 2, "give write bob #7", "yes");
        assert!(world.permits(triple(1, 7, 3)));
        assert_eq!(world.follow(&names, 2, "create #7 S hi", "created 9"), Taken::Nothing);
        assert_eq!(world.follow(&names, 2, "delete plans", "yes"), Taken::Objects(BTreeSet::from([1, 7, 9])));
        assert!(!world.permits(triple(1, 7, 3)) && world.labels_of_object(7).is_none());
    }

    #[test]
    fn categories_are_those_of_the_scheme() {
        assert_eq!(categories(START, "security").unwrap(), ["A", "B", "C"]);
        assert_eq!((categories(START, "integrity"), categories("{}", "security")), (Some(vec![]), None));
        assert!(World::read("object x security U integrity hi\n", START, &standard()).is_none());
    }
}
