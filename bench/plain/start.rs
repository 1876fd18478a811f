//! Start files.
use crate::json::{Fault, Json};
use crate::labels::{Label, Scheme};
use crate::requests::MODES;
use crate::state::{MOST_OBJECTS, State, Subject};
use std::borrow::Cow;
use std::collections::HashMap;
use std::hash::{BuildHasherDefault, Hasher};

/// A hash of short names: a multiplication for each eight bytes, and one for the length.
#[derive(Default)]
pub struct ShortHasher(u64);

impl Hasher for ShortHasher {
    fn write_u64(&mut self, word: u64) {
        self.0 = (self.0.rotate_left(5) ^ word).wrapping_mul(0x517c_c1b7_2722_0a95);
    }

    fn write_usize(&mut self, word: usize) {
        self.write_u64(word as u64);
    }

    fn write(&mut self, bytes: &[u8]) {
        let (words, rest) = bytes.as_chunks::<8>();
        words.iter().for_each(|word| self.write_u64(u64::from_le_bytes(*word)));
        self.write_u64(rest.iter().fold(0, |word, byte| word << 8 | u64::from(*byte)));
    }

    fn finish(&self) -> u64 {
        self.0.rotate_left(26)
    }
}

pub type Names = HashMap<Vec<u8>, u16, BuildHasherDefault<ShortHasher>>;

/// A start with the names of its subjects and of its objects.
#[derive(Default)]
pub struct Start {
    pub state: State,
    pub subjects: Names,
    pub objects: Names,
}

/// A subject or an object: its texts, by members.
#[derive(Default)]
struct Row<'a> {
    texts: [Option<Cow<'a, str>>; 4],
    flag: Option<bool>,
}

const SUBJECT: [&str; 4] = ["name", "maximum", "current", "integrity"];
const OBJECT: [&str; 4] = ["name", "parent", "security", "integrity"];

struct Cell<'a> {
    subject: Cow<'a, str>,
    object: Cow<'a, str>,
    modes: u8,
}

#[derive(Default)]
struct File<'a> {
    subjects: Option<Vec<Row<'a>>>,
    objects: Option<Vec<Row<'a>>>,
    matrix: Option<Vec<Cell<'a>>>,
    accesses: Option<Vec<Cell<'a>>>,
}

fn scheme(json: &mut Json) -> Result<Scheme, Fault> {
    let (mut levels, mut categories) = (None, None);
    json.object(|key, json| {
        let names = json.list(|json| Ok(json.text()?.into_owned()))?;
        match key {
            "levels" => levels = Some(names),
            "categories" => categories = Some(names),
            _ => return Err(Fault),
        }
        Ok(())
    })?;
    Ok(Scheme { levels: levels.ok_or(Fault)?, categories: categories.ok_or(Fault)? })
}

fn row<'a>(json: &mut Json<'a>, members: &[&str; 4]) -> Result<Row<'a>, Fault> {
    let mut row = Row::default();
    json.object(|key, json| {
        if key == "trusted" {
            row.flag = Some(json.bool()?);
            return Ok(());
        }
        let at = members.iter().position(|member| *member == key).ok_or(Fault)?;
        row.texts[at] = if json.is_null() { None } else { Some(json.text()?) };
        Ok(())
    })?;
    Ok(row)
}

fn cell<'a>(json: &mut Json<'a>) -> Result<Cell<'a>, Fault> {
    let (mut subject, mut object, mut modes) = (None, None, None);
    json.object(|key, json| {
        match key {
            "subject" => subject = Some(json.text()?),
            "object" => object = Some(json.text()?),
            "modes" => modes = Some(json.list(mode)?.iter().fold(0, |all, mode| all | 1 << mode)),
            _ => return Err(Fault),
        }
        Ok(())
    })?;
    Ok(Cell { subject: subject.ok_or(Fault)?, object: object.ok_or(Fault)?, modes: modes.ok_or(Fault)? })
}

fn mode(json: &mut Json) -> Result<u8, Fault> {
    let word = json.text()?;
    Ok(MODES.iter().position(|mode| *mode == word.as_bytes()).ok_or(Fault)? as u8)
}

fn label(scheme: &Scheme, text: &Option<Cow<str>>) -> Result<Label, Fault> {
    scheme.read(text.as_ref().ok_or(Fault)?.as_bytes()).ok_or(Fault)
}

impl Start {
    pub fn read(bytes: &[u8]) -> Result<Start, Fault> {
        let mut json = Json::new(std::str::from_utf8(bytes).map_err(|_| Fault)?);
        let (mut start, mut file) = (Start::default(), File::default());
        json.object(|key, json| {
            match key {
                "security" => start.state.security = scheme(json)?,
                "integrity" => start.state.integrity = scheme(json)?,
                "profile" => start.state.reuses = json.number()? == 2,
                "subjects" => file.subjects = Some(json.list(|json| row(json, &SUBJECT))?),
                "objects" => file.objects = Some(json.list(|json| row(json, &OBJECT))?),
                "matrix" => file.matrix = Some(json.list(cell)?),
                "accesses" => file.accesses = Some(json.list(cell)?),
                _ => return Err(Fault),
            }
            Ok(())
        })?;
        json.end()?;
        start.add(&file)?;
        if start.state.is_secure() { Ok(start) } else { Err(Fault) }
    }

    fn add(&mut self, file: &File) -> Result<(), Fault> {
        for it in file.subjects.as_ref().ok_or(Fault)? {
            let (security, integrity) = (&self.state.security, &self.state.integrity);
            let subject = Subject {
                maximum: label(security, &it.texts[1])?,
                current: label(security, &it.texts[2])?,
                integrity: label(integrity, &it.texts[3])?,
                trusted: it.flag.ok_or(Fault)?,
            };
            add_name(&mut self.subjects, &it.texts[0])?;
            self.state.add_subject(subject);
        }
        for it in file.objects.as_ref().ok_or(Fault)? {
            let labels = (label(&self.state.security, &it.texts[2])?, label(&self.state.integrity, &it.texts[3])?);
            let parent = match &it.texts[1] {
                Some(name) => *self.objects.get(name.as_bytes()).ok_or(Fault)?,
                None if self.objects.is_empty() => 0,
                None => return Err(Fault),
            };
            add_name(&mut self.objects, &it.texts[0])?;
            self.state.add_object(parent, labels.0, labels.1);
        }
        let is_large = self.subjects.len() > 256 || self.objects.len() > MOST_OBJECTS;
        if is_large || self.subjects.is_empty() || self.objects.is_empty() {
            return Err(Fault);
        }
        self.each(file.matrix.as_ref().ok_or(Fault)?, |state, s, o, mode| state.matrix.put(s, o, mode))?;
        self.each(file.accesses.as_deref().unwrap_or_default(), State::put_access)
    }

    /// Does something for each triple of cells.
    fn each(&mut self, cells: &[Cell], put: impl Fn(&mut State, u16, u16, u8)) -> Result<(), Fault> {
        for it in cells {
            let s = *self.subjects.get(it.subject.as_bytes()).ok_or(Fault)?;
            let o = *self.objects.get(it.object.as_bytes()).ok_or(Fault)?;
            (0..4).filter(|mode| it.modes >> mode & 1 == 1).for_each(|mode| put(&mut self.state, s, o, mode));
        }
        Ok(())
    }
}

fn add_name(names: &mut Names, name: &Option<Cow<str>>) -> Result<(), Fault> {
    let name = name.as_ref().ok_or(Fault)?.as_bytes().to_vec();
    let number = names.len() as u16;
    if names.insert(name, number).is_some() { Err(Fault) } else { Ok(()) }
}
