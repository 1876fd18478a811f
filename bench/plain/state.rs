//! The state: four bits for each pair of a subject and an object, once for what is permitted and once for what is held,
//! and lists of who holds what.
use crate::labels::{Label, Scheme};

pub const MOST_OBJECTS: usize = 4096;

pub struct Subject {
    pub maximum: Label,
    pub current: Label,
    pub integrity: Label,
    pub trusted: bool,
}

pub struct Object {
    pub is_active: bool,
    pub parent: u16,
    pub children: Vec<u16>,
    pub security: Label,
    pub integrity: Label,
}

/// Four bits for each pair, column by column.
#[derive(Default)]
pub struct Cells {
    width: usize,
    bytes: Vec<u8>,
}

impl Cells {
    pub fn modes(&self, s: u16, o: u16) -> u8 {
        self.bytes[o as usize * self.width + s as usize / 2] >> (s % 2 * 4) & 15
    }

    pub fn has(&self, s: u16, o: u16, mode: u8) -> bool {
        self.modes(s, o) >> mode & 1 == 1
    }

    pub fn put(&mut self, s: u16, o: u16, mode: u8) {
        self.bytes[o as usize * self.width + s as usize / 2] |= 1 << (s % 2 * 4 + u16::from(mode));
    }

    pub fn remove(&mut self, s: u16, o: u16, mode: u8) {
        self.bytes[o as usize * self.width + s as usize / 2] &= !(1 << (s % 2 * 4 + u16::from(mode)));
    }

    /// How many triples there are.
    pub fn count(&self) -> u32 {
        self.bytes.iter().map(|byte| byte.count_ones()).sum()
    }

    pub fn clear(&mut self, o: u16) {
        let from = o as usize * self.width;
        self.bytes[from..from + self.width].fill(0);
    }
}

#[derive(Default)]
pub struct State {
    pub security: Scheme,
    pub integrity: Scheme,
    pub reuses: bool,
    pub subjects: Vec<Subject>,
    pub objects: Vec<Object>,
    pub matrix: Cells,
    pub accesses: Cells,
    /// The objects that each subject holds, and the subjects that hold each object, ascending.
    pub held: Vec<Vec<u16>>,
    pub holders: Vec<Vec<u16>>,
}

fn enter(list: &mut Vec<u16>, item: u16) {
    if let Err(at) = list.binary_search(&item) {
        list.insert(at, item);
    }
}

fn leave(list: &mut Vec<u16>, item: u16) {
    if let Ok(at) = list.binary_search(&item) {
        list.remove(at);
    }
}

impl State {
    pub fn is_active(&self, o: u16) -> bool {
        self.objects.get(o as usize).is_some_and(|it| it.is_active)
    }

    pub fn is_subject(&self, s: u16) -> bool {
        (s as usize) < self.subjects.len()
    }

    pub fn is_held(&self, s: u16, o: u16, mode: u8) -> bool {
        self.is_subject(s) && self.is_active(o) && self.accesses.has(s, o, mode)
    }

    /// The number of the next object.
    pub fn next(&self) -> usize {
        let free = if self.reuses { self.objects.iter().position(|it| !it.is_active) } else { None };
        free.unwrap_or(self.objects.len())
    }

    pub fn add_subject(&mut self, subject: Subject) {
        self.subjects.push(subject);
        self.held.push(Vec::new());
        let width = self.subjects.len().div_ceil(2);
        self.matrix.width = width;
        self.accesses.width = width;
    }

    /// Adds an object of the next number; the root is its own parent.
    pub fn add_object(&mut self, parent: u16, security: Label, integrity: Label) {
        let next = self.next();
        let object = Object { is_active: true, parent, children: Vec::new(), security, integrity };
        if next == self.objects.len() {
            self.objects.push(object);
            self.holders.push(Vec::new());
            self.matrix.bytes.resize((next + 1) * self.matrix.width, 0);
            self.accesses.bytes.resize((next + 1) * self.accesses.width, 0);
        } else {
            self.objects[next] = object;
        }
        if next > 0 {
            enter(&mut self.objects[parent as usize].children, next as u16);
        }
    }

    pub fn put_access(&mut self, s: u16, o: u16, mode: u8) {
        if self.accesses.modes(s, o) == 0 {
            enter(&mut self.held[s as usize], o);
            enter(&mut self.holders[o as usize], s);
        }
        self.accesses.put(s, o, mode);
    }

    pub fn remove_access(&mut self, s: u16, o: u16, mode: u8) {
        if self.accesses.has(s, o, mode) {
            self.accesses.remove(s, o, mode);
            if self.accesses.modes(s, o) == 0 {
                leave(&mut self.held[s as usize], o);
                leave(&mut self.holders[o as usize], s);
            }
        }
    }

    /// Takes an object and all below it out.
    pub fn remove_object(&mut self, o: u16) {
        let parent = self.objects[o as usize].parent;
        leave(&mut self.objects[parent as usize].children, o);
        let mut group = vec![o];
        while let Some(it) = group.pop() {
            group.append(&mut self.objects[it as usize].children);
            self.objects[it as usize].is_active = false;
            for s in std::mem::take(&mut self.holders[it as usize]) {
                leave(&mut self.held[s as usize], it);
            }
            self.matrix.clear(it);
            self.accesses.clear(it);
        }
    }
}
