//! The rules (docs/POLICY.md): the reply to a request, and the change that it makes.
use crate::labels::Label;
use crate::requests::{APPEND, Action, EXECUTE, READ, Reason, Reply, Request, WRITE};
use crate::state::{MOST_OBJECTS, State};

/// Whether one of some modes, a bit for each, observes, and whether one alters.
fn observes(modes: u8) -> bool {
    modes & (1 << READ | 1 << WRITE) != 0
}

fn alters(modes: u8) -> bool {
    modes & (1 << APPEND | 1 << WRITE) != 0
}

/// Star between a current label and an object's, of some modes.
#[inline(always)]
fn flows(current: &Label, label: &Label, modes: u8) -> bool {
    (!observes(modes) || current.dominates(label)) && (!alters(modes) || label.dominates(current))
}

impl State {
    fn integrity_holds(&self, s: u16, o: u16, mode: u8) -> bool {
        let (subject, object) = (&self.subjects[s as usize].integrity, &self.objects[o as usize].integrity);
        (mode == APPEND || object.dominates(subject)) && (!alters(1 << mode) || subject.dominates(object))
    }

    /// The first condition of a get that fails.
    fn fault_of_get(&self, s: u16, o: u16, mode: u8) -> Option<Reason> {
        let (subject, label) = (&self.subjects[s as usize], &self.objects[o as usize].security);
        if !self.matrix.has(s, o, mode) {
            Some(Reason::Discretionary)
        } else if observes(1 << mode) && !subject.maximum.dominates(label) {
            Some(Reason::Simple)
        } else if !subject.trusted && !flows(&subject.current, label, 1 << mode) {
            Some(Reason::Star)
        } else if !self.integrity_holds(s, o, mode) {
            Some(Reason::Integrity)
        } else {
            None
        }
    }

    fn writes_parent(&self, s: u16, o: u16) -> bool {
        o > 0 && self.accesses.has(s, self.objects[o as usize].parent, WRITE)
    }

    fn fault_of_control(&self, s: u16, o: u16) -> Option<Reason> {
        let controls = if o == 0 { self.subjects[s as usize].trusted } else { self.writes_parent(s, o) };
        (!controls).then_some(Reason::Authority)
    }

    fn fault_of_create(&self, s: u16, p: u16, labels: &[Label; 2]) -> Option<Reason> {
        let parent = &self.objects[p as usize];
        if self.accesses.modes(s, p) & (1 << APPEND | 1 << WRITE) == 0 {
            Some(Reason::Authority)
        } else if !labels[0].dominates(&parent.security) {
            Some(Reason::Compatibility)
        } else if !parent.integrity.dominates(&labels[1]) {
            Some(Reason::Integrity)
        } else {
            (self.next() >= MOST_OBJECTS).then_some(Reason::Full)
        }
    }

    fn fault_of_delete(&self, s: u16, o: u16) -> Option<Reason> {
        if o == 0 {
            return Some(Reason::Root);
        }
        (!self.writes_parent(s, o)).then_some(Reason::Authority)
    }

    fn fault_of_level(&self, s: u16, label: &Label) -> Option<Reason> {
        let subject = &self.subjects[s as usize];
        if !subject.maximum.dominates(label) {
            return Some(Reason::Ceiling);
        }
        let fits = |o: &u16| flows(label, &self.objects[*o as usize].security, self.accesses.modes(s, *o));
        (!subject.trusted && !self.held[s as usize].iter().all(fits)).then_some(Reason::Star)
    }

    fn may_relabel(&self, s: u16, o: u16, label: &Label) -> bool {
        let (subject, own) = (&self.subjects[s as usize], &self.objects[o as usize].security);
        subject.trusted || self.writes_parent(s, o) && subject.current.dominates(own) && label.dominates(own)
    }

    fn fault_of_relabel(&self, s: u16, o: u16, label: &Label) -> Option<Reason> {
        let object = &self.objects[o as usize];
        let is_above = o == 0 || label.dominates(&self.objects[object.parent as usize].security);
        if !self.may_relabel(s, o, label) {
            return Some(Reason::Authority);
        }
        if !is_above || !object.children.iter().all(|c| self.objects[*c as usize].security.dominates(label)) {
            return Some(Reason::Compatibility);
        }
        let mut fault = None;
        for s in &self.holders[o as usize] {
            let (holder, modes) = (&self.subjects[*s as usize], self.accesses.modes(*s, o));
            if observes(modes) && !holder.maximum.dominates(label) {
                return Some(Reason::Simple);
            }
            if !holder.trusted && !flows(&holder.current, label, modes) {
                fault = Some(Reason::Star);
            }
        }
        fault
    }

    fn is_defined(&self, request: &Request) -> bool {
        self.is_subject(request.subject)
            && match &request.action {
                Action::Get(_, o) | Action::Release(_, o) | Action::Delete(o) => self.is_active(*o),
                Action::Give(_, t, o) | Action::Rescind(_, t, o) => self.is_subject(*t) && self.is_active(*o),
                Action::Create(p, it) => {
                    self.is_active(*p) && self.security.has(&it[0]) && self.integrity.has(&it[1])
                }
                Action::Level(label) => self.security.has(label),
                Action::Relabel(o, label) => self.is_active(*o) && self.security.has(label),
            }
    }

    pub fn decide(&self, request: &Request) -> Reply {
        if !self.is_defined(request) {
            return Reply::Undefined;
        }
        let s = request.subject;
        let fault = match &request.action {
            Action::Get(mode, o) => self.fault_of_get(s, *o, *mode),
            Action::Release(_, _) => None,
            Action::Give(_, _, o) | Action::Rescind(_, _, o) => self.fault_of_control(s, *o),
            Action::Create(p, labels) => self.fault_of_create(s, *p, labels),
            Action::Delete(o) => self.fault_of_delete(s, *o),
            Action::Level(label) => self.fault_of_level(s, label),
            Action::Relabel(o, label) => self.fault_of_relabel(s, *o, label),
        };
        match (fault, &request.action) {
            (Some(reason), _) => Reply::No(reason),
            (None, Action::Create(_, _)) => Reply::Created(self.next() as u16),
            (None, _) => Reply::Yes,
        }
    }

    /// Makes the change of a request that is granted.
    pub fn change(&mut self, request: &Request) {
        let s = request.subject;
        match &request.action {
            Action::Get(mode, o) => self.put_access(s, *o, *mode),
            Action::Release(mode, o) => self.remove_access(s, *o, *mode),
            Action::Give(mode, t, o) => self.matrix.put(*t, *o, *mode),
            Action::Rescind(mode, t, o) => {
                self.matrix.remove(*t, *o, *mode);
                self.remove_access(*t, *o, *mode);
            }
            Action::Create(p, labels) => self.add_object(*p, labels[0], labels[1]),
            Action::Delete(o) => self.remove_object(*o),
            Action::Level(label) => self.subjects[s as usize].current = **label,
            Action::Relabel(o, label) => self.objects[*o as usize].security = **label,
        }
    }

    pub fn apply(&mut self, request: &Request) -> Reply {
        let reply = self.decide(request);
        if matches!(reply, Reply::Yes | Reply::Created(_)) {
            self.change(request);
        }
        reply
    }

    /// The audit: whether the state is secure.
    pub fn is_secure(&self) -> bool {
        let ceiling = self.subjects.iter().all(|it| it.maximum.dominates(&it.current));
        let tree = self.objects.iter().skip(1).filter(|it| it.is_active).all(|it| {
            let parent = &self.objects[it.parent as usize];
            it.security.dominates(&parent.security) && parent.integrity.dominates(&it.integrity)
        });
        let holds = |s: u16, o: u16| {
            let modes = self.accesses.modes(s, o);
            (EXECUTE..=WRITE).all(|mode| modes >> mode & 1 == 0 || self.fault_of_get(s, o, mode).is_none())
        };
        let held = self.held.iter().enumerate().all(|(s, list)| list.iter().all(|o| holds(s as u16, *o)));
        ceiling && tree && held
    }
}
