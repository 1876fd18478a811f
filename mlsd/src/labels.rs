//! The line `labels`: for whoever has a subject that may get the object, or is the subject, and for root.
use crate::client::Client;
use crate::desk::Desk;
use crate::due::{Asked, Labelled, What};
use crate::names::{Triple, MODES};

const GETS: [&str; 4] = ["get-execute", "get-read", "get-append", "get-write"];

impl Desk {
    /// What the tokens name: an object where there is one of that name, or else a subject.
    fn named(&mut self, session: u32, client: &mut Client, tokens: &[String]) -> Option<Labelled> {
        match tokens {
            [kind, name] if kind == "subject" => self.subject_of(session, client, name),
            [kind, name] if kind == "object" => self.names.object(name).map(Labelled::Object),
            [name] => match self.names.object(name) {
                Some(object) => Some(Labelled::Object(object)),
                None => self.subject_of(session, client, name),
            },
            _ => None,
        }
    }

    /// A subject, or whichever of a pool's the client has.
    fn subject_of(&mut self, session: u32, client: &mut Client, name: &str) -> Option<Labelled> {
        match client.who.pools.iter().find(|(pool, _)| pool == name).map(|(_, place)| *place) {
            Some(pool) => self.lease(session, client, pool).map(Labelled::Subject),
            None => self.names.subject(name).map(Labelled::Subject),
        }
    }

    /// The subjects of a client.
    fn subjects_of(&self, client: &Client) -> Vec<u16> {
        let own = client.who.subjects.iter().enumerate().filter(|(_, may)| **may).map(|(subject, _)| subject as u16);
        own.chain(client.leases.iter().map(|(_, subject)| *subject)).collect()
    }

    pub fn ask_labels(&mut self, session: u32, client: &mut Client, tokens: &[String]) {
        let named = self.named(session, client, tokens);
        let subjects = self.subjects_of(client);
        let gets: Vec<(u16, u8)> = match named {
            Some(Labelled::Object(object)) if !client.who.is_root => self.gets(&subjects, object),
            _ => Vec::new(),
        };
        let may = match named {
            Some(Labelled::Subject(subject)) => client.who.is_root || subjects.contains(&subject),
            Some(Labelled::Object(_)) => client.who.is_root,
            None => false,
        };
        match named {
            Some(named) if may => self.later(session, client, What::Labels(named)),
            Some(Labelled::Object(object)) if !gets.is_empty() => self.ask_gets(session, client, object, &gets),
            _ => self.later(session, client, What::Own("not yours".to_string())),
        }
    }

    /// Who of these has a permission for an object, and for what: nobody else may get it.
    fn gets(&self, subjects: &[u16], object: u16) -> Vec<(u16, u8)> {
        let pairs = subjects.iter().flat_map(|subject| (0..MODES.len() as u8).map(move |mode| (*subject, mode)));
        pairs.filter(|(subject, mode)| self.world.permits(Triple { subject: *subject, object, mode: *mode })).collect()
    }

    /// Asks the core whether one of them would be granted.
    fn ask_gets(&mut self, session: u32, client: &mut Client, object: u16, gets: &[(u16, u8)]) {
        client.in_flight += 1;
        for (place, (subject, mode)) in gets.iter().enumerate() {
            let line = format!("#{subject} {} #{object}", GETS[usize::from(*mode)]);
            let labels = Some((object, place + 1 == gets.len()));
            let asked = Asked { is_own: true, labels, ..Asked::default() };
            self.core.ask(session, &line, true, self.now, asked, true);
        }
    }

    pub fn labels(&self, named: Labelled) -> String {
        let found = match named {
            Labelled::Subject(subject) => self.world.labels_of_subject(subject),
            Labelled::Object(object) => self.world.labels_of_object(object),
        };
        found.unwrap_or_else(|| "undefined".to_string())
    }

    /// One of the questions behind `labels` has its answer: what the client is told, once it was the last.
    pub fn labels_answered(&self, client: &mut Client, object: u16, is_last: bool, text: &[u8]) -> Option<String> {
        client.may_get |= text == b"? yes";
        if !is_last {
            return None;
        }
        let may = std::mem::take(&mut client.may_get);
        Some(if may { self.labels(Labelled::Object(object)) } else { "not yours".to_string() })
    }
}
