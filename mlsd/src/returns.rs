//! What comes back: the core's answers, and what clients held who are gone.
use crate::answers;
use crate::client::Client;
use crate::desk::Desk;
use crate::due::{Asked, Due, What};
use crate::ending::End;
use crate::names::Triple;
use crate::world::Taken;
use std::borrow::Cow;
use std::collections::BTreeMap;
use std::os::unix::io::AsRawFd;
use std::time::{Duration, Instant};

pub type Clients = BTreeMap<u32, Client>;

fn of<'a>(clients: &'a mut Clients, due: &Due) -> Option<&'a mut Client> {
    clients.get_mut(&due.session)
}

/// A client is told an answer, if it is still there.
fn tell(clients: &mut Clients, due: &Due, text: &[u8]) {
    let text = if due.is_question { Cow::from(answers::of_question(text)) } else { Cow::from(text) };
    if let Some(client) = of(clients, due) {
        client.answer(&text);
    }
}

impl Desk {
    /// Takes what the core has answered; false at its end.
    pub fn hear(&mut self, clients: &mut Clients) -> Result<bool, End> {
        let (text, is_there) = self.core.hear()?;
        let (now, before) = (Instant::now(), self.entries);
        for line in text.split(|b| *b == b'\n').filter(|line| !line.is_empty()) {
            self.answered(clients, line, now)?;
            self.answer_own(clients);
        }
        if !text.is_empty() {
            self.is_heard();
        }
        if self.entries > before {
            self.stats.batches += 1;
            self.has_grown()?;
        }
        Ok(is_there)
    }

    fn answered(&mut self, clients: &mut Clients, line: &[u8], now: Instant) -> Result<(), End> {
        let (session, text) = answers::parts(line).ok_or_else(|| End::strange("the core's answer is of no session"))?;
        let due = self.core.due.next_of(session);
        let due = due.ok_or_else(|| End::strange("the core answered what nobody asked"))?;
        let asked = match &due.what {
            What::Core(asked) => asked,
            _ => return Ok(()),
        };
        if asked.is_own {
            let mut told = asked.tells.map(str::to_string);
            if let (Some((object, is_last)), Some(client)) = (asked.labels, clients.get_mut(&session)) {
                told = self.labels_answered(client, object, is_last, text);
            }
            if let (Some(told), Some(client)) = (told, clients.get_mut(&session)) {
                client.answer(told.as_bytes());
            }
            return Ok(());
        }
        let kind = answers::kind(text);
        let has_entry = !due.is_question && answers::has_entry(kind);
        self.entries += u64::from(has_entry);
        if let Some(uid) = asked.charged {
            self.budgets.answered(uid, has_entry);
        }
        if let Some((subject, is_release)) = asked.returns {
            if let Some(what) = self.pools.returned(subject, kind, is_release) {
                self.sessions.tell(session, what, self.entries, &self.names.subjects[usize::from(subject)]);
            }
        }
        if let (Some(triple), Some(client)) = (asked.get, of(clients, &due)) {
            self.holders.answered(&mut client.held, triple, kind == b"yes");
        }
        self.stats.answers.add(kind);
        self.stats.latencies.add(now.duration_since(due.since));
        let had = asked.is_one_of_many && self.had(session);
        if let Some((subject, action)) = &asked.act {
            let text = String::from_utf8_lossy(text);
            let followed = if kind == b"created" { &text[..] } else { std::str::from_utf8(kind).unwrap_or("") };
            let taken = self.world.follow(&self.names, *subject, action, followed);
            // (with --release-on-close only the last who got it lets it go)
            let is_shared = !self.words.releases && !self.pools.has(*subject);
            if is_shared || !matches!(taken, Taken::Release(_)) {
                self.take_away(clients, &taken, session);
            }
        }
        if asked.is_one_of_many {
            if let Some(text) = self.one_of_many(session, text, had) {
                tell(clients, &due, &text);
            }
            return Ok(());
        }
        tell(clients, &due, text);
        Ok(())
    }

    /// The front's own answers, where nothing of the core's is due before them.
    pub fn answer_own(&mut self, clients: &mut Clients) {
        while let Some(due) = self.core.due.next_own() {
            match &due.what {
                What::Own(text) => {
                    if text.len() < 16 {
                        self.stats.own.add(text.as_bytes());
                    }
                    tell(clients, &due, text.as_bytes());
                }
                What::Labels(named) => tell(clients, &due, self.labels(*named).as_bytes()),
                What::Page => self.pass_page(clients, &due),
                What::Core(_) => (),
            }
        }
    }

    /// The page's descriptor; `busy` where there is none.
    fn pass_page(&mut self, clients: &mut Clients, due: &Due) {
        let page = self.page().map(|page| page.file.as_raw_fd());
        match (of(clients, due), page) {
            (Some(client), Some(page)) if client.waiting.is_empty() => client.pass(b"yes", page),
            (Some(client), _) => client.answer(b"busy"),
            _ => (),
        }
    }

    /// A connection ends: what only it held is released, and its subjects of pools go back.
    pub fn close(&mut self, session: u32, client: Client) {
        self.open -= 1;
        self.budgets.disconnect(client.uid);
        let last = self.holders.close(client.held);
        // (what it got is released only where that was asked for)
        let is_released = |triple: &Triple| self.words.releases || self.pools.has(triple.subject);
        let last: Vec<Triple> = last.into_iter().filter(is_released).collect();
        let leased: Vec<u16> = client.leases.iter().map(|(_, subject)| *subject).collect();
        self.give_back(session, &last, &leased);
        self.sessions.tell(session, "closed", self.entries, "");
    }

    /// Asks for the release of what a session held, and sets its subjects of pools back to their levels at the start.
    fn give_back(&mut self, session: u32, held: &[Triple], leased: &[u16]) {
        let now = self.now;
        for triple in held {
            let returns = if leased.contains(&triple.subject) { Some((triple.subject, true)) } else { None };
            let line = triple.release();
            self.core.ask(session, &line, false, now, Asked { returns, ..Asked::default() }, false);
        }
        for subject in leased {
            let releases = held.iter().filter(|triple| triple.subject == *subject).count();
            if let Some(line) = self.pools.give_back(*subject, releases) {
                let returns = Some((*subject, false));
                let act = line.split_once(' ').map(|(_, action)| (*subject, action.to_string()));
                self.core.ask(session, &line, false, now, Asked { returns, act, ..Asked::default() }, false);
            }
        }
    }

    /// Before anybody may connect: what clients of an earlier run held is released, and every subject of a pool goes
    /// back.
    pub fn settle(&mut self, held: &[(Triple, bool)]) -> Result<(), End> {
        let is_left = |(triple, is_of_start): &&(Triple, bool)| {
            self.pools.has(triple.subject) || (self.words.releases && !is_of_start)
        };
        let left: Vec<Triple> = held.iter().filter(is_left).map(|(triple, _)| *triple).collect();
        self.give_back(0, &left, &self.pools.subjects());
        let mut nobody = Clients::new();
        while !self.core.due.is_empty() {
            let (fd, events, _) = self.core.watched(Duration::ZERO);
            let mut fds = [crate::sys::PollFd { fd, events, revents: 0 }];
            crate::sys::poll(&mut fds, -1).map_err(|error| End::own("poll", error))?;
            self.core.send(Duration::ZERO);
            if fds[0].revents & !crate::sys::OUT != 0 && !self.hear(&mut nobody)? {
                return Err(End::strange("the core ended"));
            }
        }
        self.flush()
    }
}
