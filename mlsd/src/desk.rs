//! What is done with what clients ask: all that the front keeps but the connections themselves.
use crate::budget::{Budgets, Day};
use crate::client::Client;
use crate::clock;
use crate::core::Core;
use crate::due::{Asked, Due, What};
use crate::ending::End;
use crate::files::Files;
use crate::holders::{Get, Holders};
use crate::journal::Journal;
use crate::line::{Ask, Change, Judged, Verdict, LINE_MAX};
use crate::many::Many;
use crate::metrics::Metrics;
use crate::names::{Names, Opening, Triple};
use crate::page::Page;
use crate::pools::Pools;
use crate::probe;
use crate::pulse::{Pulse, QUESTION};
use crate::sessions::Sessions;
use crate::stats::{Now, Stats};
use crate::users::Users;
use crate::who::Asker;
use crate::words::Words;
use crate::world::{is_followed, mode_of, World};
use std::collections::HashMap;
use std::time::Instant;

/// The modes by which something is read: read and write.
const OBSERVES: [u8; 2] = [1, 3];

#[derive(Debug)]
pub struct Desk {
    pub words: Words,
    pub core: Core,
    pub names: Names,
    pub users: Users,
    pub pools: Pools,
    pub holders: Holders,
    pub budgets: Budgets,
    pub sessions: Sessions,
    pub journal: Journal,
    pub stats: Stats,
    pub metrics: Option<Metrics>,
    pub pulse: Pulse,
    pub world: World,
    /// The page that clients have, once one has asked for it.
    page: Option<Page>,
    /// Lines that are being asked for each subject of a pool, by session.
    pub many: HashMap<u32, Many>,
    /// What watchers wrote in this round: each with the session whose answer waits for it.
    pub acks: Vec<(u32, u32)>,
    /// The number of the next entry.
    pub entries: u64,
    /// How many connections there may be, and are.
    pub most: usize,
    pub open: usize,
    /// When this round began.
    pub now: Instant,
}

enum Outcome {
    Core(u16, Asked),
    /// It is asked for each subject of a pool.
    Many,
    Own(&'static str),
    /// The line is to be taken later.
    Wait,
}

impl Desk {
    pub fn new(words: Words, core: Core, opening: Opening, files: Files, most: usize) -> Desk {
        let Opening { names, held, entries } = opening;
        let Files { users, pools, sessions, journal, world, .. } = files;
        let of_start = held.iter().filter(|(_, is_of_start)| *is_of_start).map(|(triple, _)| *triple).collect();
        let (holders, budgets, stats) = (Holders::new(of_start), Budgets::default(), Stats::default());
        let now = Instant::now();
        let (metrics, pulse, open) = (words.metrics.as_ref().map(|path| Metrics::new(path, now)), Pulse::new(now), 0);
        Desk {
            words,
            core,
            names,
            users,
            pools,
            holders,
            budgets,
            sessions,
            journal,
            stats,
            metrics,
            pulse,
            world,
            page: None,
            many: HashMap::new(),
            acks: Vec::new(),
            entries,
            most,
            open,
            now,
        }
    }

    /// Takes a line of a client; false where it has to wait.
    pub fn take(&mut self, session: u32, client: &mut Client, judged: Judged) -> bool {
        let is_question = judged.is_question;
        let has_answer = !matches!(judged.verdict, Verdict::Skip | Verdict::Note(_) | Verdict::Ack);
        if has_answer && self.many.contains_key(&session) {
            // (its answer comes first)
            return false;
        }
        let text = match judged.verdict {
            Verdict::Skip => return true,
            Verdict::Note(text) => {
                self.note(session, client, &text);
                return true;
            }
            Verdict::Answer(text) => text.to_string(),
            Verdict::Stats => self.told(),
            Verdict::Probe => {
                let asked = Asked { is_own: true, tells: Some(probe::ANSWER), ..Asked::default() };
                self.core.ask(session, QUESTION, false, self.now, asked, true);
                client.in_flight += 1;
                return true;
            }
            Verdict::Watch(has_acks) => {
                client.watch.begin(has_acks);
                "yes".to_string()
            }
            Verdict::Ack => match client.watch.ack() {
                Some(waiting) => {
                    self.acks.push((session, waiting));
                    return true;
                }
                None => "bad form".to_string(),
            },
            Verdict::Page => {
                self.later(session, client, What::Page);
                return true;
            }
            Verdict::Labels(tokens) => {
                self.ask_labels(session, client, &tokens);
                return true;
            }
            Verdict::Ask(ask) => match self.outcome(session, client, &ask, is_question) {
                Outcome::Wait => return false,
                Outcome::Many => {
                    client.in_flight += 1;
                    return true;
                }
                Outcome::Own(text) => text.to_string(),
                Outcome::Core(subject, asked) => {
                    let line = self.line(subject, &ask.action);
                    let is_followed = !is_question && is_followed(&ask.action);
                    let act = if is_followed { Some((subject, ask.action.clone())) } else { None };
                    let asked = Asked { act, ..asked };
                    let is_urgent = is_question || !matches!(ask.change, Change::Release(..));
                    self.core.ask(session, &line, is_question, self.now, asked, is_urgent);
                    client.in_flight += 1;
                    return true;
                }
            },
        };
        client.in_flight += 1;
        self.core.due.add(Due { session, since: self.now, is_question, what: What::Own(text) });
        true
    }

    /// The front's own answer, which is found when its turn comes.
    pub fn later(&mut self, session: u32, client: &mut Client, what: What) {
        client.in_flight += 1;
        self.core.due.add(Due { session, since: self.now, is_question: false, what });
    }

    /// The page that clients have; none where the system gives none.
    pub fn page(&mut self) -> Option<&Page> {
        if self.page.is_none() {
            self.page = Page::new().ok();
        }
        self.page.as_ref()
    }

    /// Something was taken away.
    pub fn raise(&self) {
        if let Some(page) = &self.page {
            page.raise();
        }
    }

    /// The line that the core is asked; no longer than the client's, so that a long one has the fault that it has
    /// there.
    pub fn line(&self, subject: u16, action: &str) -> String {
        let line = format!("#{subject} {action}");
        match self.names.subjects.get(usize::from(subject)) {
            Some(name) if line.len() > LINE_MAX => format!("{name} {action}"),
            _ => line,
        }
    }

    fn note(&mut self, session: u32, client: &Client, text: &str) {
        let most = client.who.day();
        if self.may_write(client.uid, most) {
            self.stats.notes += 1;
            self.sessions.tell(session, "note", self.entries, text);
        }
    }

    /// Whether a uid that has so many a day may have a line more in the sessions file. It is counted.
    pub fn may_write(&mut self, uid: u32, most: u32) -> bool {
        most == 0 || self.budgets.note(uid, most, clock::day(), self.now)
    }

    fn outcome(&mut self, session: u32, client: &mut Client, ask: &Ask, is_question: bool) -> Outcome {
        let subject = match ask.asker {
            Asker::Subject(subject) => subject,
            Asker::Pool(pool) => match self.lease(session, client, pool) {
                Some(subject) => subject,
                None => return Outcome::Own("busy"),
            },
        };
        let most = client.who.day();
        let charged = if ask.is_request && most != 0 { Some(client.uid) } else { None };
        if charged.is_some() {
            match self.budgets.entry(client.uid, most, clock::day(), self.now) {
                Day::Ask => (),
                Day::Wait => return Outcome::Wait,
                Day::Over => return Outcome::Own("busy"),
            }
        }
        if let Some(mut many) = self.of_pool(&ask.action) {
            many.asker = subject;
            many.charged = charged;
            many.is_question = is_question;
            self.many.insert(session, many);
            self.ask_next(session, true);
            return Outcome::Many;
        }
        let releases = self.words.releases || matches!(ask.asker, Asker::Pool(_));
        let outcome = match self.counted(client, subject, ask.change, releases) {
            Outcome::Core(subject, asked) => return Outcome::Core(subject, Asked { charged, ..asked }),
            outcome => outcome,
        };
        if let Some(uid) = charged {
            self.budgets.answered(uid, false);
        }
        outcome
    }

    /// A line that names a pool as whose right it is, for all of its subjects.
    fn of_pool(&self, action: &str) -> Option<Many> {
        let words: Vec<&str> = action.split(' ').collect();
        let pool = self.pools.defined.iter().find(|pool| Some(&&pool.name[..]) == words.get(2))?;
        mode_of(words[1])?;
        Many::new(&words, pool.members.clone())
    }

    /// Counts what a line changes of what is held. `releases` is whether what a connection got is released at its end:
    /// then another's release doesn't take it away.
    fn counted(&mut self, client: &mut Client, subject: u16, change: Change, releases: bool) -> Outcome {
        match change {
            Change::None => Outcome::Core(subject, Asked::default()),
            Change::Get(object, mode) => {
                let triple = Triple { subject, object, mode };
                match self.holders.get(&mut client.held, triple, releases) {
                    Get::Ask => Outcome::Core(subject, Asked { get: Some(triple), ..Asked::default() }),
                    Get::Wait => Outcome::Wait,
                    Get::Full => Outcome::Own("busy"),
                }
            }
            Change::Release(object, mode) => {
                let triple = Triple { subject, object, mode };
                if client.who.holds_reads && OBSERVES.contains(&mode) && Holders::has(&client.held, triple) {
                    // (it is released at its end)
                    return Outcome::Own("yes");
                }
                if !releases {
                    return Outcome::Core(subject, Asked::default());
                }
                if self.holders.release(&mut client.held, triple) {
                    Outcome::Core(subject, Asked::default())
                } else {
                    Outcome::Own("yes")
                }
            }
        }
    }

    /// The subject of a pool that is a connection's own, from its first line on.
    pub fn lease(&mut self, session: u32, client: &mut Client, pool: usize) -> Option<u16> {
        if let Some((_, subject)) = client.leases.iter().find(|(of, _)| *of == pool) {
            return Some(*subject);
        }
        let subject = self.pools.lease(pool)?;
        client.leases.push((pool, subject));
        let (pool, name) = (&self.pools.defined[pool].name, &self.names.subjects[usize::from(subject)]);
        self.sessions.tell_first(session, "leased", self.entries, &format!("{pool} {name}"));
        Some(subject)
    }

    fn told(&self) -> String {
        self.stats.json(&Now {
            open: self.open,
            entries: self.entries,
            syncs: self.sessions.syncs,
            journal: self.journal.size(),
            limit: self.journal.limit(),
            sessions: self.sessions.size(),
            core: self.core.pid(),
            pools: self.pools.counts(),
        })
    }

    /// Writes the sessions file, which the disk has before anything more is said or asked.
    pub fn flush(&mut self) -> Result<(), End> {
        self.sessions.flush()
    }

    /// How many entries there are, and how full the journal is.
    pub fn status(&self) -> String {
        let bytes = self.journal.bytes;
        let limit = self.journal.limit().map_or(String::new(), |limit| format!(" of {limit}"));
        format!("{} entries, {bytes}{limit} bytes in the journal's file", self.entries)
    }
}
