//! What comes to the loop from outside but lines and answers: connections, and signals.
use crate::client::Client;
use crate::core::is_soft;
use crate::desk::Desk;
use crate::files::Files;
use crate::hall::Hall;
use crate::listen::{mention, notify};
use crate::say::say;
use crate::sys::{self, Peer};
use crate::who::Who;
use std::io::{Read, Write};
use std::os::unix::io::AsRawFd;
use std::os::unix::net::{UnixListener, UnixStream};
use std::time::{Duration, Instant};

/// How long clients may take to read their last answers.
const DRAIN: Duration = Duration::from_secs(5);
/// Connections that are taken in one round.
const AT_ONCE: usize = 64;

/// More connections than anybody else root may have, so that it can ask how the front does.
const OF_ROOT: usize = 8;

impl Desk {
    /// A connection begins: its session, or why there is none.
    pub fn admit(&mut self, peer: &Peer, groups: &[u32]) -> Result<(u32, Who), &'static str> {
        let who = self.users.who(&self.names, peer.uid, groups).ok_or("not known")?;
        let most = self.most + if who.is_root { OF_ROOT } else { 0 };
        if self.open >= most || !self.budgets.connect(peer.uid, who.clients(), who.rate(), self.now) {
            return Err("busy");
        }
        // (its lines in the sessions file take room on the disk as an entry does)
        let may = self.may_write(peer.uid, who.day());
        let session = match self.sessions.next() {
            Some(session) if may => session,
            _ => {
                self.budgets.disconnect(peer.uid);
                return Err("busy");
            }
        };
        self.open += 1;
        self.stats.opened += 1;
        let more = format!("uid {} pid {} as {}", peer.uid, peer.pid, who.shown(&self.names));
        self.sessions.tell_first(session, "opened", self.entries, &more);
        Ok((session, who))
    }
}

impl Hall<'_> {
    pub fn signals(&mut self) {
        let mut numbers = [0; 64];
        let count = self.wake.read(&mut numbers).unwrap_or(0);
        if numbers[..count].iter().any(|number| *number != sys::HANGUP) && self.drains.is_none() {
            self.drains = Some(Instant::now() + DRAIN);
            self.listener = None;
            mention("STOPPING=1");
        }
        if numbers[..count].contains(&sys::HANGUP) && self.drains.is_none() {
            notify("RELOADING=1");
            match self.reload() {
                Ok(()) => self.desk.sessions.tell_front("reloaded", self.desk.entries, "users"),
                Err(told) => {
                    say(format!("{told}: the users are as they were"));
                    self.desk.sessions.tell_front("refused", self.desk.entries, "users");
                }
            }
            notify("READY=1");
        }
    }

    /// Reads the users anew. A connection that may no longer ask as all that it could is closed.
    fn reload(&mut self) -> Result<(), String> {
        let desk = &self.desk;
        let users = Files::users(&desk.words, &desk.names)?;
        if users.pools != desk.pools.defined {
            return Err(format!("{}: other pools need a new start of mlsd", desk.words.users));
        }
        for client in self.clients.values_mut() {
            match users.who(&desk.names, client.uid, &client.groups) {
                Some(who) if who.covers(&client.who) => client.who = who,
                _ => client.is_gone = true,
            }
        }
        self.desk.users = users;
        Ok(())
    }

    pub fn accept(&mut self) {
        for _ in 0..AT_ONCE {
            match self.listener.as_ref().map(UnixListener::accept) {
                Some(Ok((sock, _))) => self.admit(sock),
                Some(Err(error)) if !is_soft(&error) => {
                    // (there are no descriptors: what waits stays readable)
                    std::thread::sleep(Duration::from_millis(1));
                    break;
                }
                _ => break,
            }
        }
    }

    fn admit(&mut self, mut sock: UnixStream) {
        let found = sock.set_nonblocking(true).and_then(|()| sys::peer(sock.as_raw_fd()));
        let (peer, groups) = match found {
            Ok(found) => found,
            Err(_) => return,
        };
        match self.desk.admit(&peer, &groups) {
            Ok((session, who)) => {
                let mut client = Client::new(sock, peer.uid, groups, who);
                client.output = format!("session {session}\n").into_bytes();
                self.clients.insert(session, client);
            }
            Err(why) => {
                self.desk.stats.refused.add(why.as_bytes());
                // (where it can't be told, it finds the end)
                let _ = writeln!(sock, "{why}");
            }
        }
    }
}
