//! The loop: one thread, which waits in `poll` alone and in the sync of the sessions file.
use crate::client::Client;
use crate::core::is_soft;
use crate::desk::Desk;
use crate::ending::End;
use crate::inbox::Line;
use crate::line::{judge, Judged, Verdict};
use crate::returns::Clients;
use crate::say::say;
use crate::sys::{self, PollFd};
use std::os::unix::io::AsRawFd;
use std::os::unix::net::{UnixListener, UnixStream};
use std::time::{Duration, Instant};

/// How long a client waits whose uid has used up its lines.
const LATE: Duration = Duration::from_millis(10);
/// How long a core that answers nothing lives behind the time for answers, and behind the end of what it is asked.
const GRACE: Duration = Duration::from_secs(3);
const STUCK: Duration = Duration::from_secs(4);

pub struct Hall<'a> {
    pub desk: &'a mut Desk,
    pub clients: Clients,
    pub listener: Option<UnixListener>,
    pub wake: UnixStream,
    /// Until when answers are delivered, once the front is to end.
    pub drains: Option<Instant>,
    /// The core was told that nothing more is asked.
    pub is_ending: bool,
    /// Since when.
    pub ends: Option<Instant>,
    pub is_killed: bool,
    /// The session that a round begins with.
    pub turn: u32,
}

/// Reads once, and takes what lines it may; what is left is taken in a later round.
fn serve(desk: &mut Desk, session: u32, client: &mut Client) {
    client.is_late = false;
    client.waits = false;
    let (uid, rate) = (client.uid, client.who.rate());
    if client.can_read {
        match client.inbox.read(&mut client.sock) {
            Ok((0, _)) => client.is_ended = true,
            // (bytes without an end of line count as a line)
            Ok((_, has_end)) => client.is_late = !has_end && !desk.budgets.line(uid, rate, desk.now),
            Err(error) => client.is_gone |= !is_soft(&error),
        }
    }
    while client.may_ask() && desk.core.has_room() && client.inbox.has_line() {
        if !client.is_counted && !desk.budgets.line(uid, rate, desk.now) {
            client.is_late = true;
            break;
        }
        client.is_counted = true;
        let judged = match client.inbox.line() {
            Some(Line::Whole(line)) => judge(&desk.names, &client.who, line),
            _ => Judged { is_question: false, verdict: Verdict::Answer("bad form") },
        };
        if !desk.take(session, client, judged) {
            client.waits = true;
            break;
        }
        client.is_counted = false;
        client.inbox.taken();
    }
}

impl Hall<'_> {
    /// Serves until it is told to end, and has.
    pub fn run(&mut self) -> Result<(), End> {
        while self.round()? {}
        Ok(())
    }

    fn linger(&self) -> Duration {
        Duration::from_millis(if self.drains.is_some() { 0 } else { self.desk.words.linger })
    }

    /// Waits until something is to be done.
    fn wait(&self) -> Result<Vec<PollFd>, End> {
        let mut fds = Vec::with_capacity(self.clients.len() + 3);
        let mut watch = |fd, events| fds.push(PollFd { fd, events, revents: 0 });
        let (core, events, most) = self.desk.core.watched(self.linger());
        watch(self.wake.as_raw_fd(), sys::IN);
        watch(core, events);
        watch(self.listener.as_ref().map_or(-1, AsRawFd::as_raw_fd), sys::IN);
        for client in self.clients.values() {
            let (fd, events) = client.watched(self.drains.is_some());
            watch(fd, events);
        }
        sys::poll(&mut fds, self.timeout(most)).map_err(|error| End::own("poll", error))?;
        Ok(fds)
    }

    /// How many milliseconds the loop may wait where the core's lines may wait so long; less than 0 is no limit.
    fn timeout(&self, core: Option<Duration>) -> i32 {
        let has_room = self.drains.is_none() && self.desk.core.has_room();
        if has_room && self.clients.values().any(Client::is_ready) {
            // (it has read its answers since its lines were looked at, and perhaps nothing else comes to wake the loop)
            return 0;
        }
        let is_late = self.drains.is_some() || self.clients.values().any(|client| client.is_late);
        let late = if is_late { Some(LATE) } else { None };
        let most = [core, late, self.desk.until_metrics(), Some(self.desk.until_beat())].into_iter().flatten().min();
        // (a part of a millisecond counts as one, or the loop would not rest)
        most.map_or(-1, |most| most.as_millis() as i32 + 1)
    }

    /// One round; false once all is over.
    fn round(&mut self) -> Result<bool, End> {
        let fds = self.wait()?;
        self.desk.now = Instant::now();
        for (client, fd) in self.clients.values_mut().zip(&fds[3..]) {
            client.found(fd.revents);
        }
        if fds[0].revents != 0 {
            self.signals();
        }
        if fds[1].revents & !sys::OUT != 0 && !self.desk.hear(&mut self.clients)? {
            return if self.is_ending && !self.is_killed { Ok(false) } else { Err(End::strange("the core ended")) };
        }
        if fds[2].revents != 0 {
            self.accept();
        }
        if self.drains.is_none() {
            self.serve();
        }
        self.desk.take_acks(&mut self.clients);
        self.desk.answer_own(&mut self.clients);
        // (who asks is on the disk before anything of it is said or asked)
        self.desk.flush()?;
        self.clients.values_mut().for_each(Client::send);
        if self.close() {
            // (answers may have waited for who is gone)
            self.clients.values_mut().for_each(Client::send);
        }
        self.desk.flush()?;
        self.desk.beat(!self.is_ending);
        self.desk.tell_status();
        self.desk.measure();
        self.desk.core.send(self.linger());
        self.end_still();
        if self.drains.is_some() && self.clients.is_empty() && self.desk.core.due.is_empty() && !self.is_ending {
            self.is_ending = true;
            self.ends = Some(self.desk.now);
            self.desk.core.close().map_err(|error| End::own("core", error))?;
        }
        Ok(true)
    }

    /// A core that stands still while the front is to end is killed: what it answered is on the disk.
    fn end_still(&mut self) {
        let now = self.desk.now;
        let is_over = self.drains.map_or(false, |drains| now > drains + GRACE) && self.desk.is_still();
        let is_stuck = self.ends.map_or(false, |ends| now > ends + STUCK);
        if (is_over || is_stuck) && !self.is_killed {
            say("the core stands still: it is killed");
            self.is_killed = true;
            self.desk.core.kill();
        }
    }

    /// Each round begins behind the client that the last began with.
    fn serve(&mut self) {
        for (session, client) in self.clients.range_mut(self.turn..) {
            serve(self.desk, *session, client);
        }
        for (session, client) in self.clients.range_mut(..self.turn) {
            serve(self.desk, *session, client);
        }
        let next = self.clients.range(self.turn.saturating_add(1)..).next();
        self.turn = next.map_or(0, |(session, _)| *session);
    }

    /// Ends the connections to which nothing is due any more; whether there are some.
    fn close(&mut self) -> bool {
        let is_late = self.drains.map_or(false, |end| Instant::now() > end);
        let is_drained = self.drains.is_some() && self.desk.core.due.is_empty();
        let is_told = |client: &Client| client.output.is_empty() && client.waiting.is_empty();
        let is_over = |client: &Client| client.is_done() || (is_drained && (is_late || is_told(client)));
        let over: Vec<u32> = self.clients.iter().filter(|(_, client)| is_over(client)).map(|(key, _)| *key).collect();
        let is_any = !over.is_empty();
        for session in over {
            if let Some(client) = self.clients.remove(&session) {
                self.desk.acked(&mut self.clients, session, &client.watch.owed());
                self.desk.close(session, client);
            }
        }
        is_any
    }
}
