//! What is taken away from connections, and who is told: whoever watches, before the answer of the request that took it.
use crate::client::Client;
use crate::desk::Desk;
use crate::names::{Triple, MODES};
use crate::returns::Clients;
use crate::sys::{self, PollFd};
use crate::world::Taken;
use std::collections::VecDeque;
use std::os::unix::io::AsRawFd;
use std::time::{Duration, Instant};

/// How long a connection may take to read what it lost; the answers wait for that.
const PATIENCE: Duration = Duration::from_millis(100);

/// How a connection watches, and whose answers wait for what it writes.
#[derive(Default, Debug)]
pub struct Watch {
    is_told: bool,
    has_acks: bool,
    /// For each line that it was told and has not written `ack` for, the session whose answer waits.
    owes: VecDeque<u32>,
}

/// Answers that wait until watchers wrote `ack`, in their order.
#[derive(Default, Debug)]
pub struct Waiting {
    answers: VecDeque<(Vec<u32>, Vec<u8>)>,
    /// The watchers for which the next answer is to wait.
    next: Vec<u32>,
}

impl Watch {
    pub fn begin(&mut self, has_acks: bool) {
        self.is_told = true;
        self.has_acks = has_acks;
    }

    pub fn owed(&self) -> Vec<u32> {
        self.owes.iter().copied().collect()
    }

    /// It wrote `ack` for the first line for which it had not: whose answer waits less.
    pub fn ack(&mut self) -> Option<u32> {
        self.owes.pop_front()
    }
}

fn forget(watchers: &mut Vec<u32>, watcher: u32) -> bool {
    match watchers.iter().position(|it| *it == watcher) {
        Some(place) => {
            watchers.swap_remove(place);
            true
        }
        None => false,
    }
}

impl Waiting {
    /// The answer, where it waits for nobody.
    pub fn add(&mut self, answer: Vec<u8>) -> Option<Vec<u8>> {
        if self.next.is_empty() && self.answers.is_empty() {
            return Some(answer);
        }
        self.answers.push_back((std::mem::take(&mut self.next), answer));
        None
    }

    pub fn is_empty(&self) -> bool {
        self.answers.is_empty()
    }

    /// A watcher wrote one `ack`, or is gone: the answers that wait for nobody now.
    fn acked(&mut self, watcher: u32) -> Vec<Vec<u8>> {
        let is_there = self.answers.iter_mut().any(|(watchers, _)| forget(watchers, watcher));
        if !is_there {
            forget(&mut self.next, watcher);
        }
        let ready = self.answers.iter().take_while(|(watchers, _)| watchers.is_empty()).count();
        self.answers.drain(..ready).map(|(_, answer)| answer).collect()
    }
}

impl Client {
    /// The subject as the connection names it, and the object as START does.
    fn shown(&self, desk: &Desk, triple: Triple) -> String {
        let pool = self.leases.iter().find(|(_, subject)| *subject == triple.subject).map(|(pool, _)| *pool);
        let subject = match pool {
            Some(pool) => &desk.pools.defined[pool].name,
            None => &desk.names.subjects[usize::from(triple.subject)],
        };
        let object = desk.names.object_name(triple.object);
        format!("! lost {subject} {} {object}\n", MODES[usize::from(triple.mode)])
    }
}

impl Desk {
    /// A request of a session has taken something away: who watches is told now, before its answer is.
    pub fn take_away(&mut self, clients: &mut Clients, taken: &Taken, by: u32) {
        let is_taken = |triple: &Triple| match taken {
            Taken::Nothing => false,
            Taken::Access(access) | Taken::Release(access) => triple == access,
            Taken::Objects(gone) => gone.contains(&triple.object),
        };
        let (mut told, mut is_lost) = (Vec::new(), !matches!(taken, Taken::Nothing | Taken::Release(_)));
        let mut acks = Vec::new();
        for (session, client) in clients.iter_mut() {
            let is_own = *session == by && matches!(taken, Taken::Release(_));
            for triple in self.holders.taken(&mut client.held, is_taken) {
                is_lost |= !is_own;
                if client.watch.is_told && !is_own && !client.is_gone {
                    let line = client.shown(self, triple);
                    client.output.extend_from_slice(line.as_bytes());
                    told.push(*session);
                    if client.watch.has_acks {
                        client.watch.owes.push_back(by);
                        acks.push(*session);
                    }
                }
            }
        }
        if is_lost {
            // (who has the page sees that before the answer)
            self.raise();
        }
        if let Some(client) = clients.get_mut(&by) {
            client.waiting.next.append(&mut acks);
        }
        tell(clients, &told);
    }

    /// A watcher wrote `ack` so often for answers of these sessions, or is gone.
    pub fn acked(&mut self, clients: &mut Clients, watcher: u32, sessions: &[u32]) {
        for session in sessions {
            if let Some(client) = clients.get_mut(session) {
                for answer in client.waiting.acked(watcher) {
                    client.tell(&answer);
                }
            }
        }
    }

    /// What watchers wrote in this round.
    pub fn take_acks(&mut self, clients: &mut Clients) {
        for (watcher, session) in std::mem::take(&mut self.acks) {
            self.acked(clients, watcher, &[session]);
        }
    }
}

/// Sends all that these sessions are to be told. Who doesn't take it is closed.
fn tell(clients: &mut Clients, told: &[u32]) {
    let ends = Instant::now() + PATIENCE;
    loop {
        let mut fds = Vec::new();
        for (_, client) in clients.iter_mut().filter(|(session, _)| told.contains(session)) {
            client.send();
            if !client.output.is_empty() && !client.is_gone {
                fds.push(PollFd { fd: client.sock.as_raw_fd(), events: sys::OUT, revents: 0 });
            }
        }
        let left = ends.saturating_duration_since(Instant::now());
        if fds.is_empty() {
            return;
        }
        if left.is_zero() || sys::poll(&mut fds, left.as_millis() as i32 + 1).is_err() {
            break;
        }
    }
    let late = clients.iter_mut().filter(|(session, client)| told.contains(session) && !client.output.is_empty());
    late.for_each(|(_, client)| client.is_gone = true);
}

#[cfg(test)]
mod tests {
    use super::*;

    #[test]
    fn answers_wait_for_acks_in_their_order() {
        let mut waiting = Waiting::default();
        assert_eq!(waiting.add(b"a".to_vec()), Some(b"a".to_vec()));
        waiting.next = vec![7, 8, 7];
        assert_eq!((waiting.add(b"b".to_vec()), waiting.add(b"c".to_vec())), (None, None));
        assert!(waiting.acked(9).is_empty() && waiting.acked(7).is_empty() && waiting.acked(8).is_empty());
        assert_eq!(waiting.acked(7), [b"b".to_vec(), b"c".to_vec()]);
        waiting.next = vec![7];
        assert!(waiting.acked(7).is_empty());
        assert_eq!(waiting.add(b"d".to_vec()), Some(b"d".to_vec()), "it was acked before the answer came");
    }

    #[test]
    fn an_ack_is_for_the_first_line() {
        let mut watch = Watch::default();
        watch.owes.extend([4, 5, 4]);
        assert_eq!(
            (watch.ack(), watch.owed(), watch.ack(), watch.ack(), watch.ack()),
            (Some(4), vec![5, 4], Some(5), Some(4), None)
        );
    }
}
