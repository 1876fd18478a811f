//! One connection: a session.
use crate::core::{is_soft, push};
use crate::holders::Held;
use crate::inbox::Inbox;
use crate::sys;
use crate::watch::{Waiting, Watch};
use crate::who::Who;
use std::os::unix::io::{AsRawFd, RawFd};
use std::os::unix::net::UnixStream;

/// Lines of one client that wait for an answer.
const IN_FLIGHT: usize = 64;
/// Bytes of answers that a client has not read, beyond which no line of it is taken.
const OUT_MAX: usize = 4_096;

#[derive(Debug)]
pub struct Client {
    pub sock: UnixStream,
    pub uid: u32,
    pub groups: Vec<u32>,
    pub who: Who,
    pub inbox: Inbox,
    pub output: Vec<u8>,
    pub in_flight: usize,
    pub held: Held,
    /// The pools that it has asked as, and the subject of each that is its own.
    pub leases: Vec<(usize, u16)>,
    pub watch: Watch,
    pub waiting: Waiting,
    /// Places of the output at which the descriptor of the page goes along, and that.
    passes: Vec<usize>,
    page: RawFd,
    /// Whether one of its subjects may get what it asks the labels of.
    pub may_get: bool,
    pub can_read: bool,
    /// It sends no more.
    pub is_ended: bool,
    pub is_gone: bool,
    /// Its uid has used up its lines for now.
    pub is_late: bool,
    /// The line that is next was counted before it had to wait.
    pub is_counted: bool,
    /// The line that is next has to wait for an answer of the core.
    pub waits: bool,
}

impl Client {
    pub fn new(sock: UnixStream, uid: u32, groups: Vec<u32>, who: Who) -> Client {
        Client {
            sock,
            uid,
            groups,
            who,
            inbox: Inbox::default(),
            output: Vec::new(),
            in_flight: 0,
            held: Held::default(),
            leases: Vec::new(),
            watch: Watch::default(),
            waiting: Waiting::default(),
            passes: Vec::new(),
            page: -1,
            may_get: false,
            can_read: false,
            is_ended: false,
            is_gone: false,
            is_late: false,
            is_counted: false,
            waits: false,
        }
    }

    /// Whether a line of it may be taken now.
    pub fn may_ask(&self) -> bool {
        self.in_flight < IN_FLIGHT && self.output.len() < OUT_MAX && !self.is_gone
    }

    /// Whether it has a line that may be taken now, whatever else happens.
    pub fn is_ready(&self) -> bool {
        self.may_ask() && self.inbox.has_line() && !self.is_late && !self.waits
    }

    /// What is to be watched. What isn't served now isn't watched for input, or the loop would not rest.
    pub fn watched(&self, is_draining: bool) -> (RawFd, i16) {
        let reads = self.may_ask() && !self.is_ended && !self.is_late && !is_draining && self.inbox.has_room();
        let events = if reads { sys::IN } else { 0 } | if self.output.is_empty() { 0 } else { sys::OUT };
        (self.sock.as_raw_fd(), events)
    }

    pub fn found(&mut self, revents: i16) {
        self.can_read = revents & sys::IN != 0;
        // (nobody is there to read an answer: no further line of it is taken)
        self.is_gone |= revents & sys::GONE != 0;
    }

    /// An answer, which may have to wait for others.
    pub fn answer(&mut self, text: &[u8]) {
        if let Some(text) = self.waiting.add(text.to_vec()) {
            self.tell(&text);
        }
    }

    /// An answer that waits for nobody.
    pub fn tell(&mut self, text: &[u8]) {
        self.in_flight -= 1;
        self.output.extend_from_slice(text);
        self.output.push(b'\n');
    }

    /// An answer with the descriptor of the page.
    pub fn pass(&mut self, text: &[u8], page: RawFd) {
        self.page = page;
        self.passes.push(self.output.len());
        self.tell(text);
    }

    pub fn send(&mut self) {
        while let Some(place) = self.passes.first().copied() {
            let sent = if place > 0 {
                let mut front = self.output[..place].to_vec();
                self.is_gone |= !push(&mut self.sock, &mut front);
                place - front.len()
            } else {
                let end = self.output.iter().position(|b| *b == b'\n').map_or(self.output.len(), |at| at + 1);
                match sys::send_with(self.sock.as_raw_fd(), &self.output[..end], self.page) {
                    Ok(count) => {
                        self.passes.remove(0);
                        count
                    }
                    Err(error) => {
                        self.is_gone |= !is_soft(&error);
                        0
                    }
                }
            };
            if sent == 0 {
                return;
            }
            self.output.drain(..sent);
            self.passes.iter_mut().for_each(|place| *place -= sent);
        }
        self.is_gone |= !push(&mut self.sock, &mut self.output);
    }

    /// Whether nothing is due to it any more. A line without its newline is dropped.
    pub fn is_done(&self) -> bool {
        let is_answered = self.in_flight == 0 && self.output.is_empty();
        self.is_gone || (self.is_ended && is_answered && !self.inbox.has_line())
    }
}
