//! The core: one `mls serve` on a socketpair, and all that waits for its answers, in the order in which it was asked.
use crate::due::{Asked, Due, Queue, What};
use crate::ending::End;
use crate::names::Opening;
use crate::sys;
use std::io::{self, BufRead, BufReader, ErrorKind, Read, Write};
use std::os::unix::io::{AsRawFd, OwnedFd, RawFd};
use std::os::unix::net::UnixStream;
use std::process::{Child, Command, ExitStatus};
use std::time::{Duration, Instant};

/// Bytes for the core beyond which no line of anybody is taken.
const ROOM: usize = 262_144;
/// No answer is longer.
const ANSWER_MAX: usize = 4_096;
const PIECE: usize = 65_536;

#[derive(Debug)]
pub struct Core {
    child: Child,
    stream: UnixStream,
    to: Vec<u8>,
    from: Vec<u8>,
    pub due: Queue,
    /// Whether `to` has more than releases, and since when it has any.
    is_urgent: bool,
    since: Instant,
}

pub fn is_soft(error: &io::Error) -> bool {
    matches!(error.kind(), ErrorKind::WouldBlock | ErrorKind::Interrupted)
}

/// Writes what can be written now; false where the other end is gone.
pub fn push(stream: &mut UnixStream, bytes: &mut Vec<u8>) -> bool {
    let mut done = 0;
    let is_there = loop {
        if done == bytes.len() {
            break true;
        }
        match stream.write(&bytes[done..]) {
            Ok(count) => done += count,
            Err(error) => break is_soft(&error),
        }
    };
    bytes.drain(..done);
    is_there
}

fn opening(stream: &UnixStream) -> Option<Opening> {
    let mut reader = BufReader::with_capacity(PIECE, stream);
    let (mut opening, mut line) = (Opening::default(), String::new());
    loop {
        line.clear();
        reader.read_line(&mut line).ok()?;
        if opening.take(line.strip_suffix('\n')?)? {
            return Some(opening);
        }
    }
}

impl Core {
    /// Starts it, and waits until it is ready.
    pub fn start(words: &[String]) -> Result<(Core, Opening), End> {
        let told = |error: io::Error| End::own(&words[0], error);
        let (stream, theirs) = UnixStream::pair().map_err(told)?;
        let answers = theirs.try_clone().map_err(told)?;
        let mut command = Command::new(&words[0]);
        command.args(&words[1..]).stdin(OwnedFd::from(theirs)).stdout(OwnedFd::from(answers));
        for name in ["LISTEN_FDS", "LISTEN_PID", "LISTEN_FDNAMES", "NOTIFY_SOCKET"] {
            command.env_remove(name);
        }
        sys::leave_group(&mut command);
        let mut child = command.spawn().map_err(told)?;
        // (it holds the child's ends, so that the core's death would not be seen)
        drop(command);
        let opening = match opening(&stream) {
            Some(opening) => opening,
            None => {
                drop(stream);
                return Err(End::core(false, child.wait().map_err(told)?));
            }
        };
        stream.set_nonblocking(true).map_err(told)?;
        let (to, from, due) = (Vec::new(), Vec::new(), Queue::default());
        Ok((Core { child, stream, to, from, due, is_urgent: false, since: Instant::now() }, opening))
    }

    pub fn pid(&self) -> u32 {
        self.child.id()
    }

    /// Asks a line, without its newline; `what` says what is to be done with its answer.
    pub fn ask(&mut self, session: u32, line: &str, is_question: bool, since: Instant, asked: Asked, is_urgent: bool) {
        if self.to.is_empty() {
            self.since = Instant::now();
        }
        self.is_urgent |= is_urgent;
        let sign = if is_question { "? " } else { "" };
        // (writing to a vector does not fail)
        let _ = writeln!(self.to, "{session} {sign}{line}");
        self.due.add(Due { session, since, is_question, what: What::Core(asked) });
    }

    pub fn has_room(&self) -> bool {
        self.to.len() < ROOM
    }

    /// Whether what is there for it may go now: releases wait for company.
    fn goes(&self, linger: Duration) -> bool {
        self.is_urgent || self.since.elapsed() >= linger
    }

    /// What is to be watched, and how long at most.
    pub fn watched(&self, linger: Duration) -> (RawFd, i16, Option<Duration>) {
        let fd = self.stream.as_raw_fd();
        if self.to.is_empty() {
            (fd, sys::IN, None)
        } else if self.goes(linger) {
            (fd, sys::IN | sys::OUT, None)
        } else {
            (fd, sys::IN, linger.checked_sub(self.since.elapsed()))
        }
    }

    /// Sends what may go. That the core is gone is heard, behind all that it has answered.
    pub fn send(&mut self, linger: Duration) {
        if self.to.is_empty() || !self.goes(linger) {
            return;
        }
        if !push(&mut self.stream, &mut self.to) {
            self.to.clear();
        }
        self.is_urgent = !self.to.is_empty();
    }

    /// Reads the answers that have come: their lines, and whether the core is there.
    pub fn hear(&mut self) -> Result<(Vec<u8>, bool), End> {
        let mut piece = [0; PIECE];
        let is_there = match self.stream.read(&mut piece) {
            Ok(count) => {
                self.from.extend_from_slice(&piece[..count]);
                count > 0
            }
            Err(error) => is_soft(&error),
        };
        let end = self.from.iter().rposition(|b| *b == b'\n').map_or(0, |place| place + 1);
        let rest = self.from.split_off(end);
        if rest.len() > ANSWER_MAX {
            return Err(End::strange("the core's answer has no end"));
        }
        // (a part of an answer is none)
        Ok((std::mem::replace(&mut self.from, rest), is_there))
    }

    /// What it is about is not waited for.
    pub fn kill(&mut self) {
        let _ = self.child.kill();
    }

    /// It is asked nothing more.
    pub fn close(&mut self) -> io::Result<()> {
        self.stream.shutdown(std::net::Shutdown::Write)
    }

    /// Waits for its end.
    pub fn end(mut self) -> io::Result<ExitStatus> {
        drop(self.stream);
        self.child.wait()
    }
}
