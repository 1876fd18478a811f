//! mlsd: lets many local clients share one `mls serve`, and lets each ask only as the subjects that are its own.
//!
//! Nothing of it is proved. What is proved stands behind it, in the core; what this front is trusted with is who asks.
mod answers;
mod budget;
mod changes;
mod client;
mod clock;
mod core;
mod desk;
mod doors;
mod due;
mod ending;
mod files;
mod hall;
mod holders;
mod inbox;
mod journal;
mod labels;
mod line;
mod listen;
mod many;
mod metrics;
mod names;
mod page;
mod pools;
mod probe;
mod pulse;
mod returns;
mod say;
mod sessions;
mod start;
mod stats;
mod sys;
mod users;
mod watch;
mod who;
mod words;
mod world;

use crate::core::Core;
use desk::Desk;
use ending::End;
use files::Files;
use hall::Hall;
use std::os::unix::io::AsRawFd;
use std::os::unix::net::{UnixListener, UnixStream};
use words::Words;

/// Descriptors that are not clients', and the most connections that there may be.
const RESERVED: u64 = 64;
const CLIENTS_MAX: u64 = 1_024;
/// The core's status where its journal is full, among other faults.
const CORE_REFUSED: i32 = 1;

/// The ends of the pipe by which signals wake the loop.
fn wake() -> Result<(UnixStream, UnixStream), End> {
    let told = |error| End::own("socketpair", error);
    let (wake, waker) = UnixStream::pair().map_err(told)?;
    wake.set_nonblocking(true).and(waker.set_nonblocking(true)).map_err(told)?;
    sys::catch_signals(waker.as_raw_fd(), &[sys::HANGUP]);
    Ok((wake, waker))
}

fn most_clients() -> usize {
    sys::descriptors().saturating_sub(RESERVED).min(CLIENTS_MAX) as usize
}

/// Serves clients until the end.
fn serve(
    desk: &mut Desk,
    held: &[(names::Triple, bool)],
    (wake, waker): (UnixStream, &UnixStream),
    passed: Option<UnixListener>,
) -> Result<(), End> {
    let more = format!("pid {} core {}", std::process::id(), desk.core.pid());
    desk.sessions.tell_front("started", desk.entries, &more);
    desk.flush()?;
    desk.begin_files()?;
    desk.settle(held)?;
    // (until here they end it at once, as a kill does: nobody has asked anything)
    sys::catch_signals(waker.as_raw_fd(), &sys::ENDINGS);
    let (listener, own) = listen::listener(passed, desk.words.socket.as_deref())?;
    listen::notify(&format!("READY=1\nSTATUS={}\n", desk.status()));
    let clients = returns::Clients::new();
    let mut hall = Hall {
        desk,
        clients,
        listener: Some(listener),
        wake,
        drains: None,
        is_ending: false,
        ends: None,
        is_killed: false,
        turn: 0,
    };
    let ended = hall.run();
    if ended.as_ref().err().map_or(true, End::is_core) {
        // (what the core answered before it ended; else who asks may not be on the disk)
        hall.clients.values_mut().for_each(client::Client::send);
    }
    if let Some(path) = own {
        let _ = std::fs::remove_file(path);
    }
    ended
}

fn run() -> Result<(), End> {
    let args = std::env::args_os().skip(1).map(|word| word.into_string());
    let args: Vec<String> = args.collect::<Result<_, _>>().map_err(|_| End::words(words::USAGE))?;
    if let [word, path] = &args[..] {
        if word == "--probe" {
            return probe::probe(path.clone());
        }
    }
    let words = Words::parse(args.into_iter())?;
    let passed = listen::passed();
    let (wake, waker) = wake()?;
    let (core, mut opening) = Core::start(&words.core)?;
    let files = match Files::open(&words, &opening.names) {
        Ok(files) => files,
        Err(end) => {
            let _ = core.end();
            return Err(end);
        }
    };
    if let Some(of_start) = &files.of_start {
        opening.held.iter_mut().for_each(|(triple, is_of_start)| *is_of_start = of_start.contains(triple));
    }
    let held = opening.held.clone();
    let mut desk = Desk::new(words, core, opening, files, most_clients());
    let ended = serve(&mut desk, &held, (wake, &waker), passed);
    desk.put_metrics(false);
    let Desk { core, mut sessions, mut journal, entries, .. } = desk;
    let status = core.end().map_err(|error| End::own("wait", error))?;
    if ended.as_ref().err().map_or(true, End::is_core) {
        sessions.tell_front("ended", entries, &format!("core {status}"));
        sessions.flush()?;
    }
    journal.look();
    let is_full = status.code() == Some(CORE_REFUSED) && journal.is_full();
    match ended {
        Ok(()) if status.success() => Ok(()),
        Ok(()) if is_full => Err(journal.full()),
        Ok(()) => Err(End::core(true, status)),
        Err(end) if end.is_core() && is_full => Err(journal.full()),
        Err(end) => Err(end.with_core(status)),
    }
}

fn main() {
    if let Err(end) = run() {
        say::say(end.told);
        std::process::exit(end.status);
    }
}
