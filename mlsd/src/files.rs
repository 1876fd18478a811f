//! The files of the front's own: who may ask, and the sessions.
use crate::ending::End;
use crate::journal::Journal;
use crate::names::{Names, Triple};
use crate::pools::Pools;
use crate::sessions::Sessions;
use crate::start::Start;
use crate::sys;
use crate::users::{self, Users};
use crate::words::Words;
use crate::world::World;
use std::collections::HashSet;
use std::process::{Command, Stdio};

pub struct Files {
    pub users: Users,
    pub pools: Pools,
    pub sessions: Sessions,
    pub journal: Journal,
    pub world: World,
    /// What START opens with, where the core doesn't tell that.
    pub of_start: Option<HashSet<Triple>>,
}

impl Files {
    /// Once the core has the journal's lock, so nobody else has the sessions file.
    pub fn open(words: &Words, names: &Names) -> Result<Files, End> {
        let users = Files::users(words, names).map_err(|told| End::own("users", told))?;
        let journal = Journal::new(&words.journal, words.in_segments);
        let (mut pools, mut of_start) = (Pools::default(), None);
        if words.in_segments || !users.pools.is_empty() {
            let start = start(words, names)?;
            pools = Pools::new(&users.pools, &start).map_err(|error| End::own(&words.users, error))?;
            // (the core tells what the last state has, from which it began)
            of_start = Some(start.accesses(names)).filter(|_| words.in_segments);
        }
        let sessions = Sessions::open(&words.sessions)?;
        let world = world(words, names)?;
        Ok(Files { users, pools, sessions, journal, world, of_start })
    }

    pub fn users(words: &Words, names: &Names) -> Result<Users, String> {
        let text = users::text(&words.users)?;
        Users::parse(&text, names, &sys::id_of).map_err(|told| format!("{}: {told}", words.users))
    }
}

/// The state that a journal leads to, as the core's program tells it.
fn state(words: &Words, journal: &str) -> Result<Option<String>, End> {
    let program = words.program();
    let mut command = Command::new(&program[0]);
    command.args(&program[1..]).args(["state", words.start(), journal]).stderr(Stdio::inherit());
    let output = command.output().map_err(|error| End::own(&program[0], error))?;
    Ok(Some(String::from_utf8_lossy(&output.stdout).into_owned()).filter(|_| output.status.success()))
}

/// What START says; it is asked only where that is needed.
fn start(words: &Words, names: &Names) -> Result<Start, End> {
    let start = state(words, "/dev/null")?.and_then(|text| Start::read(&text));
    let start = start.filter(|start| start.is_of(&names.subjects));
    start.ok_or_else(|| End::own(words.start(), "is not the start that the core has"))
}

/// What the monitor's state is before anything is asked.
fn world(words: &Words, names: &Names) -> Result<World, End> {
    let start = std::fs::read_to_string(words.start()).map_err(|error| End::own(words.start(), error))?;
    let world = state(words, &words.journal)?.and_then(|text| World::read(&text, &start, names));
    world.ok_or_else(|| End::own(&words.journal, "its state is not that of the core"))
}
