//! What waits for an answer, in the order in which it was asked. Each line that the core is asked has one answer, so
//! this order routes them; the front's own answers stand in it too, so each client's come in their order.
use crate::names::Triple;
use std::collections::VecDeque;
use std::time::Instant;

/// An answer that is due.
#[derive(Debug)]
pub struct Due {
    pub session: u32,
    pub since: Instant,
    pub is_question: bool,
    pub what: What,
}

#[derive(Debug)]
pub enum What {
    /// The front's own; it waits for its turn.
    Own(String),
    /// What is told is looked up when its turn comes.
    Labels(Labelled),
    /// It comes with the descriptor of the page.
    Page,
    Core(Asked),
}

/// What has labels, by its number.
#[derive(Clone, Copy, Debug, PartialEq, Eq)]
pub enum Labelled {
    Subject(u16),
    Object(u16),
}

/// What is to be done when the core has answered.
#[derive(Default, Debug)]
pub struct Asked {
    /// The get that is counted already.
    pub get: Option<Triple>,
    /// The uid whose day an entry was taken of.
    pub charged: Option<u32>,
    /// Whether the front asks it for itself: whether the core answers.
    pub is_own: bool,
    /// What is told in place of the answer.
    pub tells: Option<&'static str>,
    /// An object's labels, for which this asks whether a subject of the client's may get it, and whether it is the last.
    pub labels: Option<(u16, bool)>,
    /// The subject and the action of what may change the state.
    pub act: Option<(u16, String)>,
    /// Whether it is asked for one subject of a pool, among all.
    pub is_one_of_many: bool,
    /// A subject of a pool that is on its way back, and whether this is a release.
    pub returns: Option<(u16, bool)>,
}

#[derive(Default, Debug)]
pub struct Queue(VecDeque<Due>);

impl Queue {
    pub fn add(&mut self, due: Due) {
        self.0.push_back(due);
    }

    /// Since when the oldest waits.
    pub fn oldest(&self) -> Option<Instant> {
        self.0.front().map(|due| due.since)
    }

    pub fn is_empty(&self) -> bool {
        self.0.is_empty()
    }

    /// The next, where it is the front's own answer.
    pub fn next_own(&mut self) -> Option<Due> {
        match self.0.front() {
            Some(Due { what: What::Own(_) | What::Labels(_) | What::Page, .. }) => self.0.pop_front(),
            _ => None,
        }
    }

    /// The next, where the core's answer to that session is due.
    pub fn next_of(&mut self, session: u32) -> Option<Due> {
        match self.0.front() {
            Some(Due { session: of, what: What::Core(_), .. }) if *of == session => self.0.pop_front(),
            _ => None,
        }
    }
}
