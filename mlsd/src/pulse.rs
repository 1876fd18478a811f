//! Whether the core answers. It is asked where nobody else asks it, that it stands still is told, and the service
//! manager's watchdog is fed by its answers alone.
use crate::desk::Desk;
use crate::due::Asked;
use crate::listen::mention;
use crate::say::say;
use std::time::{Duration, Instant};

/// How long it may be quiet before it is asked, and how long it may answer nothing.
const QUIET: Duration = Duration::from_secs(2);
const STILL: Duration = Duration::from_secs(5);
/// How often the service manager is told how many entries there are, where there are more than before.
const TOLD: Duration = Duration::from_secs(15);
/// What has one answer of any core, without an entry.
pub const QUESTION: &str = "#0 check execute #0";

#[derive(Debug)]
pub struct Pulse {
    /// When it answered last.
    heard: Instant,
    /// Since when it answers nothing, where that was told.
    still: Option<Instant>,
    quiet: Duration,
    has_watchdog: bool,
    /// When it was fed.
    fed: Option<Instant>,
    /// When the service manager was told how many entries there are, and how many.
    told: (Instant, u64),
}

/// How long the service manager waits to be told that all is well.
fn watchdog() -> Option<Duration> {
    let number = |name| std::env::var(name).ok()?.parse::<u64>().ok();
    let is_own = number("WATCHDOG_PID").map_or(true, |pid| pid == u64::from(std::process::id()));
    number("WATCHDOG_USEC").filter(|_| is_own).map(Duration::from_micros)
}

impl Pulse {
    pub fn new(now: Instant) -> Pulse {
        let watchdog = watchdog();
        let quiet = watchdog.map_or(QUIET, |most| QUIET.min(most / 4));
        Pulse { heard: now, still: None, quiet, has_watchdog: watchdog.is_some(), fed: None, told: (now, 0) }
    }
}

impl Desk {
    /// Since when the core owes an answer and gives none.
    fn waits_since(&self) -> Option<Instant> {
        let oldest = self.core.due.oldest()?;
        Some(oldest.max(self.pulse.heard))
    }

    /// How long the core may still be quiet: releases wait for company.
    fn patience(&self) -> Duration {
        STILL + Duration::from_millis(self.words.linger)
    }

    /// Whether the core answers nothing though it should.
    pub fn is_still(&self) -> bool {
        self.waits_since().map_or(false, |since| self.now.duration_since(since) >= self.patience())
    }

    /// How long the oldest line waits for its answer.
    pub fn oldest(&self) -> Duration {
        self.core.due.oldest().map_or(Duration::ZERO, |since| self.now.duration_since(since))
    }

    /// The core has answered.
    pub fn is_heard(&mut self) {
        if let Some(since) = self.pulse.still.take() {
            say(format!("the core answers again, after {} s", self.now.duration_since(since).as_secs()));
        }
        self.pulse.heard = self.now;
        // (and not with each answer, which would wake the manager hundreds of times a second)
        let is_due = |fed: Instant| self.now.duration_since(fed) >= self.pulse.quiet / 2;
        if self.pulse.has_watchdog && self.pulse.fed.map_or(true, is_due) {
            mention("WATCHDOG=1");
            self.pulse.fed = Some(self.now);
        }
    }

    /// Tells that the core stands still, or asks it where it is quiet.
    pub fn beat(&mut self, may_ask: bool) {
        match self.waits_since() {
            Some(since) if self.is_still() && self.pulse.still.is_none() => {
                let (pid, seconds) = (self.core.pid(), self.now.duration_since(since).as_secs());
                say(format!("the core, process {pid}, has answered nothing for {seconds} s"));
                self.pulse.still = Some(since);
            }
            None if may_ask && self.now.duration_since(self.pulse.heard) >= self.pulse.quiet => {
                let asked = Asked { is_own: true, ..Asked::default() };
                self.core.ask(0, QUESTION, false, self.now, asked, true);
            }
            _ => (),
        }
    }

    /// Tells the service manager how many entries there are.
    pub fn tell_status(&mut self) {
        let (told, entries) = self.pulse.told;
        if entries != self.entries && self.now.duration_since(told) >= TOLD {
            mention(&format!("STATUS={}", self.status()));
            self.pulse.told = (self.now, self.entries);
        }
    }

    /// How long nothing of this is to be done.
    pub fn until_beat(&self) -> Duration {
        let since = |instant: Instant| self.now.duration_since(instant);
        match self.waits_since() {
            Some(_) if self.pulse.still.is_some() => QUIET,
            Some(waits) => self.patience().saturating_sub(since(waits)),
            None => self.pulse.quiet.saturating_sub(since(self.pulse.heard)),
        }
    }
}
