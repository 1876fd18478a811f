//! What each uid has used of what it may: connections, lines a second, and entries and notes a day.
use std::collections::HashMap;
use std::time::Instant;

/// So many seconds' worth of lines may come at once.
const BURST: f64 = 5.0;

#[derive(Debug)]
struct Budget {
    clients: u32,
    lines: f64,
    at: Instant,
    day: u64,
    /// Entries and notes that were made today, and lines in flight that may make one.
    today: u32,
    pending: u32,
}

/// Whether a line may be asked that may make an entry.
#[derive(Clone, Copy, Debug, PartialEq, Eq)]
pub enum Day {
    /// It is counted as pending.
    Ask,
    /// It is known once those that are pending are answered.
    Wait,
    Over,
}

#[derive(Default, Debug)]
pub struct Budgets {
    of_uids: HashMap<u32, Budget>,
    /// The latest day that the clock has said.
    day: u64,
}

impl Budgets {
    fn of(&mut self, uid: u32, now: Instant) -> &mut Budget {
        self.of_uids.entry(uid).or_insert(Budget {
            clients: 0,
            lines: f64::INFINITY,
            at: now,
            day: 0,
            today: 0,
            pending: 0,
        })
    }

    /// Takes one line of so many a second; 0 is no limit.
    pub fn line(&mut self, uid: u32, rate: u32, now: Instant) -> bool {
        if rate == 0 {
            return true;
        }
        let budget = self.of(uid, now);
        let grown = now.duration_since(budget.at).as_secs_f64() * f64::from(rate);
        budget.lines = (budget.lines + grown).min(BURST * f64::from(rate));
        budget.at = now;
        let may = budget.lines >= 1.0;
        if may {
            budget.lines -= 1.0;
        }
        may
    }

    /// Takes a connection, which counts as a line too.
    pub fn connect(&mut self, uid: u32, most: u32, rate: u32, now: Instant) -> bool {
        let count = self.of(uid, now).clients;
        let may = (most == 0 || count < most) && self.line(uid, rate, now);
        if may {
            self.of(uid, now).clients += 1;
        }
        may
    }

    pub fn disconnect(&mut self, uid: u32) {
        if let Some(budget) = self.of_uids.get_mut(&uid) {
            budget.clients = budget.clients.saturating_sub(1);
        }
    }

    /// A clock that is set back begins no day: a day begins once the clock says one that is later than all before.
    fn of_day(&mut self, uid: u32, day: u64, now: Instant) -> &mut Budget {
        self.day = self.day.max(day);
        let day = self.day;
        let budget = self.of(uid, now);
        if budget.day != day {
            budget.day = day;
            budget.today = 0;
        }
        budget
    }

    /// A line of which so many may make an entry a day.
    pub fn entry(&mut self, uid: u32, most: u32, day: u64, now: Instant) -> Day {
        let budget = self.of_day(uid, day, now);
        if budget.today >= most {
            Day::Over
        } else if budget.pending >= most - budget.today {
            Day::Wait
        } else {
            budget.pending += 1;
            Day::Ask
        }
    }

    /// One more that may make an entry, of a line that was begun.
    pub fn more(&mut self, uid: u32) {
        if let Some(budget) = self.of_uids.get_mut(&uid) {
            budget.pending += 1;
        }
    }

    /// One that was pending has made an entry, or none.
    pub fn answered(&mut self, uid: u32, is_made: bool) {
        if let Some(budget) = self.of_uids.get_mut(&uid) {
            budget.pending = budget.pending.saturating_sub(1);
            budget.today = budget.today.saturating_add(u32::from(is_made));
        }
    }

    /// A note or a connection, which take room on the disk as an entry does.
    pub fn note(&mut self, uid: u32, most: u32, day: u64, now: Instant) -> bool {
        let budget = self.of_day(uid, day, now);
        let may = budget.today < most;
        budget.today = budget.today.saturating_add(u32::from(may));
        may
    }
}

#[cfg(test)]
mod tests {
    use super::*;
    use std::time::Duration;

    #[test]
    fn five_seconds_worth_of_lines_come_at_once() {
        let (mut budgets, now) = (Budgets::default(), Instant::now());
        let taken = |budgets: &mut Budgets, seconds: f64| {
            let at = now + Duration::from_secs_f64(seconds);
            (0..99).filter(|_| budgets.line(7, 10, at)).count()
        };
        assert_eq!([0.0, 0.05, 0.25, 1.25, 99.0].map(|at| taken(&mut budgets, at)), [50, 0, 2, 10, 50]);
        assert!((0..999).all(|_| budgets.line(8, 0, now)));
    }

    #[test]
    fn connections_are_counted_by_uid() {
        let (mut budgets, now) = (Budgets::default(), Instant::now());
        assert!(budgets.connect(7, 2, 0, now) && budgets.connect(7, 2, 0, now) && !budgets.connect(7, 2, 0, now));
        assert!(budgets.connect(8, 0, 1, now));
        budgets.disconnect(7);
        assert!(budgets.connect(7, 2, 0, now) && !budgets.connect(7, 2, 0, now));
        assert_eq!((0..9).filter(|_| budgets.connect(8, 0, 1, now)).count(), 4);
    }

    #[test]
    fn a_day_has_so_many_entries() {
        let (mut budgets, now) = (Budgets::default(), Instant::now());
        let entry = |budgets: &mut Budgets, uid, day| budgets.entry(uid, 2, day, now);
        assert_eq!([7, 7, 7, 8].map(|uid| entry(&mut budgets, uid, 20_000)), [Day::Ask, Day::Ask, Day::Wait, Day::Ask]);
        budgets.answered(7, false);
        assert_eq!([7, 7].map(|uid| entry(&mut budgets, uid, 20_000)), [Day::Ask, Day::Wait]);
        budgets.answered(7, true);
        budgets.answered(7, true);
        assert_eq!((entry(&mut budgets, 7, 20_000), budgets.note(7, 2, 20_000, now)), (Day::Over, false));
        assert_eq!((entry(&mut budgets, 7, 20_001), budgets.note(7, 2, 20_001, now)), (Day::Ask, true));
        assert_eq!(entry(&mut budgets, 7, 20_001), Day::Wait);
    }

    #[test]
    fn a_clock_that_is_set_back_begins_no_day() {
        let (mut budgets, now) = (Budgets::default(), Instant::now());
        let mut notes = |uid, day| (0..9).filter(|_| budgets.note(uid, 2, day, now)).count();
        assert_eq!([20_000, 20_001, 20_000, 19_998, 20_001, 20_002].map(|day| notes(7, day)), [2, 2, 0, 0, 0, 2]);
        // (nor for who comes while it is set back)
        assert_eq!([20_001, 20_000, 20_002, 20_003].map(|day| notes(8, day)), [2, 0, 0, 2]);
    }
}
