//! What somebody may do, by all rules of the users file that apply to it.
use crate::names::Names;

const RATE: u32 = 200;
const CLIENTS: u32 = 32;

/// Who asks: a subject, or whichever of a pool's the client has.
#[derive(Clone, Copy, Debug, PartialEq, Eq)]
pub enum Asker {
    Subject(u16),
    Pool(usize),
}

/// A limit is that of the most generous rule that names one; 0 is none.
#[derive(Clone, Default, Debug, PartialEq, Eq)]
pub struct Who {
    pub is_root: bool,
    /// Whether it is told how the front does, as root is.
    pub has_stats: bool,
    /// Whether what it read it holds to its end.
    pub holds_reads: bool,
    /// Whether it may ask as each subject, by number.
    pub subjects: Vec<bool>,
    /// The pools that it may ask as: their names and places.
    pub pools: Vec<(String, usize)>,
    pub rate: Option<u32>,
    pub clients: Option<u32>,
    pub day: Option<u32>,
}

fn more(one: Option<u32>, other: Option<u32>) -> Option<u32> {
    match (one, other) {
        (Some(0), _) | (_, Some(0)) => Some(0),
        _ => one.max(other),
    }
}

impl Who {
    /// Whom a token names that this one may ask as.
    pub fn asker(&self, names: &Names, token: &str) -> Option<Asker> {
        if let Some((_, place)) = self.pools.iter().find(|(name, _)| name == token) {
            return Some(Asker::Pool(*place));
        }
        let subject = names.subject(token)?;
        let may = self.subjects.get(usize::from(subject)).copied().unwrap_or(false);
        if may {
            Some(Asker::Subject(subject))
        } else {
            None
        }
    }

    /// Adds what another rule allows.
    pub fn join(&mut self, other: &Who) {
        for (may, too) in self.subjects.iter_mut().zip(&other.subjects) {
            *may |= *too;
        }
        for pool in &other.pools {
            if !self.pools.contains(pool) {
                self.pools.push(pool.clone());
            }
        }
        self.has_stats |= other.has_stats;
        self.holds_reads |= other.holds_reads;
        self.rate = more(self.rate, other.rate);
        self.clients = more(self.clients, other.clients);
        self.day = more(self.day, other.day);
    }

    /// Whether it may ask as all that another may.
    pub fn covers(&self, other: &Who) -> bool {
        let has_all = self.subjects.iter().zip(&other.subjects).all(|(may, must)| *may || !*must);
        let may_know = self.has_stats || !other.has_stats;
        has_all && may_know && other.pools.iter().all(|pool| self.pools.contains(pool))
    }

    /// Lines a second; 0 is no limit.
    pub fn rate(&self) -> u32 {
        self.rate.unwrap_or(RATE)
    }

    /// Connections at once; 0 is no limit.
    pub fn clients(&self) -> u32 {
        self.clients.unwrap_or(CLIENTS)
    }

    /// Entries and notes a day; 0 is no limit.
    pub fn day(&self) -> u32 {
        self.day.unwrap_or(0)
    }

    /// The names of those that it may ask as, for the sessions file.
    pub fn shown(&self, names: &Names) -> String {
        let subjects = names.subjects.iter().zip(&self.subjects).filter(|(_, may)| **may).map(|(name, _)| &name[..]);
        let shown: Vec<&str> = subjects.chain(self.pools.iter().map(|(name, _)| &name[..])).collect();
        if shown.is_empty() {
            "nobody".to_string()
        } else {
            shown.join(",")
        }
    }
}

#[cfg(test)]
mod tests {
    use super::*;
    use crate::names::tests::standard;

    #[test]
    fn rules_are_joined() {
        let subjects = vec![true, false, false, false];
        let mut who = Who { subjects, pools: vec![("app".to_string(), 1)], rate: Some(50), ..Who::default() };
        let subjects = vec![false, true, false, false];
        let pools = vec![("app".to_string(), 1), ("web".to_string(), 0)];
        who.join(&Who { subjects, pools, clients: Some(0), ..Who::default() });
        assert_eq!((who.rate(), who.clients(), who.day()), (50, 0, 0));
        assert_eq!(who.shown(&standard()), "ann,bob,app,web");
        let names = standard();
        let rows = [("bob", Some(Asker::Subject(1))), ("#0", Some(Asker::Subject(0))), ("sec", None), ("#9", None)];
        for (token, wanted) in rows.iter().chain(&[("web", Some(Asker::Pool(0))), ("app", Some(Asker::Pool(1)))]) {
            assert_eq!(who.asker(&names, token), *wanted, "{token}");
        }
    }

    #[test]
    fn the_most_generous_limit_is_taken() {
        let rows =
            [(None, None, None), (Some(5), None, Some(5)), (Some(5), Some(9), Some(9)), (Some(0), Some(9), Some(0))];
        for (one, other, wanted) in rows {
            assert_eq!((more(one, other), more(other, one)), (wanted, wanted));
        }
        let who = Who::default();
        assert_eq!((who.rate(), who.clients(), who.day(), who.shown(&standard())), (200, 32, 0, "nobody".to_string()));
    }
}
