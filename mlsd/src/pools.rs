//! Pools: each connection that asks as one has a subject of its own, with a level and accesses that no other has. A
//! subject is leased again only once the monitor has said yes to all that makes it as it was at the start.
use crate::start::Start;
use crate::users::Pool;

#[derive(Clone, Copy, Debug, PartialEq, Eq)]
enum Place {
    Free,
    Leased,
    /// So many answers are due before it may be leased.
    Returning(usize),
    /// The monitor refused what would have made it as it was: nobody has it until the next start.
    Kept,
}

#[derive(Debug)]
struct Member {
    subject: u16,
    level: String,
    place: Place,
}

/// The pools, in the order of the users file.
#[derive(Default, Debug)]
pub struct Pools {
    members: Vec<Vec<Member>>,
    /// As the users file has them.
    pub defined: Vec<Pool>,
}

impl Pools {
    /// None of them can be leased before it was given back once.
    pub fn new(defined: &[Pool], start: &Start) -> Result<Pools, String> {
        let mut pools = Pools { members: Vec::new(), defined: defined.to_vec() };
        for pool in defined {
            if let Some(fault) = start.fault(pool) {
                return Err(format!("pool {} {fault}", pool.name));
            }
            let member = |subject: &u16| {
                let level = start.level(*subject).to_string();
                Member { subject: *subject, level, place: Place::Leased }
            };
            pools.members.push(pool.members.iter().map(member).collect());
        }
        Ok(pools)
    }

    pub fn subjects(&self) -> Vec<u16> {
        self.members.iter().flatten().map(|member| member.subject).collect()
    }

    pub fn has(&self, subject: u16) -> bool {
        self.members.iter().flatten().any(|member| member.subject == subject)
    }

    fn member(&mut self, subject: u16) -> Option<&mut Member> {
        self.members.iter_mut().flatten().find(|member| member.subject == subject)
    }

    pub fn lease(&mut self, pool: usize) -> Option<u16> {
        let free = self.members.get_mut(pool)?.iter_mut().find(|member| member.place == Place::Free)?;
        free.place = Place::Leased;
        Some(free.subject)
    }

    /// A subject's connection has ended: what sets back its level. Before it so many releases are asked for.
    pub fn give_back(&mut self, subject: u16, releases: usize) -> Option<String> {
        let member = self.member(subject)?;
        member.place = Place::Returning(releases + 1);
        Some(format!("#{subject} level {}", member.level))
    }

    /// One of these has its answer: what is told of its subject, if it is back or kept. An object that isn't there any
    /// more is held by nobody.
    pub fn returned(&mut self, subject: u16, answer: &[u8], is_release: bool) -> Option<&'static str> {
        let is_done = answer == b"yes" || (is_release && answer == b"undefined");
        let member = self.member(subject)?;
        member.place = match member.place {
            Place::Returning(1) if is_done => Place::Free,
            Place::Returning(due) if is_done => Place::Returning(due - 1),
            _ => Place::Kept,
        };
        match member.place {
            Place::Free => Some("returned"),
            Place::Kept => Some("kept"),
            _ => None,
        }
    }

    /// Of each pool its name, and how many of its subjects are free, leased, on their way back, and kept.
    pub fn counts(&self) -> Vec<(&str, [usize; 4])> {
        let count = |members: &Vec<Member>| {
            let mut counts = [0; 4];
            for member in members {
                counts[match member.place {
                    Place::Free => 0,
                    Place::Leased => 1,
                    Place::Returning(_) => 2,
                    Place::Kept => 3,
                }] += 1;
            }
            counts
        };
        self.defined.iter().map(|pool| &pool.name[..]).zip(self.members.iter().map(count)).collect()
    }
}

#[cfg(test)]
mod tests {
    use super::*;

    const START: &str = "subject a-1 maximum S current U integrity hi\nsubject a-2 maximum S current U integrity hi\n";

    fn pools() -> Pools {
        let defined = [Pool { name: "a".to_string(), members: vec![0, 1] }];
        Pools::new(&defined, &Start::read(START).unwrap()).unwrap()
    }

    fn came_back(pools: &mut Pools, subject: u16) {
        assert_eq!(pools.give_back(subject, 0), Some(format!("#{subject} level U")));
        assert_eq!(pools.returned(subject, b"yes", false), Some("returned"));
    }

    #[test]
    fn a_subject_has_one_connection_at_a_time() {
        let mut pools = pools();
        assert_eq!(pools.lease(0), None, "nothing is known of them yet");
        came_back(&mut pools, 0);
        came_back(&mut pools, 1);
        assert_eq!((pools.lease(0), pools.lease(0), pools.lease(0), pools.lease(1)), (Some(0), Some(1), None, None));
        came_back(&mut pools, 1);
        assert_eq!((pools.lease(0), pools.counts()), (Some(1), vec![("a", [0, 2, 0, 0])]));
    }

    #[test]
    fn it_is_leased_once_all_is_answered() {
        let mut pools = pools();
        pools.give_back(0, 2);
        assert!(pools.returned(0, b"yes", true).is_none() && pools.lease(0).is_none());
        assert!(pools.returned(0, b"undefined", true).is_none() && pools.lease(0).is_none());
        assert_eq!(pools.returned(0, b"yes", false), Some("returned"));
        assert_eq!(pools.lease(0), Some(0));
    }

    #[test]
    fn what_the_monitor_refuses_keeps_it() {
        for (answer, is_release) in [(&b"no star"[..], false), (b"undefined", false), (b"bad form", true)] {
            let mut pools = pools();
            pools.give_back(0, 1);
            assert_eq!(pools.returned(0, answer, is_release), Some("kept"));
            assert_eq!(pools.returned(0, b"yes", false), Some("kept"), "it stays so");
            assert_eq!((pools.lease(0), pools.counts()), (None, vec![("a", [0, 1, 0, 1])]));
        }
    }
}
