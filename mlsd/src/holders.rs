//! Which connections hold what. The monitor's accesses are its subjects', and connections share subjects: an access is
//! released once the last connection that got it lets it go.
//!
//! A get counts from the moment of asking, or a release of another connection would pass between it and its answer. A
//! denial undoes that: what a subject holds it may get again, so after a denial nobody holds it.
use crate::names::Triple;
use std::collections::{BTreeSet, HashMap, HashSet};

const HELD_MAX: usize = 16_384;

/// What one connection got, or is getting.
#[derive(Default, Debug)]
pub struct Held {
    /// What is counted.
    held: BTreeSet<Triple>,
    /// What of it was granted, by the answers so far.
    got: BTreeSet<Triple>,
    getting: Vec<Triple>,
}

/// By how many connections each access is held.
#[derive(Default, Debug)]
pub struct Holders {
    counts: HashMap<Triple, u32>,
    /// What START opens with: no end of a connection releases it.
    of_start: HashSet<Triple>,
}

#[derive(Clone, Copy, Debug, PartialEq, Eq)]
pub enum Get {
    /// It is counted: the core is to be asked.
    Ask,
    /// Another of the same access is in flight, and whose denial it is would not be known.
    Wait,
    /// The connection holds too much.
    Full,
}

impl Holders {
    pub fn new(of_start: HashSet<Triple>) -> Holders {
        Holders { counts: HashMap::new(), of_start }
    }

    /// `waits` is whether another of the same access has to be answered first: where its release is asked for by others.
    pub fn get(&mut self, held: &mut Held, triple: Triple, waits: bool) -> Get {
        if waits && held.getting.contains(&triple) {
            return Get::Wait;
        }
        if held.held.len() >= HELD_MAX && !held.held.contains(&triple) {
            return Get::Full;
        }
        if held.held.insert(triple) {
            *self.counts.entry(triple).or_insert(0) += 1;
        }
        held.getting.push(triple);
        Get::Ask
    }

    /// A get has its answer.
    pub fn answered(&mut self, held: &mut Held, triple: Triple, is_granted: bool) {
        if let Some(place) = held.getting.iter().position(|it| *it == triple) {
            held.getting.remove(place);
        }
        if is_granted {
            held.got.insert(triple);
            return;
        }
        held.got.remove(&triple);
        if !held.getting.contains(&triple) && held.held.remove(&triple) {
            self.let_go(triple);
        }
    }

    /// One connection lets go: whether it was the last.
    fn let_go(&mut self, triple: Triple) -> bool {
        match self.counts.get_mut(&triple) {
            Some(count) if *count > 1 => {
                *count -= 1;
                false
            }
            _ => {
                self.counts.remove(&triple);
                true
            }
        }
    }

    /// A connection asks to release: whether the core is to be asked, which it isn't where others hold it too.
    pub fn release(&mut self, held: &mut Held, triple: Triple) -> bool {
        held.got.remove(&triple);
        if held.held.remove(&triple) {
            self.let_go(triple)
        } else {
            !self.counts.contains_key(&triple)
        }
    }

    /// What of a connection was taken away, which it had got. What it is asking for again has its answer later.
    pub fn taken(&mut self, held: &mut Held, is_taken: impl Fn(&Triple) -> bool) -> Vec<Triple> {
        let lost: Vec<Triple> = held.got.iter().copied().filter(|triple| is_taken(triple)).collect();
        for triple in &lost {
            held.got.remove(triple);
            if !held.getting.contains(triple) && held.held.remove(triple) {
                self.let_go(*triple);
            }
        }
        lost
    }

    /// Whether a connection has got something.
    pub fn has(held: &Held, triple: Triple) -> bool {
        held.held.contains(&triple)
    }

    /// A connection ends: what is to be released.
    pub fn close(&mut self, held: Held) -> Vec<Triple> {
        let last = held.held.into_iter().filter(|triple| self.let_go(*triple));
        let last: Vec<Triple> = last.collect();
        last.into_iter().filter(|triple| !self.of_start.contains(triple)).collect()
    }
}

#[cfg(test)]
mod tests {
    use super::*;

    fn triple(object: u16) -> Triple {
        Triple { subject: 0, object, mode: 1 }
    }

    fn gets(holders: &mut Holders, held: &mut Held, object: u16, is_granted: bool) {
        assert_eq!(holders.get(held, triple(object), true), Get::Ask);
        holders.answered(held, triple(object), is_granted);
    }

    #[test]
    fn the_last_of_two_releases() {
        let (mut holders, mut one, mut two) = (Holders::default(), Held::default(), Held::default());
        gets(&mut holders, &mut one, 1, true);
        gets(&mut holders, &mut two, 1, true);
        gets(&mut holders, &mut two, 1, true);
        assert!(!holders.release(&mut one, triple(1)), "the other holds it");
        assert!(!holders.release(&mut one, triple(1)), "it isn't this one's any more");
        assert_eq!(holders.close(two), [triple(1)]);
        assert!(holders.release(&mut one, triple(1)), "nobody holds it: the core is asked");
        assert!(holders.counts.is_empty());
    }

    #[test]
    fn a_get_counts_before_its_answer() {
        let (mut holders, mut one, mut two) = (Holders::default(), Held::default(), Held::default());
        gets(&mut holders, &mut one, 1, true);
        assert_eq!(holders.get(&mut two, triple(1), true), Get::Ask);
        assert!(!holders.release(&mut one, triple(1)));
        holders.answered(&mut two, triple(1), true);
        assert_eq!(holders.close(one), []);
        assert_eq!(holders.close(two), [triple(1)]);
    }

    #[test]
    fn a_denial_undoes_just_its_own() {
        let (mut holders, mut one, mut two) = (Holders::default(), Held::default(), Held::default());
        gets(&mut holders, &mut one, 1, true);
        assert_eq!(holders.get(&mut two, triple(1), true), Get::Ask);
        assert_eq!(holders.get(&mut two, triple(1), true), Get::Wait);
        holders.answered(&mut two, triple(1), false);
        assert_eq!(holders.close(two), []);
        assert_eq!(holders.close(one), [triple(1)]);
        assert!(holders.counts.is_empty());
    }

    #[test]
    fn a_connection_that_holds_too_much_is_told() {
        let (mut holders, mut one) = (Holders::default(), Held::default());
        (0..HELD_MAX as u16).for_each(|object| gets(&mut holders, &mut one, object, true));
        assert_eq!(holders.get(&mut one, triple(HELD_MAX as u16), true), Get::Full);
        gets(&mut holders, &mut one, 0, true);
        assert_eq!(holders.close(one).len(), HELD_MAX);
    }

    #[test]
    fn what_is_taken_is_held_by_nobody() {
        let (mut holders, mut one, mut two) = (Holders::default(), Held::default(), Held::default());
        gets(&mut holders, &mut one, 1, true);
        gets(&mut holders, &mut one, 2, true);
        assert_eq!(holders.get(&mut two, triple(1), true), Get::Ask);
        assert_eq!(holders.taken(&mut one, |it| it.object == 1), [triple(1)]);
        assert_eq!(holders.taken(&mut two, |it| it.object == 1), [], "it is asking for it");
        holders.answered(&mut two, triple(1), true);
        assert_eq!((holders.close(one), holders.close(two)), (vec![triple(2)], vec![triple(1)]));
        let mut one = Held::default();
        gets(&mut holders, &mut one, 1, true);
        assert_eq!(holders.get(&mut one, triple(1), true), Get::Ask);
        assert_eq!(holders.taken(&mut one, |_| true), [triple(1)]);
        holders.answered(&mut one, triple(1), false);
        assert!(holders.close(one).is_empty() && holders.counts.is_empty());
    }

    #[test]
    fn gets_that_do_not_wait_are_answered_in_their_order() {
        let (mut holders, mut one) = (Holders::default(), Held::default());
        (0..3).for_each(|_| assert_eq!(holders.get(&mut one, triple(1), false), Get::Ask));
        holders.answered(&mut one, triple(1), true);
        assert_eq!(holders.taken(&mut one, |_| true), [triple(1)]);
        holders.answered(&mut one, triple(1), false);
        assert_eq!((Holders::has(&one, triple(1)), holders.taken(&mut one, |_| true)), (true, vec![]));
        holders.answered(&mut one, triple(1), true);
        assert_eq!(holders.taken(&mut one, |_| true), [triple(1)]);
        assert!(holders.close(one).is_empty() && holders.counts.is_empty());
    }

    #[test]
    fn what_the_start_opens_with_stays() {
        let (mut holders, mut one) = (Holders::new([triple(1)].into()), Held::default());
        gets(&mut holders, &mut one, 1, true);
        gets(&mut holders, &mut one, 2, true);
        assert_eq!(holders.close(one), [triple(2)]);
        assert!(holders.release(&mut Held::default(), triple(1)), "a client's own line releases it");
    }
}
