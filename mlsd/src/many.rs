//! Rights of a pool: one line gives to all of its subjects, or takes from all, one entry each.
use crate::answers;
use crate::desk::Desk;
use crate::due::Asked;
use crate::names::Triple;
use crate::world::mode_of;

/// A line that is being asked for each subject of a pool, one after the other.
#[derive(Debug)]
pub struct Many {
    /// Who asks, and the uid whose day its entries are taken of.
    pub asker: u16,
    pub charged: Option<u32>,
    pub is_question: bool,
    /// `give` or `rescind`, the mode and the object.
    pub word: String,
    pub mode: String,
    pub object: String,
    pub members: Vec<u16>,
    /// How many were asked, and which of them had no such right before.
    asked: usize,
    given: Vec<u16>,
    /// The answer, once it is known: what was given is taken back.
    answer: Option<Vec<u8>>,
}

impl Many {
    /// By the words of an action, where it names a pool.
    pub fn new(words: &[&str], members: Vec<u16>) -> Option<Many> {
        let [word, mode, object] = match *words {
            [word @ ("give" | "rescind"), mode, _, object] => [word, mode, object].map(str::to_string),
            _ => return None,
        };
        let (asker, charged, is_question) = (0, None, false);
        let (asked, given, answer) = (0, Vec::new(), None);
        Some(Many { asker, charged, is_question, word, mode, object, members, asked, given, answer })
    }

    fn line(&self, word: &str, member: u16) -> String {
        format!("{word} {} #{member} {}", self.mode, self.object)
    }

    /// The next action that is asked, and whether it may be one more than was charged.
    fn next(&mut self) -> Option<String> {
        if self.answer.is_some() {
            let member = self.given.pop()?;
            return Some(self.line("rescind", member));
        }
        let member = *self.members.get(self.asked)?;
        self.asked += 1;
        Some(self.line(&self.word, member))
    }

    /// The last that was asked has its answer.
    fn answered(&mut self, text: &[u8], had: bool) {
        if self.answer.is_some() {
            return;
        }
        let is_yes = answers::kind(text.strip_prefix(b"? ").unwrap_or(text)) == b"yes";
        if is_yes && self.word == "give" && !had && !self.is_question {
            self.given.push(self.members[self.asked - 1]);
        }
        if !is_yes {
            self.answer = Some(text.to_vec());
        }
    }
}

impl Desk {
    /// Asks for the next subject; false where all is asked.
    pub fn ask_next(&mut self, session: u32, is_first: bool) -> bool {
        let many = match self.many.get_mut(&session) {
            Some(many) => many,
            None => return false,
        };
        let action = match many.next() {
            Some(action) => action,
            None => return false,
        };
        let (asker, is_question, charged) = (many.asker, many.is_question, many.charged);
        if let (Some(uid), false) = (charged, is_first) {
            self.budgets.more(uid);
        }
        let line = self.line(asker, &action);
        let act = if is_question { None } else { Some((asker, action)) };
        let asked = Asked { charged, act, is_one_of_many: true, ..Asked::default() };
        self.core.ask(session, &line, is_question, self.now, asked, true);
        true
    }

    /// One of them has its answer: the whole answer, once there is none more to ask. `had` is whether the subject had the
    /// right before.
    pub fn one_of_many(&mut self, session: u32, text: &[u8], had: bool) -> Option<Vec<u8>> {
        self.many.get_mut(&session)?.answered(text, had);
        if self.ask_next(session, false) {
            return None;
        }
        let many = self.many.remove(&session)?;
        Some(many.answer.unwrap_or_else(|| text.to_vec()))
    }

    /// Whether the subject that was asked for last had the right before; it is looked at before the answer is followed.
    pub fn had(&self, session: u32) -> bool {
        let had = |many: &Many| {
            let (mode, object) = (mode_of(&many.mode)?, self.names.object(&many.object)?);
            let subject = *many.members.get(many.asked.checked_sub(1)?)?;
            Some(self.world.permits(Triple { subject, object, mode }))
        };
        self.many.get(&session).and_then(had).unwrap_or(false)
    }
}

#[cfg(test)]
mod tests {
    use super::*;

    fn many() -> Many {
        Many::new(&["give", "read", "app", "#4"], vec![5, 6, 7]).unwrap()
    }

    #[test]
    fn each_is_asked_for() {
        let mut many = many();
        for member in 5..8 {
            assert_eq!(many.next(), Some(format!("give read #{member} #4")));
            many.answered(b"yes 41", false);
        }
        assert_eq!((many.next(), many.answer), (None, None));
        assert!(Many::new(&["get-read", "app"], vec![]).is_none());
    }

    #[test]
    fn what_was_given_is_taken_back() {
        let mut many = many();
        for (answer, had) in [(&b"yes"[..], true), (b"yes", false), (b"no authority", false)] {
            many.next();
            many.answered(answer, had);
        }
        assert_eq!(many.next(), Some("rescind read #6 #4".to_string()));
        many.answered(b"yes", true);
        assert_eq!((many.next(), many.answer), (None, Some(b"no authority".to_vec())));
    }
}
