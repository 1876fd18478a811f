//! What one line of a client comes to: a function of the line, the names, and what the client may do.
use crate::names::{Names, MODES};
use crate::probe;
use crate::who::{Asker, Who};

pub const LINE_MAX: usize = 20_000;
const NOTE_MAX: usize = 200;
const GETS: [&str; 4] = ["get-execute", "get-read", "get-append", "get-write"];

/// What a line does to what is held, if it is answered `yes`: an object and a mode.
#[derive(Clone, Copy, Debug, PartialEq, Eq)]
pub enum Change {
    None,
    Get(u16, u8),
    Release(u16, u8),
}

/// What the core is to be asked.
#[derive(Debug, PartialEq, Eq)]
pub struct Ask {
    pub asker: Asker,
    /// All of the line behind its subject, with single spaces.
    pub action: String,
    pub change: Change,
    /// Whether there is an entry for it, where it has no fault.
    pub is_request: bool,
}

#[derive(Debug, PartialEq, Eq)]
pub enum Verdict {
    /// A blank line: no answer is due.
    Skip,
    /// A note, for the sessions file: no answer is due.
    Note(String),
    /// The front answers itself.
    Answer(&'static str),
    /// Somebody who may asks how the front does.
    Stats,
    /// Anybody asks whether the core answers.
    Probe,
    /// The client is told what it loses, and answers it where the flag says so.
    Watch(bool),
    /// It has read a line of that.
    Ack,
    /// It wants the page whose number is raised when something is taken away.
    Page,
    /// It asks for the labels of what the tokens name.
    Labels(Vec<String>),
    Ask(Ask),
}

/// A verdict, and whether the line is only a question: what would be answered?
#[derive(Debug, PartialEq, Eq)]
pub struct Judged {
    pub is_question: bool,
    pub verdict: Verdict,
}

fn is_plain(byte: &u8) -> bool {
    (32..=126).contains(byte)
}

fn note(bytes: &[u8]) -> Verdict {
    let shown = bytes.iter().take(NOTE_MAX).map(|b| if is_plain(b) { *b as char } else { '?' });
    Verdict::Note(shown.collect::<String>().trim().to_string())
}

/// Judges a line of at most `LINE_MAX` bytes.
pub fn judge(names: &Names, who: &Who, line: &[u8]) -> Judged {
    let asked = |is_question, verdict| Judged { is_question, verdict };
    let front = match line.iter().position(|b| *b != b' ') {
        None => return asked(false, Verdict::Skip),
        Some(front) => front,
    };
    if line[front] == b';' {
        return asked(false, note(&line[front + 1..]));
    }
    let text = match std::str::from_utf8(line) {
        Ok(text) if line.iter().all(is_plain) => text,
        // (no other byte stands in any form of a line but a note)
        _ => return asked(matches!(line[front..], [b'?'] | [b'?', b' ', ..]), Verdict::Answer("bad form")),
    };
    let mut tokens: Vec<&str> = text.split(' ').filter(|token| !token.is_empty()).collect();
    let is_question = tokens[0] == "?";
    if is_question {
        tokens.remove(0);
    }
    if tokens.is_empty() || tokens[0] == "?" || tokens[0].starts_with(';') {
        return asked(is_question, Verdict::Answer("bad form"));
    }
    if tokens == ["stats"] && (who.is_root || who.has_stats) && !is_question {
        return asked(false, Verdict::Stats);
    }
    if tokens == [probe::LINE] && !is_question {
        return asked(false, Verdict::Probe);
    }
    let verdict = match tokens[..] {
        _ if is_question => None,
        ["watch"] => Some(Verdict::Watch(false)),
        ["watch", "ack"] => Some(Verdict::Watch(true)),
        ["ack"] => Some(Verdict::Ack),
        ["generation"] => Some(Verdict::Page),
        ["labels", ref what @ ..] if matches!(what.len(), 1 | 2) && who.asker(names, "labels").is_none() => {
            Some(Verdict::Labels(what.iter().map(|token| token.to_string()).collect()))
        }
        _ => None,
    };
    if let Some(verdict) = verdict {
        return asked(false, verdict);
    }
    asked(is_question, judge_tokens(names, who, &tokens, is_question))
}

fn judge_tokens(names: &Names, who: &Who, tokens: &[&str], is_question: bool) -> Verdict {
    if tokens.iter().any(|token| token.starts_with('$')) {
        // (they would be shared by all who share the core)
        return Verdict::Answer("no variables");
    }
    let asker = match who.asker(names, tokens[0]) {
        Some(asker) => asker,
        // (also of a name that nobody has: that isn't told)
        None => return Verdict::Answer("not yours"),
    };
    let (action, change) = action(names, &tokens[1..]);
    let is_request = !is_question && tokens.get(1) != Some(&"check");
    Verdict::Ask(Ask { asker, action, change: if is_question { Change::None } else { change }, is_request })
}

/// The text of an action, and what it changes. A get and a release have their object by its number.
fn action(names: &Names, tokens: &[&str]) -> (String, Change) {
    let place = |words: &[&str], token: &str| words.iter().position(|word| *word == token).map(|place| place as u8);
    let known = match tokens {
        [get, object] => place(&GETS, get).zip(names.object(object)).map(|(m, o)| Change::Get(o, m)),
        ["release", mode, object] => place(&MODES, mode).zip(names.object(object)).map(|(m, o)| Change::Release(o, m)),
        _ => None,
    };
    let text = match known {
        Some(Change::Get(object, mode)) => format!("{} #{object}", GETS[usize::from(mode)]),
        Some(Change::Release(object, mode)) => format!("release {} #{object}", MODES[usize::from(mode)]),
        _ => tokens.join(" "),
    };
    (text, known.unwrap_or(Change::None))
}

#[cfg(test)]
mod tests {
    use super::*;
    use crate::names::tests::standard;

    /// One who may ask as ann and as the first pool, which is called app.
    fn who() -> Who {
        let subjects = vec![true, false, false, false];
        Who { subjects, pools: vec![("app".to_string(), 0)], ..Who::default() }
    }

    fn judged(line: &str) -> Judged {
        judge(&standard(), &who(), line.as_bytes())
    }

    fn is_asked(line: &str, wanted: &str, change: Change) {
        match judged(line).verdict {
            Verdict::Ask(ask) => assert_eq!((&ask.action[..], ask.change), (wanted, change), "{line}"),
            other => panic!("{line}: {other:?}"),
        }
    }

    #[test]
    fn a_line_is_asked_in_one_form() {
        for line in ["ann get-read plans", "  #0   get-read  #1 ", "ann get-read #1"] {
            is_asked(line, "get-read #1", Change::Get(1, 1));
        }
        is_asked("ann release write memo", "release write #2", Change::Release(2, 3));
        is_asked("ann get-read #9", "get-read #9", Change::Get(9, 1));
        is_asked("ann get-read none", "get-read none", Change::None);
        is_asked("? ann get-read plans", "get-read #1", Change::None);
        is_asked("ann", "", Change::None);
        is_asked("ann  level   S:A", "level S:A", Change::None);
        is_asked("app release  read plans", "release read #1", Change::Release(1, 1));
    }

    #[test]
    fn the_front_answers_what_is_not_the_clients() {
        let answer = |text| Verdict::Answer(text);
        for line in
            ["bob get-read memo", "#1 level U", "nobody level U", "#65536 level U", "#00 level U", "stats", "pool"]
        {
            assert_eq!(judged(line), Judged { is_question: false, verdict: answer("not yours") }, "{line}");
        }
        for line in ["$x = ann create root U hi", "ann get-read $x", "$"] {
            assert_eq!(judged(line).verdict, answer("no variables"), "{line}");
        }
        for line in ["ann\tget-read plans", "ann get-read plans\r", "bob \0", "ann \u{e9}"] {
            assert_eq!(judged(line).verdict, answer("bad form"), "{line}");
        }
        for line in ["?", "? ?", "? ; note", " ?  ? ann level U", "? ann \t"] {
            assert_eq!(judged(line), Judged { is_question: true, verdict: answer("bad form") }, "{line}");
        }
        assert_eq!(judged("? bob level U"), Judged { is_question: true, verdict: answer("not yours") });
    }

    #[test]
    fn lines_of_a_front() {
        let labels = |tokens: &[&str]| Verdict::Labels(tokens.iter().map(|token| token.to_string()).collect());
        let rows = [
            ("watch", Verdict::Watch(false)),
            (" watch  ack", Verdict::Watch(true)),
            ("ack", Verdict::Ack),
            ("generation", Verdict::Page),
            ("labels plans", labels(&["plans"])),
            ("labels subject ann", labels(&["subject", "ann"])),
            ("watch us", Verdict::Answer("not yours")),
            ("labels", Verdict::Answer("not yours")),
            ("? watch", Verdict::Answer("not yours")),
        ];
        for (line, wanted) in rows {
            assert_eq!(judged(line).verdict, wanted, "{line}");
        }
    }

    #[test]
    fn notes_and_blanks_have_no_answer() {
        assert_eq!((judged("").verdict, judged("   ").verdict), (Verdict::Skip, Verdict::Skip));
        assert_eq!(judged("  ; a\tnote ").verdict, Verdict::Note("a?note".to_string()));
        assert_eq!(judged(&format!(";{}", "x".repeat(999))).verdict, Verdict::Note("x".repeat(NOTE_MAX)));
    }

    #[test]
    fn who_is_told_how_the_front_does() {
        let root = Who { is_root: true, ..who() };
        assert_eq!(judge(&standard(), &root, b" stats ").verdict, Verdict::Stats);
        assert_eq!(judge(&standard(), &Who { has_stats: true, ..who() }, b"stats").verdict, Verdict::Stats);
        assert_eq!(
            (judged("probe").verdict, judged("? probe").verdict),
            (Verdict::Probe, Verdict::Answer("not yours"))
        );
        assert_eq!(judge(&standard(), &root, b"? stats").verdict, Verdict::Answer("not yours"));
    }
}
