//! The words of the command line.
use crate::ending::End;

pub const USAGE: &str = "usage: mlsd --socket PATH --users FILE [--release-on-close] [--linger MS] [--sessions FILE] \
    [--metrics FILE] -- mls serve --sessions --names [--recover] --journal FILE START | mlsd --probe SOCKET";
const LINGER_MAX: u64 = 10_000;

#[derive(Default, Debug)]
pub struct Words {
    pub socket: Option<String>,
    pub users: String,
    pub releases: bool,
    /// Milliseconds that releases wait for company.
    pub linger: u64,
    pub sessions: String,
    pub metrics: Option<String>,
    pub journal: String,
    /// Whether the journal is in segments.
    pub in_segments: bool,
    pub core: Vec<String>,
}

impl Words {
    pub fn parse(args: impl Iterator<Item = String>) -> Result<Words, End> {
        let words = Words::taken(args).ok_or_else(|| End::words(USAGE))?;
        for flag in ["--sessions", "--names"] {
            if !words.core.iter().any(|word| word == flag) {
                return Err(End::words(&format!("the core's words lack {flag}")));
            }
        }
        Ok(words)
    }

    fn taken(mut args: impl Iterator<Item = String>) -> Option<Words> {
        let mut words = Words::default();
        while let Some(arg) = args.next() {
            match &arg[..] {
                "--socket" => words.socket = Some(args.next()?),
                "--users" => words.users = args.next()?,
                "--release-on-close" => words.releases = true,
                "--linger" => words.linger = args.next()?.parse().ok().filter(|linger| *linger <= LINGER_MAX)?,
                "--sessions" => words.sessions = args.next()?,
                "--metrics" => words.metrics = Some(args.next()?),
                "--" => words.core = args.by_ref().collect(),
                _ => return None,
            }
        }
        words.journal = journal(&words.core)?;
        words.in_segments = words.core.iter().any(|word| word == "--segment" || word.starts_with("--segment="));
        if words.sessions.is_empty() {
            words.sessions = format!("{}.sessions", words.journal);
        }
        if words.users.is_empty() {
            None
        } else {
            Some(words)
        }
    }

    /// The program of the core, with what stands before `serve`.
    pub fn program(&self) -> &[String] {
        let place = self.core.iter().position(|word| word == "serve").unwrap_or(1);
        &self.core[..place.max(1)]
    }

    /// The start file, which the core has as its last word.
    pub fn start(&self) -> &str {
        self.core.last().map_or("", |word| &word[..])
    }
}

fn journal(core: &[String]) -> Option<String> {
    let mut words = core.iter();
    while let Some(word) = words.next() {
        match word.strip_prefix("--journal") {
            Some("") => return words.next().cloned(),
            Some(rest) => return rest.strip_prefix('=').map(str::to_string),
            None => (),
        }
    }
    None
}

#[cfg(test)]
mod tests {
    use super::*;

    fn parsed(text: &str) -> Result<Words, End> {
        Words::parse(text.split(' ').map(str::to_string))
    }

    #[test]
    fn words_of_the_front_and_of_its_core() {
        let words = parsed("--socket s --users u -- mls serve --sessions --names --journal j START").unwrap();
        assert_eq!(
            (words.socket.as_deref(), &words.users[..], words.releases, words.linger),
            (Some("s"), "u", false, 0)
        );
        assert_eq!((&words.journal[..], &words.sessions[..], words.start()), ("j", "j.sessions", "START"));
        let text =
            "--linger 5 --users u --release-on-close --sessions k -- mls serve --names --journal=j --sessions START";
        let words = parsed(text).unwrap();
        assert_eq!((words.socket, words.releases, words.linger, words.in_segments), (None, true, 5, false));
        let segments = "--users u -- mls serve --sessions --names --segment 4096 --journal j START";
        assert!(parsed(segments).unwrap().in_segments);
        assert_eq!((&words.journal[..], &words.sessions[..]), ("j", "k"));
    }

    #[test]
    fn words_that_are_not_understood() {
        let rows = [
            "--users u -- mls serve --sessions --names START",
            "--users u",
            "-- mls serve --sessions --names --journal j START",
            "--users u --linger x -- mls serve --sessions --names --journal j START",
            "--users u --linger 10001 -- mls serve --sessions --names --journal j START",
            "--users u --frob -- mls serve --sessions --names --journal j START",
            "--users u -- mls serve --names --journal j START",
            "--users u -- mls serve --sessions --journal j START",
        ];
        for text in rows {
            assert_eq!(parsed(text).err().map(|end| end.status), Some(2), "{text}");
        }
    }
}
