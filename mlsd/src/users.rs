//! The users file: who may ask as whom, and the pools of subjects of which each connection has one of its own.
//!
//! A line is `WHO = SUBJECT.. [rate=N] [clients=N] [day=N] [reads=held]` or `pool NAME = SUBJECT..`. WHO is a user's name, a uid or
//! `@` and a group's name; a SUBJECT of the first is a name of the start, a pool's, or `*`; `stats` beside them is no subject. `#` begins a note.
use crate::names::Names;
use crate::who::Who;
use std::io::{self, Read};
use std::os::unix::fs::MetadataExt;

/// What isn't a subject: that one is told how the front does.
const STATS: &str = "stats";

/// What the system says a name's number is: of a user, or of a group.
pub type Ids<'a> = &'a dyn Fn(&str, bool) -> Option<u32>;

#[derive(Clone, Debug, PartialEq, Eq)]
pub struct Pool {
    pub name: String,
    pub members: Vec<u16>,
}

#[derive(Debug)]
struct Rule {
    id: u32,
    is_group: bool,
    who: Who,
}

#[derive(Debug)]
pub struct Users {
    rules: Vec<Rule>,
    pub pools: Vec<Pool>,
}

fn is_name(text: &str) -> bool {
    (1..=32).contains(&text.len()) && text.bytes().all(|b| b.is_ascii_alphanumeric() || b == b'-' || b == b'_')
}

fn number(digits: &str) -> Option<u32> {
    if digits.bytes().all(|b| b.is_ascii_digit()) {
        digits.parse().ok()
    } else {
        None
    }
}

/// The text of a users file, whose owner and mode say that it may be believed.
pub fn text(path: &str) -> Result<String, String> {
    let told = |e: io::Error| format!("{path}: {e}");
    let mut file = std::fs::File::open(path).map_err(told)?;
    let meta = file.metadata().map_err(told)?;
    let own = std::fs::metadata("/proc/self").map_err(told)?.uid();
    if meta.mode() & 0o022 != 0 || (meta.uid() != 0 && meta.uid() != own) {
        return Err(format!("{path}: others can write it"));
    }
    let mut text = String::new();
    file.read_to_string(&mut text).map_err(told)?;
    Ok(text)
}

impl Users {
    pub fn parse(text: &str, names: &Names, ids: Ids) -> Result<Users, String> {
        let mut users = Users { rules: Vec::new(), pools: Vec::new() };
        let lines = text.lines().map(|line| line.split('#').next().unwrap_or("").split_whitespace().collect());
        let lines: Vec<Vec<&str>> = lines.collect();
        // (the pools first: a rule may stand before the pool that it names)
        for wants_pools in [true, false] {
            for (place, tokens) in lines.iter().enumerate().filter(|(_, tokens)| !tokens.is_empty()) {
                let told = |text| format!("line {}: {text}", place + 1);
                match tokens[..] {
                    ["pool", name, "=", ref members @ ..] if wants_pools => {
                        users.pool(names, name, members).map_err(told)?
                    }
                    ["pool", _, "=", ..] => (),
                    [who, "=", ref what @ ..] if !what.is_empty() => {
                        if !wants_pools {
                            users.rule(names, ids, who, what).map_err(told)?;
                        }
                    }
                    _ => return Err(told("bad form".to_string())),
                }
            }
        }
        Ok(users)
    }

    fn pool(&mut self, names: &Names, name: &str, members: &[&str]) -> Result<(), String> {
        if !is_name(name) || members.is_empty() {
            return Err("bad form".to_string());
        }
        if names.subject_named(name).is_some() || self.pools.iter().any(|pool| pool.name == name) {
            return Err(format!("{name} is a subject's name, or another pool's"));
        }
        let mut pool = Pool { name: name.to_string(), members: Vec::new() };
        for member in members {
            let subject = names.subject_named(member).ok_or(format!("no subject is called {member}"))?;
            if pool.members.contains(&subject) || self.is_pooled(subject) {
                return Err(format!("{member} is in a pool already"));
            }
            pool.members.push(subject);
        }
        self.pools.push(pool);
        Ok(())
    }

    /// Whether a subject is one of a pool's.
    fn is_pooled(&self, subject: u16) -> bool {
        self.pools.iter().any(|pool| pool.members.contains(&subject))
    }

    fn rule(&mut self, names: &Names, ids: Ids, who: &str, what: &[&str]) -> Result<(), String> {
        let group = who.strip_prefix('@');
        let name = group.unwrap_or(who);
        let id = number(name).or_else(|| ids(name, group.is_some())).ok_or(format!("nobody is called {name}"))?;
        let mut rule = Rule { id, is_group: group.is_some(), who: self.nobody(names) };
        for token in what {
            match token.split_once('=') {
                Some(("reads", "held")) => rule.who.holds_reads = true,
                Some((limit, digits)) => {
                    let count = Some(number(digits).ok_or(format!("bad number in {token}"))?);
                    match limit {
                        "rate" => rule.who.rate = count,
                        "clients" => rule.who.clients = count,
                        "day" => rule.who.day = count,
                        _ => return Err(format!("no limit is called {limit}")),
                    }
                }
                None => self.allow(names, &mut rule.who, token)?,
            }
        }
        self.rules.push(rule);
        Ok(())
    }

    fn nobody(&self, names: &Names) -> Who {
        Who { subjects: vec![false; names.subjects.len()], ..Who::default() }
    }

    /// Lets one ask as what a token of a rule names.
    fn allow(&self, names: &Names, who: &mut Who, token: &str) -> Result<(), String> {
        let is_all = token == "*";
        let pools = self.pools.iter().enumerate().filter(|(_, pool)| is_all || pool.name == token);
        let pools: Vec<(String, usize)> = pools.map(|(place, pool)| (pool.name.clone(), place)).collect();
        if is_all {
            for (subject, may) in who.subjects.iter_mut().enumerate() {
                *may |= !self.is_pooled(subject as u16);
            }
        } else if token == STATS && pools.is_empty() && names.subject_named(token).is_none() {
            who.has_stats = true;
        } else if pools.is_empty() {
            let subject = names.subject_named(token).ok_or(format!("no subject is called {token}"))?;
            if self.is_pooled(subject) {
                return Err(format!("{token} is one of a pool's"));
            }
            who.subjects[usize::from(subject)] = true;
        }
        who.pools.extend(pools);
        Ok(())
    }

    /// All rules that apply, joined; nobody where none does. Root is somebody without a rule too.
    pub fn who(&self, names: &Names, uid: u32, groups: &[u32]) -> Option<Who> {
        let applies = |rule: &&Rule| if rule.is_group { groups.contains(&rule.id) } else { rule.id == uid };
        let mut rules = self.rules.iter().filter(applies).peekable();
        if rules.peek().is_none() && uid != 0 {
            return None;
        }
        let mut who = Who { is_root: uid == 0, ..self.nobody(names) };
        rules.for_each(|rule| who.join(&rule.who));
        Some(who)
    }
}

#[cfg(test)]
#[path = "users_tests.rs"]
mod tests;
