//! The lines of scripts (docs/FORMATS.md, "Scripts"), and their answers.
use crate::labels::{Label, Scheme};
use crate::requests::{Action, MODES, Reply, REASONS, Request};
use crate::start::{Names, Start};
use crate::text::put_number;

/// What is wrong with a line; the first of a line's faults is told.
#[derive(Clone, Copy, PartialEq, Eq, PartialOrd, Ord)]
pub enum Fault {
    Form,
    Name,
    Label,
}

pub enum Line<'l> {
    Blank,
    Check(u16, u16, u8),
    /// A request, and the variable that its line binds.
    Ask(Request, Option<&'l [u8]>),
}

fn is_name(word: &[u8]) -> bool {
    let is_known = |byte: &u8| byte.is_ascii_alphanumeric() || *byte == b'-' || *byte == b'_';
    (1..=32).contains(&word.len()) && word.iter().all(is_known)
}

/// A decimal number with no zero in front.
pub fn number<T: std::str::FromStr>(digits: &[u8]) -> Option<T> {
    let is_short = digits.len() == 1 || digits.first() != Some(&b'0');
    if !is_short || !digits.iter().all(u8::is_ascii_digit) {
        return None;
    }
    std::str::from_utf8(digits).ok()?.parse().ok()
}

pub fn mode_of(word: &[u8]) -> Option<u8> {
    MODES.iter().position(|mode| *mode == word).map(|at| at as u8)
}

/// The number that a word stands for.
fn place(names: &Names, word: &[u8]) -> Result<u16, Fault> {
    if let Some(number) = names.get(word) {
        return Ok(*number);
    }
    match word.split_first() {
        Some((b'#', digits)) => number(digits).ok_or(Fault::Form),
        _ => Err(if is_name(word) { Fault::Name } else { Fault::Form }),
    }
}

fn object(start: &Start, vars: &Names, word: &[u8]) -> Result<u16, Fault> {
    match word.split_first() {
        Some((b'$', name)) if is_name(name) => vars.get(name).copied().ok_or(Fault::Name),
        Some((b'$', _)) => Err(Fault::Form),
        _ => place(&start.objects, word),
    }
}

fn label(scheme: &Scheme, word: &[u8]) -> Result<Label, Fault> {
    let fault = if word.iter().all(u8::is_ascii_graphic) { Fault::Label } else { Fault::Form };
    scheme.read(word).ok_or(fault)
}

fn both<A, B>(a: Result<A, Fault>, b: Result<B, Fault>) -> Result<(A, B), Fault> {
    match (a, b) {
        (Ok(a), Ok(b)) => Ok((a, b)),
        (Err(fault), Ok(_)) | (Ok(_), Err(fault)) => Err(fault),
        (Err(one), Err(two)) => Err(one.min(two)),
    }
}

/// The words of a line: the first seven, and how many there are.
fn words(line: &[u8]) -> ([&[u8]; 7], usize) {
    let (mut found, mut count, mut at): ([&[u8]; 7], usize, usize) = ([b""; 7], 0, 0);
    while at < line.len() {
        let from = at;
        while at < line.len() && line[at] != b' ' {
            at += 1;
        }
        if at > from {
            if count < 7 {
                found[count] = &line[from..at];
            }
            count += 1;
        }
        at += 1;
    }
    (found, count)
}

/// How long the first line is, newline included, of which eight bytes are looked at together.
fn line_len(text: &[u8]) -> usize {
    let (words, _) = text.as_chunks::<8>();
    let mut at = 0;
    for word in words {
        let other = u64::from_le_bytes(*word) ^ 0x0a0a_0a0a_0a0a_0a0a;
        let found = other.wrapping_sub(0x0101_0101_0101_0101) & !other & 0x8080_8080_8080_8080;
        if found != 0 {
            return at + found.trailing_zeros() as usize / 8 + 1;
        }
        at += 8;
    }
    text[at..].iter().position(|byte| *byte == b'\n').map_or(text.len(), |more| at + more + 1)
}

/// The lines of a text, with a last one that has no newline.
pub fn lines_of(mut text: &[u8]) -> impl Iterator<Item = &[u8]> {
    std::iter::from_fn(move || {
        let (line, rest) = text.split_at(line_len(text));
        text = rest;
        if line.is_empty() { None } else { Some(line.strip_suffix(b"\n").unwrap_or(line)) }
    })
}

/// Reads a line of a script whose variables stand for objects.
pub fn read_line<'l>(start: &Start, vars: &Names, line: &'l [u8]) -> Result<Line<'l>, Fault> {
    let (all, count) = words(line);
    if count == 0 || all[0][0] == b';' {
        return Ok(Line::Blank);
    }
    if line.len() > 20_000 || count > 7 {
        return Err(Fault::Form);
    }
    let bind = (count > 3 && all[0][0] == b'$' && all[1] == b"=").then(|| &all[0][1..]);
    let words = if bind.is_some() { &all[2..count] } else { &all[..count] };
    if bind.is_some_and(|name| !is_name(name) || words[1] != b"create") {
        return Err(Fault::Form);
    }
    let (subject, [verb, operands @ ..]) = (place(&start.subjects, words[0]), &words[1..]) else {
        return Err(Fault::Form);
    };
    if let (b"check", [mode, word]) = (*verb, operands) {
        let mode = mode_of(mode).ok_or(Fault::Form)?;
        let (s, o) = both(subject, object(start, vars, word))?;
        return Ok(Line::Check(s, o, mode));
    }
    let (subject, action) = both(subject, action(start, vars, verb, operands))?;
    Ok(Line::Ask(Request { subject, action }, bind))
}

fn action(start: &Start, vars: &Names, verb: &[u8], operands: &[&[u8]]) -> Result<Action, Fault> {
    let (security, integrity) = (&start.state.security, &start.state.integrity);
    let object = |word| object(start, vars, word);
    let mode = |word| mode_of(word).ok_or(Fault::Form);
    match (verb, operands) {
        (b"release", [m, o]) => Ok(Action::Release(mode(m)?, object(o)?)),
        (b"give" | b"rescind", [m, t, o]) => {
            let (mode, (t, o)) = (mode(m)?, both(place(&start.subjects, t), object(o))?);
            Ok(if verb == b"give" { Action::Give(mode, t, o) } else { Action::Rescind(mode, t, o) })
        }
        (b"create", [p, l, i]) => {
            let (p, (l, i)) = both(object(p), both(label(security, l), label(integrity, i)))?;
            Ok(Action::Create(p, Box::new([l, i])))
        }
        (b"delete", [o]) => Ok(Action::Delete(object(o)?)),
        (b"level", [l]) => Ok(Action::Level(Box::new(label(security, l)?))),
        (b"relabel", [o, l]) => {
            let (o, l) = both(object(o), label(security, l))?;
            Ok(Action::Relabel(o, Box::new(l)))
        }
        (_, [o]) => {
            let m = mode(verb.strip_prefix(b"get-").ok_or(Fault::Form)?)?;
            Ok(Action::Get(m, object(o)?))
        }
        _ => Err(Fault::Form),
    }
}

pub fn put_reply(text: &mut Vec<u8>, reply: Reply) {
    match reply {
        Reply::Yes => text.extend_from_slice(b"yes\n"),
        Reply::Undefined => text.extend_from_slice(b"undefined\n"),
        Reply::Created(o) => {
            text.extend_from_slice(b"created ");
            put_number(text, o.into());
            text.push(b'\n');
        }
        Reply::No(reason) => {
            text.extend_from_slice(b"no ");
            text.extend_from_slice(REASONS[reason as usize]);
            text.push(b'\n');
        }
    }
}

pub fn fault_text(fault: Fault) -> &'static [u8] {
    match fault {
        Fault::Form => b"bad form\n",
        Fault::Name => b"bad name\n",
        Fault::Label => b"bad label\n",
    }
}
