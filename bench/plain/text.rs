//! The text of entries (docs/FORMATS.md, "Entry lines").
use crate::labels::Label;
use crate::lines::{mode_of, number, put_reply};
use crate::requests::{Action, Entry, MODES, REASONS, Reason, Reply, Request};

pub fn put_number(text: &mut Vec<u8>, mut number: u64) {
    let (mut digits, mut at) = ([0; 20], 20);
    loop {
        at -= 1;
        digits[at] = b'0' + (number % 10) as u8;
        number /= 10;
        if number == 0 {
            break;
        }
    }
    text.extend_from_slice(&digits[at..]);
}

fn put_label(text: &mut Vec<u8>, label: &Label) {
    put_number(text, label.level.into());
    let mut mark = b':';
    for (word, first) in label.categories.iter().zip([0, 64, 128, 192]) {
        let mut left = *word;
        while left != 0 {
            text.push(mark);
            put_number(text, first + u64::from(left.trailing_zeros()));
            mark = b',';
            left &= left - 1;
        }
    }
}

fn put_words(text: &mut Vec<u8>, words: &[&[u8]]) {
    words.iter().for_each(|word| text.extend_from_slice(word));
}

fn put_action(text: &mut Vec<u8>, action: &Action) {
    let with_two = |text: &mut Vec<u8>, verb: &[u8], mode: u8, t: u16, o: u16| {
        put_words(text, &[verb, MODES[mode as usize], b" "]);
        put_number(text, t.into());
        text.push(b' ');
        put_number(text, o.into());
    };
    let (verb, mode, object): (&[u8], _, _) = match action {
        Action::Give(mode, t, o) => return with_two(text, b"give ", *mode, *t, *o),
        Action::Rescind(mode, t, o) => return with_two(text, b"rescind ", *mode, *t, *o),
        Action::Get(mode, o) => (b"get-", Some(*mode), Some(*o)),
        Action::Release(mode, o) => (b"release ", Some(*mode), Some(*o)),
        Action::Create(o, _) => (b"create", None, Some(*o)),
        Action::Delete(o) => (b"delete", None, Some(*o)),
        Action::Level(_) => (b"level", None, None),
        Action::Relabel(o, _) => (b"relabel", None, Some(*o)),
    };
    text.extend_from_slice(verb);
    if let Some(mode) = mode {
        text.extend_from_slice(MODES[mode as usize]);
    }
    if let Some(o) = object {
        text.push(b' ');
        put_number(text, o.into());
    }
    let labels: &[Label] = match action {
        Action::Create(_, labels) => &labels[..],
        Action::Level(label) | Action::Relabel(_, label) => std::slice::from_ref(label),
        _ => &[],
    };
    for label in labels {
        text.push(b' ');
        put_label(text, label);
    }
}

/// Appends the line of an entry.
pub fn put_entry(text: &mut Vec<u8>, number: u64, entry: &Entry) {
    put_number(text, number);
    text.push(b' ');
    put_number(text, entry.session.into());
    text.push(b' ');
    put_number(text, entry.request.subject.into());
    text.push(b' ');
    put_action(text, &entry.request.action);
    text.push(b' ');
    put_reply(text, entry.reply);
}

fn read_label(word: &[u8]) -> Option<Label> {
    let mut parts = word.splitn(2, |byte| *byte == b':');
    let level: u8 = number(parts.next()?)?;
    let (mut categories, mut least) = ([0; 4], 0);
    for digits in parts.next().into_iter().flat_map(|list| list.split(|byte| *byte == b',')) {
        let n: u8 = number(digits)?;
        if usize::from(n) < least {
            return None;
        }
        categories[usize::from(n) / 64] |= 1 << (n % 64);
        least = usize::from(n) + 1;
    }
    (level < 16).then_some(Label { level, categories })
}

fn read_reply(words: &[&[u8]]) -> Option<Reply> {
    match words {
        [b"yes"] => Some(Reply::Yes),
        [b"undefined"] => Some(Reply::Undefined),
        [b"created", o] => Some(Reply::Created(number(o)?)),
        [b"no", word] => {
            const ALL: [Reason; 9] = [
                Reason::Discretionary, Reason::Simple, Reason::Star, Reason::Integrity, Reason::Authority,
                Reason::Compatibility, Reason::Ceiling, Reason::Root, Reason::Full,
            ];
            Some(Reply::No(ALL[REASONS.iter().position(|it| it == word)?]))
        }
        _ => None,
    }
}

/// The action with its operands, and how many words it has.
fn read_action(words: &[&[u8]]) -> Option<(Action, usize)> {
    Some(match words {
        [b"release", m, o, ..] => (Action::Release(mode_of(m)?, number(o)?), 3),
        [b"give", m, t, o, ..] => (Action::Give(mode_of(m)?, number(t)?, number(o)?), 4),
        [b"rescind", m, t, o, ..] => (Action::Rescind(mode_of(m)?, number(t)?, number(o)?), 4),
        [b"create", p, l, i, ..] => (Action::Create(number(p)?, Box::new([read_label(l)?, read_label(i)?])), 4),
        [b"delete", o, ..] => (Action::Delete(number(o)?), 2),
        [b"level", l, ..] => (Action::Level(Box::new(read_label(l)?)), 2),
        [b"relabel", o, l, ..] => (Action::Relabel(number(o)?, Box::new(read_label(l)?)), 3),
        [verb, o, ..] => (Action::Get(mode_of(verb.strip_prefix(b"get-")?)?, number(o)?), 2),
        _ => return None,
    })
}

/// The entry of a line, and its number.
pub fn read_entry(line: &[u8]) -> Option<(u64, Entry)> {
    let (mut words, mut count): ([&[u8]; 9], usize) = ([b""; 9], 0);
    for word in line.split(|byte| *byte == b' ') {
        *words.get_mut(count)? = word;
        count += 1;
    }
    let [at, session, subject, rest @ ..] = &words[..count] else {
        return None;
    };
    let (action, len) = read_action(rest)?;
    let request = Request { subject: number(subject)?, action };
    let reply = read_reply(&rest[len..])?;
    Some((number(at)?, Entry { session: number(session)?, reply, request }))
}
