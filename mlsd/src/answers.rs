//! What an answer of the core says, whatever numbers it has.

/// An answer without the numbers at its end: of the object that was made, and of the entry.
pub fn kind(answer: &[u8]) -> &[u8] {
    let mut kind = answer;
    while let Some(place) = kind.iter().rposition(|b| *b == b' ') {
        let last = &kind[place + 1..];
        if last.is_empty() || !last.iter().all(u8::is_ascii_digit) {
            break;
        }
        kind = &kind[..place];
    }
    kind
}

/// Whether there is an entry in the journal behind an answer of this kind.
pub fn has_entry(kind: &[u8]) -> bool {
    !matches!(kind, b"held" | b"not held" | b"bad form" | b"bad name" | b"bad label")
}

/// The session that an answer is for, and its text.
pub fn parts(line: &[u8]) -> Option<(u32, &[u8])> {
    let place = line.iter().position(|b| *b == b' ')?;
    let session = std::str::from_utf8(&line[..place]).ok()?.parse().ok()?;
    Some((session, &line[place + 1..]))
}

/// What a client is told where it only asked what would be answered.
pub fn of_question(text: &[u8]) -> Vec<u8> {
    let text = text.strip_prefix(b"? ").unwrap_or(text);
    [b"? ", text].concat()
}

#[cfg(test)]
mod tests {
    use super::*;

    #[test]
    fn an_answer_has_its_kind_and_its_session() {
        let rows: [(&[u8], &[u8], bool); 8] = [
            (b"yes", b"yes", true),
            (b"yes 4012", b"yes", true),
            (b"created 5", b"created", true),
            (b"created 5 4013", b"created", true),
            (b"no star 7", b"no star", true),
            (b"undefined", b"undefined", true),
            (b"not held", b"not held", false),
            (b"bad label", b"bad label", false),
        ];
        for (answer, wanted, is_journalled) in rows {
            assert_eq!((kind(answer), has_entry(kind(answer))), (wanted, is_journalled));
        }
        assert_eq!(parts(b"17 no star"), Some((17, &b"no star"[..])));
        assert_eq!((parts(b"- bad form"), parts(b"yes"), parts(b"")), (None, None, None));
        assert_eq!((of_question(b"? yes"), of_question(b"busy")), (b"? yes".to_vec(), b"? busy".to_vec()));
    }
}
