//! JSON, read from its bytes with no tree.
use std::borrow::Cow;

pub struct Json<'a> {
    text: &'a str,
    at: usize,
}

/// That the text is no JSON, or has not the members that are wanted.
#[derive(Debug)]
pub struct Fault;

impl<'a> Json<'a> {
    pub fn new(text: &'a str) -> Json<'a> {
        Json { text, at: 0 }
    }

    /// The next byte that is no space.
    fn peek(&mut self) -> Option<u8> {
        let bytes = self.text.as_bytes();
        while matches!(bytes.get(self.at), Some(b' ' | b'\n' | b'\r' | b'\t')) {
            self.at += 1;
        }
        bytes.get(self.at).copied()
    }

    fn takes(&mut self, byte: u8) -> bool {
        let is_next = self.peek() == Some(byte);
        self.at += usize::from(is_next);
        is_next
    }

    fn take(&mut self, byte: u8) -> Result<(), Fault> {
        if self.takes(byte) { Ok(()) } else { Err(Fault) }
    }

    fn word(&mut self, word: &str) -> bool {
        self.peek();
        let is_next = self.text[self.at..].starts_with(word);
        self.at += if is_next { word.len() } else { 0 };
        is_next
    }

    pub fn is_null(&mut self) -> bool {
        self.word("null")
    }

    pub fn bool(&mut self) -> Result<bool, Fault> {
        if self.word("true") {
            return Ok(true);
        }
        if self.word("false") { Ok(false) } else { Err(Fault) }
    }

    /// A whole number.
    pub fn number(&mut self) -> Result<u64, Fault> {
        self.peek();
        let digits = self.text[self.at..].bytes().take_while(u8::is_ascii_digit).count();
        self.at += digits;
        self.text[self.at - digits..self.at].parse().map_err(|_| Fault)
    }

    /// A text, borrowed where nothing in it is escaped.
    pub fn text(&mut self) -> Result<Cow<'a, str>, Fault> {
        self.take(b'"')?;
        let from = self.at;
        loop {
            match self.text.as_bytes().get(self.at) {
                Some(b'"') => break,
                Some(b'\\') => return self.escaped(from),
                Some(32..) => self.at += 1,
                _ => return Err(Fault),
            }
        }
        self.at += 1;
        Ok(Cow::Borrowed(&self.text[from..self.at - 1]))
    }

    fn escaped(&mut self, from: usize) -> Result<Cow<'a, str>, Fault> {
        let mut text = self.text[from..self.at].to_string();
        loop {
            let next = self.text[self.at..].chars().next().ok_or(Fault)?;
            self.at += next.len_utf8();
            match next {
                '"' => return Ok(Cow::Owned(text)),
                '\\' => text.push(self.escape()?),
                ' '.. => text.push(next),
                _ => return Err(Fault),
            }
        }
    }

    fn escape(&mut self) -> Result<char, Fault> {
        let byte = *self.text.as_bytes().get(self.at).ok_or(Fault)?;
        self.at += 1;
        Ok(match byte {
            b'"' | b'\\' | b'/' => byte as char,
            b'b' => '\u{8}',
            b'f' => '\u{c}',
            b'n' => '\n',
            b'r' => '\r',
            b't' => '\t',
            b'u' => {
                let digits = self.text.get(self.at..self.at + 4).ok_or(Fault)?;
                self.at += 4;
                // (no pairs of surrogates: no name has any)
                char::from_u32(u32::from_str_radix(digits, 16).map_err(|_| Fault)?).ok_or(Fault)?
            }
            _ => return Err(Fault),
        })
    }

    /// The members of an object, each of which the function reads behind its key.
    pub fn object(&mut self, mut member: impl FnMut(&str, &mut Self) -> Result<(), Fault>) -> Result<(), Fault> {
        self.take(b'{')?;
        if self.takes(b'}') {
            return Ok(());
        }
        loop {
            let key = self.text()?;
            self.take(b':')?;
            member(&key, self)?;
            if !self.takes(b',') {
                return self.take(b'}');
            }
        }
    }

    /// The items of a list.
    pub fn list<T>(&mut self, mut item: impl FnMut(&mut Self) -> Result<T, Fault>) -> Result<Vec<T>, Fault> {
        let mut items = Vec::new();
        self.take(b'[')?;
        if self.takes(b']') {
            return Ok(items);
        }
        loop {
            items.push(item(self)?);
            if !self.takes(b',') {
                self.take(b']')?;
                return Ok(items);
            }
        }
    }

    pub fn end(&mut self) -> Result<(), Fault> {
        if self.peek().is_none() { Ok(()) } else { Err(Fault) }
    }
}
