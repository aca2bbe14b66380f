//! JSON with the places of its values: RFC 8259 with document 01's limits, at
//! most 8 levels, bytes 32 to 126, and the space for white space.

const LEVELS: usize = 8;

/// A value, where it begins, and the text that it is read from.
#[derive(Clone, Debug)]
pub(super) struct Value<'a> {
    pub at: usize,
    pub node: Node<'a>,
}

/// Strings and keys are as they stand between their quotes.
#[derive(Clone, Debug)]
pub(super) enum Node<'a> {
    Null,
    Bool,
    Number(&'a str),
    String(&'a str),
    Array(Vec<Value<'a>>),
    Object(Vec<Pair<'a>>),
    /// No JSON: a word without quotes, where such words are read over.
    Word(&'a str),
}

#[derive(Clone, Debug)]
pub(super) struct Pair<'a> {
    pub at: usize,
    pub key: &'a str,
    pub value: Value<'a>,
}

/// Where a text is no JSON, and why.
pub(super) type Bad = (usize, String);

/// A whole text's value.
pub(super) fn read(bytes: &[u8]) -> Result<Value<'_>, Bad> {
    read_as(bytes, false)
}

/// The same, with words that lack their quotes among its values.
pub(super) fn read_with_words(bytes: &[u8]) -> Result<Value<'_>, Bad> {
    read_as(bytes, true)
}

fn read_as(bytes: &[u8], takes_words: bool) -> Result<Value<'_>, Bad> {
    let odd = bytes.iter().position(|byte| !(32..=126).contains(byte));
    if let Some(at) = odd {
        let bad = super::names::character(&bytes[at..]);
        return Err((
            at,
            format!("a value has plain ASCII characters only; here is {bad}"),
        ));
    }
    let text = std::str::from_utf8(bytes).expect("ASCII");
    let mut reader = Reader {
        text,
        at: 0,
        takes_words,
    };
    let value = reader.value(0)?;
    reader.spaces();
    match reader.peek() {
        None => Ok(value),
        Some(_) => Err(reader.bad("nothing may follow the value")),
    }
}

/// The places of the bytes that are no spaces outside strings. Of a text that is
/// JSON these are its stored bytes.
pub(super) fn kept(text: &[u8]) -> Vec<usize> {
    let (mut kept, mut inside, mut escaped) = (Vec::new(), false, false);
    for (at, &byte) in text.iter().enumerate() {
        if inside || byte != b' ' {
            kept.push(at);
        }
        if byte == b'"' && !escaped {
            inside = !inside;
        }
        escaped = inside && byte == b'\\' && !escaped;
    }
    kept
}

/// Why a value stops before its end.
#[derive(Clone, Copy, Debug, PartialEq, Eq)]
pub(super) enum Unfinished {
    Missing,
    Bracket(u8),
    String,
}

/// Where a value that stops before its end begins to lack one: its string, else
/// its outermost bracket.
pub(super) fn unfinished(text: &[u8]) -> Option<(usize, Unfinished)> {
    let (mut open, mut quote, mut escaped) = (Vec::new(), None, false);
    for (at, &byte) in text.iter().enumerate() {
        match byte {
            b'"' if !escaped => quote = if quote.is_none() { Some(at) } else { None },
            b'[' | b'{' if quote.is_none() => open.push((at, Unfinished::Bracket(byte))),
            b']' | b'}' if quote.is_none() => drop(open.pop()),
            _ => {}
        }
        escaped = quote.is_some() && byte == b'\\' && !escaped;
    }
    let string = quote.map(|at| (at, Unfinished::String));
    let missing = text.is_empty().then_some((0, Unfinished::Missing));
    string.or(open.first().copied()).or(missing)
}

struct Reader<'a> {
    text: &'a str,
    at: usize,
    takes_words: bool,
}

impl<'a> Reader<'a> {
    /// A value inside so many arrays and objects.
    fn value(&mut self, levels: usize) -> Result<Value<'a>, Bad> {
        self.spaces();
        let at = self.at;
        let node = match self.peek() {
            Some(b'[' | b'{') if levels == LEVELS => {
                return Err(self.bad("a value has at most 8 levels of [ ] and { }"));
            }
            Some(b'[') => Node::Array(self.list(b']', |reader| reader.value(levels + 1))?),
            Some(b'{') => Node::Object(self.list(b'}', |reader| reader.pair(levels + 1))?),
            Some(b'"') => Node::String(self.string()?),
            Some(b'-' | b'0'..=b'9') => Node::Number(self.number()?),
            None => return Err(self.bad("a JSON value is missing here")),
            Some(_) => self.word()?,
        };
        Ok(Value { at, node })
    }

    fn pair(&mut self, levels: usize) -> Result<Pair<'a>, Bad> {
        self.spaces();
        let at = self.at;
        if self.peek() != Some(b'"') {
            return Err(self.bad("a member of { } begins with its name in double quotes"));
        }
        let key = self.string()?;
        self.spaces();
        if !self.skips(b':') {
            return Err(self.bad("expected : after a member's name"));
        }
        let value = self.value(levels)?;
        Ok(Pair { at, key, value })
    }

    /// What stands between two brackets, parted by commas.
    fn list<Item>(
        &mut self,
        close: u8,
        mut item: impl FnMut(&mut Self) -> Result<Item, Bad>,
    ) -> Result<Vec<Item>, Bad> {
        self.at += 1;
        self.spaces();
        let mut items = Vec::new();
        if self.skips(close) {
            return Ok(items);
        }
        loop {
            items.push(item(self)?);
            self.spaces();
            if self.skips(close) {
                return Ok(items);
            }
            if !self.skips(b',') {
                let close = char::from(close);
                return Err(self.bad(&format!("expected , or {close}")));
            }
        }
    }

    fn string(&mut self) -> Result<&'a str, Bad> {
        let open = self.at;
        self.at += 1;
        while let Some(byte) = self.peek() {
            match byte {
                b'"' => {
                    self.at += 1;
                    return Ok(&self.text[open + 1..self.at - 1]);
                }
                b'\\' => self.escape()?,
                _ => self.at += 1,
            }
        }
        Err((open, "this string has no closing quote".to_string()))
    }

    fn escape(&mut self) -> Result<(), Bad> {
        let rest = &self.text.as_bytes()[self.at + 1..];
        let is_hex = |digits: &[u8]| digits.iter().all(u8::is_ascii_hexdigit);
        self.at += match rest {
            [b'u', digits @ ..] if digits.len() >= 4 && is_hex(&digits[..4]) => 6,
            [b'"' | b'\\' | b'/' | b'b' | b'f' | b'n' | b'r' | b't', ..] => 2,
            _ => {
                return Err(
                    self.bad("expected after \\ one of \" \\ / b f n r t, or u and four digits")
                )
            }
        };
        Ok(())
    }

    fn number(&mut self) -> Result<&'a str, Bad> {
        let begin = self.at;
        self.skips(b'-');
        if !self.skips(b'0') {
            self.digits()?;
        }
        if self.skips(b'.') {
            self.digits()?;
        }
        if self.skips(b'e') || self.skips(b'E') {
            let _sign = self.skips(b'+') || self.skips(b'-');
            self.digits()?;
        }
        match self.peek() {
            Some(b'0'..=b'9') => Err((begin, "a number doesn't begin with 0 and a digit".into())),
            _ => Ok(&self.text[begin..self.at]),
        }
    }

    fn digits(&mut self) -> Result<(), Bad> {
        let begin = self.at;
        while matches!(self.peek(), Some(b'0'..=b'9')) {
            self.at += 1;
        }
        match self.at - begin {
            0 => Err(self.bad("a digit is missing here")),
            _ => Ok(()),
        }
    }

    fn word(&mut self) -> Result<Node<'a>, Bad> {
        let rest = &self.text[self.at..];
        let is_part = |byte: &u8| byte.is_ascii_alphanumeric() || b"_-+.".contains(byte);
        let length = rest.bytes().take_while(|byte| is_part(byte)).count();
        let node = match &rest[..length] {
            "true" | "false" => Node::Bool,
            "null" => Node::Null,
            "" => return Err(self.bad(&format!("no JSON value begins like this: {}", &rest[..1]))),
            word if self.takes_words => Node::Word(word),
            word => return Err(self.bad(&format!("no JSON value begins like this: {word}"))),
        };
        self.at += length;
        Ok(node)
    }

    fn spaces(&mut self) {
        while self.skips(b' ') {}
    }

    fn skips(&mut self, byte: u8) -> bool {
        let is_next = self.peek() == Some(byte);
        self.at += usize::from(is_next);
        is_next
    }

    fn peek(&self) -> Option<u8> {
        self.text.as_bytes().get(self.at).copied()
    }

    fn bad(&self, rule: &str) -> Bad {
        (self.at, rule.to_string())
    }
}
