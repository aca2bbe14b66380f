//! JSON (RFC 8259) within the limits that values have: bytes 32 to 126 only,
//! at most eight levels of arrays and objects. The space is then the only
//! white space left.

use crate::decimal::Decimal;

/// How many levels of arrays and objects a value may have.
const MAX_LEVELS: usize = 8;

/// The powers of ten that may be written after `e` or `E`.
const MAX_POWER: i64 = 99;

/// A value as a tree. Numbers, strings and keys keep their spelling, members
/// their order, so that the tree written back is the text without the spaces
/// outside strings.
#[derive(Clone, Debug, PartialEq)]
pub enum Json {
    Null,
    Bool(bool),
    Number(Number),
    String(Text),
    Array(Vec<Json>),
    Object(Vec<(Text, Json)>),
}

/// A number token as it was written.
#[derive(Clone, Debug, PartialEq)]
pub struct Number {
    pub token: Vec<u8>,
}

/// The bytes between the quotes of a string, escapes as they were written.
#[derive(Clone, Debug, PartialEq)]
pub struct Text {
    pub raw: Vec<u8>,
}

/// Reads a whole text; `None` stands for BadJSON.
pub fn read(text: &[u8]) -> Option<Json> {
    if !text.iter().all(|byte| (32..=126).contains(byte)) {
        return None;
    }
    let mut reader = Reader { text, at: 0 };
    let value = reader.value(MAX_LEVELS)?;
    reader.skip_spaces();
    (reader.at == text.len()).then_some(value)
}

impl Json {
    /// A whole number in decimal.
    pub fn whole(number: i32) -> Json {
        Json::Number(Number {
            token: number.to_string().into_bytes(),
        })
    }

    /// The value's text without spaces outside strings.
    pub fn stored_form(&self) -> Vec<u8> {
        match self {
            Json::Null => b"null".to_vec(),
            Json::Bool(true) => b"true".to_vec(),
            Json::Bool(false) => b"false".to_vec(),
            Json::Number(number) => number.token.clone(),
            Json::String(text) => text.quoted(),
            Json::Array(elements) => {
                let elements: Vec<_> = elements.iter().map(Json::stored_form).collect();
                [b"[", elements.join(&b',').as_slice(), b"]"].concat()
            }
            Json::Object(members) => {
                let members: Vec<_> = members
                    .iter()
                    .map(|(key, value)| [key.quoted(), value.stored_form()].join(&b':'))
                    .collect();
                [b"{", members.join(&b',').as_slice(), b"}"].concat()
            }
        }
    }
}

impl Number {
    /// Whether it is written without a dot and without an exponent.
    pub fn is_whole(&self) -> bool {
        !self
            .token
            .iter()
            .any(|byte| matches!(byte, b'.' | b'e' | b'E'))
    }

    /// The number itself, unless its written power of ten is outside -99 to 99.
    pub fn decimal(&self) -> Option<Decimal> {
        let negative = self.token.starts_with(b"-");
        let unsigned = &self.token[usize::from(negative)..];
        let (mantissa, exponent) = part_at(unsigned, |byte| matches!(byte, b'e' | b'E'));
        let (whole, fraction) = part_at(mantissa, |byte| byte == b'.');
        let fraction = fraction.unwrap_or_default();
        let power = exponent.map_or(Some(0), written_power)?;
        Some(Decimal::new(
            negative,
            &[whole, fraction].concat(),
            power - fraction.len() as i64,
        ))
    }
}

impl Text {
    fn quoted(&self) -> Vec<u8> {
        [b"\"", self.raw.as_slice(), b"\""].concat()
    }

    /// The characters after escapes, each escape being one.
    pub fn characters(&self) -> Vec<u16> {
        let mut characters = Vec::new();
        let mut rest = self.raw.as_slice();
        while let Some((character, after)) = first_character(rest) {
            characters.push(character);
            rest = after;
        }
        characters
    }
}

/// Parts a text at the first byte that is asked for; that byte is left out.
fn part_at(text: &[u8], wanted: impl Fn(u8) -> bool) -> (&[u8], Option<&[u8]>) {
    match text.iter().position(|&byte| wanted(byte)) {
        Some(at) => (&text[..at], Some(&text[at + 1..])),
        None => (text, None),
    }
}

/// The power after `e`, if it is within the limits. Leading zeros don't count.
fn written_power(exponent: &[u8]) -> Option<i64> {
    let negative = exponent.starts_with(b"-");
    let signed = negative || exponent.starts_with(b"+");
    let size = exponent[usize::from(signed)..]
        .iter()
        .try_fold(0, |size, digit| {
            let size = size * 10 + i64::from(digit - b'0');
            (size <= MAX_POWER).then_some(size)
        })?;
    Some(if negative { -size } else { size })
}

/// The first character of well-formed string contents, and what follows it.
fn first_character(raw: &[u8]) -> Option<(u16, &[u8])> {
    match raw {
        [] => None,
        [b'\\', b'u', hex @ ..] => {
            let (digits, after) = hex.split_at(4);
            Some((hex_number(digits), after))
        }
        [b'\\', escaped, after @ ..] => Some((simple_escape(*escaped), after)),
        [byte, after @ ..] => Some((u16::from(*byte), after)),
    }
}

fn hex_number(digits: &[u8]) -> u16 {
    digits.iter().fold(0, |number, &digit| {
        number * 16 + char::from(digit).to_digit(16).unwrap_or(0) as u16
    })
}

fn simple_escape(escaped: u8) -> u16 {
    let character = match escaped {
        b'b' => 8,
        b't' => b'\t',
        b'n' => b'\n',
        b'f' => 12,
        b'r' => b'\r',
        other => other,
    };
    u16::from(character)
}

/// A place in a text. Each method reads one thing of RFC 8259's grammar and
/// steps over it, or gives `None` where the text is not that thing.
struct Reader<'a> {
    text: &'a [u8],
    at: usize,
}

impl Reader<'_> {
    fn peek(&self) -> Option<u8> {
        self.text.get(self.at).copied()
    }

    fn take(&mut self, byte: u8) -> Option<()> {
        (self.peek() == Some(byte)).then(|| self.at += 1)
    }

    fn skip_spaces(&mut self) {
        while self.take(b' ').is_some() {}
    }

    /// Steps over `byte` with any spaces around it.
    fn take_structural(&mut self, byte: u8) -> Option<()> {
        self.skip_spaces();
        self.take(byte)?;
        self.skip_spaces();
        Some(())
    }

    /// A value with at most `levels` levels of arrays and objects.
    fn value(&mut self, levels: usize) -> Option<Json> {
        self.skip_spaces();
        match self.peek()? {
            b'n' => self.literal(b"null", Json::Null),
            b't' => self.literal(b"true", Json::Bool(true)),
            b'f' => self.literal(b"false", Json::Bool(false)),
            b'"' => self.string().map(Json::String),
            b'[' => self.array(levels.checked_sub(1)?),
            b'{' => self.object(levels.checked_sub(1)?),
            _ => self.number().map(Json::Number),
        }
    }

    fn literal(&mut self, word: &[u8], value: Json) -> Option<Json> {
        self.text[self.at..].starts_with(word).then(|| {
            self.at += word.len();
            value
        })
    }

    fn array(&mut self, inner_levels: usize) -> Option<Json> {
        let elements = self.list(b'[', b']', |reader| reader.value(inner_levels))?;
        Some(Json::Array(elements))
    }

    fn object(&mut self, inner_levels: usize) -> Option<Json> {
        let members = self.list(b'{', b'}', |reader| {
            let key = reader.string()?;
            reader.take_structural(b':')?;
            Some((key, reader.value(inner_levels)?))
        })?;
        Some(Json::Object(members))
    }

    /// Items parted by commas between two brackets; there may be none.
    fn list<Item>(
        &mut self,
        open: u8,
        close: u8,
        item: impl Fn(&mut Self) -> Option<Item>,
    ) -> Option<Vec<Item>> {
        self.take_structural(open)?;
        let mut items = Vec::new();
        if self.take(close).is_some() {
            return Some(items);
        }
        loop {
            items.push(item(self)?);
            if self.take_structural(b',').is_none() {
                self.take(close)?;
                return Some(items);
            }
        }
    }

    fn string(&mut self) -> Option<Text> {
        self.take(b'"')?;
        let start = self.at;
        while self.peek()? != b'"' {
            self.string_character()?;
        }
        let raw = self.text[start..self.at].to_vec();
        self.take(b'"')?;
        Some(Text { raw })
    }

    fn string_character(&mut self) -> Option<()> {
        if self.take(b'\\').is_none() {
            self.at += 1;
            return Some(());
        }
        let escaped = self.peek()?;
        self.at += 1;
        match escaped {
            b'"' | b'\\' | b'/' | b'b' | b'f' | b'n' | b'r' | b't' => Some(()),
            b'u' => (0..4).try_for_each(|_| self.hex_digit()),
            _ => None,
        }
    }

    fn hex_digit(&mut self) -> Option<()> {
        self.peek()?.is_ascii_hexdigit().then(|| self.at += 1)
    }

    /// `-`, then a whole part without needless zeros, then a fraction and an
    /// exponent, each if there.
    fn number(&mut self) -> Option<Number> {
        let start = self.at;
        let _ = self.take(b'-');
        if self.take(b'0').is_none() {
            self.digits()?;
        }
        if self.take(b'.').is_some() {
            self.digits()?;
        }
        if self.take(b'e').or_else(|| self.take(b'E')).is_some() {
            let _ = self.take(b'+').or_else(|| self.take(b'-'));
            self.digits()?;
        }
        let token = self.text[start..self.at].to_vec();
        Some(Number { token })
    }

    /// One digit at least.
    fn digits(&mut self) -> Option<()> {
        let count = self.text[self.at..]
            .iter()
            .take_while(|byte| byte.is_ascii_digit())
            .count();
        self.at += count;
        (count > 0).then_some(())
    }
}
