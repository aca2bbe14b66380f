//! The words, texts and signs of a table's text.

use super::fault::TextFault;

/// What stands next in a text.
#[derive(Clone, Copy, Debug, PartialEq, Eq)]
pub(super) enum Token<'a> {
    /// A keyword, a name or a number.
    Word(&'a [u8]),
    /// What stands between two double quotes.
    Text(&'a [u8]),
    /// A double quote that none follows in its line.
    Open,
    Sign(u8),
    LineEnd,
}

/// The signs; a word ends before one.
const SIGNS: &[u8] = b"(),:?=";

/// Goes over a text. While a bracket is open, line ends are blanks.
pub(super) struct Scanner<'a> {
    text: &'a [u8],
    at: usize,
    pub open_brackets: usize,
}

impl<'a> Scanner<'a> {
    pub fn new(text: &'a [u8]) -> Scanner<'a> {
        Scanner {
            text,
            at: 0,
            open_brackets: 0,
        }
    }

    /// The next token and where it begins.
    pub fn peek(&mut self) -> (usize, Token<'a>) {
        self.skip_blanks();
        let rest = &self.text[self.at..];
        let token = match rest.first() {
            None | Some(b'\n') => Token::LineEnd,
            Some(b'"') => quoted(rest),
            Some(sign) if SIGNS.contains(sign) => Token::Sign(*sign),
            Some(_) => Token::Word(&rest[..word_length(rest)]),
        };
        (self.at, token)
    }

    /// Passes over the token that was looked at.
    pub fn pass(&mut self, token: Token) {
        self.at += match token {
            Token::Word(word) => word.len(),
            Token::Text(text) => text.len() + 2,
            Token::Open | Token::Sign(_) => 1,
            Token::LineEnd => 0,
        };
    }

    /// The value up to the end of the line or a comment: its first place and
    /// its bytes, tabs outside strings as spaces.
    pub fn value(&mut self) -> (usize, Vec<u8>) {
        self.skip_blanks();
        let (mut inside, mut escaped) = (false, false);
        let (begin, mut value) = (self.at, Vec::new());
        for &byte in &self.text[begin..] {
            if byte == b'\n' || (byte == b'#' && !inside) {
                break;
            }
            if byte == b'"' && !escaped {
                inside = !inside;
            }
            escaped = inside && byte == b'\\' && !escaped;
            value.push(if byte == b'\t' && !inside { b' ' } else { byte });
        }
        self.at = begin + value.len();
        while matches!(value.last(), Some(b' ' | b'\r')) {
            value.pop();
        }
        (begin, value)
    }

    /// Goes to the beginning of the next line; `false` at the text's end.
    pub fn next_line(&mut self) -> bool {
        let rest = &self.text[self.at..];
        let feed = rest.iter().position(|&byte| byte == b'\n');
        self.at += feed.map_or(rest.len(), |feed| feed + 1);
        feed.is_some()
    }

    /// Goes back to a place outside brackets.
    pub fn go_to(&mut self, at: usize) {
        self.at = at;
        self.open_brackets = 0;
    }

    /// What begins the next line that has anything, from a place outside brackets.
    pub fn peek_below(&mut self) -> Option<Token<'a>> {
        let at = self.at;
        let mut token = Token::LineEnd;
        while token == Token::LineEnd && self.next_line() {
            (_, token) = self.peek();
        }
        self.go_to(at);
        (token != Token::LineEnd).then_some(token)
    }

    /// Whether a blank, a sign, a comment or the line's end is at a place.
    pub fn is_parted(&self, at: usize) -> bool {
        let is_end = |byte: &u8| b" \t\r\n#".contains(byte) || SIGNS.contains(byte);
        self.text.get(at).is_none_or(is_end)
    }

    /// The column of a place, as it is told.
    pub fn column(&self, at: usize) -> usize {
        TextFault::new(self.text, at, None, String::new()).column
    }

    fn skip_blanks(&mut self) {
        let is_inside = self.open_brackets > 0;
        while let Some(byte) = self.text.get(self.at) {
            match byte {
                b' ' | b'\t' | b'\r' => self.at += 1,
                b'\n' if is_inside => self.at += 1,
                b'#' => {
                    let rest = &self.text[self.at..];
                    let feed = rest.iter().position(|&byte| byte == b'\n');
                    self.at += feed.unwrap_or(rest.len());
                }
                _ => return,
            }
        }
    }
}

/// What a double quote begins.
fn quoted(rest: &[u8]) -> Token<'_> {
    let end = rest[1..].iter().position(|byte| b"\"\n".contains(byte));
    match end {
        Some(length) if rest[1 + length] == b'"' => Token::Text(&rest[1..1 + length]),
        _ => Token::Open,
    }
}

fn word_length(rest: &[u8]) -> usize {
    let ends = |byte: &u8| b" \t\r\n\"#".contains(byte) || SIGNS.contains(byte);
    rest.iter().position(ends).unwrap_or(rest.len())
}
