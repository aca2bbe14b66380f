//! Reads a table's text: `docs/TABLE.md` has the grammar.

use super::datainfo::{Datainfo, Decimal, Member};
use super::fault::TextFault;
use super::json::{self, Unfinished};
use super::names::character;
use super::scan::{Scanner, Token};
use super::tree::{Access, Accessible, Kind, Module, Table};
use std::str::FromStr;

/// A table and, in the order of its bytes, where each item of it stands in the
/// text (`encode.rs` says what the items are).
pub(super) struct Parsed {
    pub table: Table,
    pub spots: Vec<usize>,
}

pub(super) fn table(text: &[u8]) -> Result<Parsed, Vec<TextFault>> {
    if let Some(rule) = no_text(text) {
        return Err(vec![TextFault::new(text, 0, None, rule.to_string())]);
    }
    let mut parser = Parser {
        scanner: Scanner::new(text),
        table: Table::new("", ""),
        spots: Vec::new(),
        before: None,
        has_module: false,
        has_unknown: false,
        last_text: None,
        has_slashes: false,
        runs_on: false,
        faults: Vec::new(),
    };
    parser.records();
    parser.spots.push(text.len());
    let told = |Misread { at, number, rule }| TextFault::new(text, at, number, rule);
    match parser.faults.is_empty() {
        true => Ok(Parsed {
            table: parser.table,
            spots: parser.spots,
        }),
        false => Err(parser.faults.into_iter().map(told).collect()),
    }
}

/// What is told of a file in the place of a fault in each of its lines.
fn no_text(text: &[u8]) -> Option<&'static str> {
    let has = |byte: u8| text.contains(&byte);
    let is_wide = |(front, back): (u8, u8)| (front == 0) != (back == 0);
    let first_two = text.first().copied().zip(text.get(1).copied());
    if text.starts_with(b"\xff\xfe")
        || text.starts_with(b"\xfe\xff")
        || first_two.is_some_and(is_wide)
    {
        return Some("the file is not UTF-8 but seems to be UTF-16; save it as UTF-8");
    }
    let last = text.trim_ascii_end();
    if !has(b'\n') && last.contains(&b'\r') {
        return Some("the file's lines end with returns alone; a line feed ends a line");
    }
    None
}

/// Why a text is no table's.
struct Misread {
    at: usize,
    number: Option<u8>,
    rule: String,
}

type Read<T> = Result<T, Misread>;

/// The word that a record begins with.
#[derive(Clone, Copy, PartialEq, Eq)]
enum Keyword {
    Node,
    Edition,
    Module,
    Note,
    Parameter,
    Command,
}

const KEYWORDS: [(&str, Keyword); 6] = [
    ("node", Keyword::Node),
    ("edition", Keyword::Edition),
    ("module", Keyword::Module),
    ("note", Keyword::Note),
    ("parameter", Keyword::Parameter),
    ("command", Keyword::Command),
];

const COMMENT: &str = "a comment begins with #";

const TYPES: &str =
    "double, int, bool, enum, string, array, tuple, struct, scaled, blob or partial";

struct Parser<'a> {
    scanner: Scanner<'a>,
    table: Table,
    spots: Vec<usize>,
    /// The record before this one, and whether one of them is a module.
    before: Option<Keyword>,
    has_module: bool,
    /// Which record a line is can't be told: no order is judged after it.
    has_unknown: bool,
    /// What was read last in double quotes.
    last_text: Option<Quoted<'a>>,
    /// Whether `//` stands for a name in this record, and whether its value goes
    /// on below.
    has_slashes: bool,
    runs_on: bool,
    faults: Vec<Misread>,
}

/// A text of a record: where its first quote stands, and what it is.
#[derive(Clone, Copy)]
struct Quoted<'a> {
    at: usize,
    text: &'a [u8],
    what: &'static str,
}

/// Records.
impl<'a> Parser<'a> {
    fn records(&mut self) {
        loop {
            match self.scanner.peek() {
                (_, Token::LineEnd) => {
                    if !self.scanner.next_line() {
                        break;
                    }
                }
                (begin, _) => {
                    if let Err(fault) = self.record() {
                        let fault = self.hinted(fault);
                        self.faults.push(fault);
                        self.skip_record(begin);
                    }
                }
            }
        }
        if self.before.is_none() && self.faults.is_empty() {
            let (at, _) = self.scanner.peek();
            let rule = "a table begins with: node \"equipment id\" \"description\"";
            self.faults.push(misread(at, Some(1), rule));
        }
    }

    /// A fault, with what may be the reason for it.
    fn hinted(&self, fault: Misread) -> Misread {
        let Misread { at, number, rule } = fault;
        let slashes = self.has_slashes.then(|| COMMENT.to_string());
        let hint = self.last_text.and_then(|last| self.quote_hint(at, last));
        let hint = hint.or(slashes);
        let rule = match hint {
            Some(hint) => format!("{rule}; {hint}"),
            None => rule,
        };
        Misread { at, number, rule }
    }

    /// A text takes all up to the next double quote. If its own is missing, that
    /// is a later one, and a fault is found straight after it: then it is asked for.
    fn quote_hint(&self, at: usize, last: Quoted) -> Option<String> {
        let Quoted {
            at: begin,
            text,
            what,
        } = last;
        let end = begin + text.len() + 2;
        let follows = at == end || (at == end + 1 && text.contains(&b'='));
        if !follows || self.scanner.is_parted(at) {
            return None;
        }
        if text.ends_with(b"\\") {
            return Some("a text has no \\, so the quote after it ends the text".to_string());
        }
        let column = self.scanner.column(begin);
        Some(format!(
            "{what} began at column {column}: is its closing quote missing?"
        ))
    }

    /// Goes over what is left of a record that began there: its line, and the
    /// next ones until its brackets are closed or a record's word begins one.
    fn skip_record(&mut self, begin: usize) {
        self.scanner.go_to(begin);
        let mut open = i32::from(std::mem::take(&mut self.runs_on));
        loop {
            let (_, token) = self.scanner.peek();
            self.scanner.pass(token);
            match token {
                Token::Sign(b'(') => open += 1,
                Token::Sign(b')') => open -= 1,
                Token::Word(word) => open += brackets(word),
                Token::LineEnd if open <= 0 || !self.scanner.next_line() => return,
                Token::LineEnd => {
                    if let (_, Token::Word(word)) = self.scanner.peek() {
                        if keyword(word).is_some() {
                            return;
                        }
                    }
                }
                _ => {}
            }
        }
    }

    fn record(&mut self) -> Read<()> {
        (self.last_text, self.has_slashes) = (None, false);
        let (at, token) = self.scanner.peek();
        let found = match token {
            Token::Word(word) => keyword(word),
            _ => None,
        };
        let Some(word) = found else {
            self.has_unknown = true;
            let rule = "a line begins with node, edition, module, note, parameter or command";
            return Err(instead(at, rule, token));
        };
        self.scanner.pass(token);
        let placed = self.placed(word);
        self.before = Some(word);
        self.has_module |= word == Keyword::Module;
        placed.map_err(|rule| misread(at, Some(1), rule))?;
        self.spots.push(at);
        match word {
            Keyword::Node => {
                self.table.equipment_id = self.text("the equipment id")?;
                self.table.description = self.text("the description")?;
            }
            Keyword::Edition => self.table.edition = Some(self.text("the identification")?),
            Keyword::Module => {
                let module = Module::new(&self.name("the module's name")?, &self.description()?);
                self.table.modules.push(module);
            }
            Keyword::Note => {
                let note = self.text("the note")?;
                if let Some(module) = self.table.modules.last_mut() {
                    module.note = Some(note);
                }
            }
            Keyword::Parameter | Keyword::Command => self.accessible(word)?,
        }
        self.line_end()
    }

    /// Whether a record may stand after the one before it.
    fn placed(&self, word: Keyword) -> Result<(), &'static str> {
        let before = self.before;
        match word {
            _ if self.has_unknown => Ok(()),
            _ if before.is_none() && word != Keyword::Node => {
                Err("a table begins with: node \"equipment id\" \"description\"")
            }
            Keyword::Node if before.is_some() => Err("the node stands first, and once"),
            Keyword::Edition if before != Some(Keyword::Node) => {
                Err("the edition stands straight after the node, and once")
            }
            Keyword::Note if before != Some(Keyword::Module) => {
                Err("a note stands straight after its module, one for each")
            }
            Keyword::Parameter | Keyword::Command if !self.has_module => {
                Err("a parameter or command comes after its module")
            }
            _ => Ok(()),
        }
    }

    fn accessible(&mut self, word: Keyword) -> Read<()> {
        let (name, description) = (self.name("the name")?, self.description()?);
        let kind = match word {
            Keyword::Parameter => self.parameter()?,
            _ => self.command()?,
        };
        // a module that was misread has no place for it
        if let Some(module) = self.table.modules.last_mut() {
            module.accessibles.push(Accessible {
                name,
                description,
                kind,
            });
        }
        Ok(())
    }

    fn parameter(&mut self) -> Read<Kind> {
        let (_, token) = self.scanner.peek();
        let access = match token {
            Token::Word(b"readonly") => {
                self.scanner.pass(token);
                Access::ReadOnly
            }
            _ => Access::Write,
        };
        let datainfo = self.datainfo()?;
        let initial = self.initial()?;
        Ok(Kind::Parameter {
            access,
            datainfo,
            initial,
        })
    }

    fn command(&mut self) -> Read<Kind> {
        let argument = match self.scanner.peek() {
            (_, Token::LineEnd) => None,
            _ => Some(self.datainfo()?),
        };
        Ok(Kind::Command { argument })
    }

    /// `=` and a value, without its spaces outside strings. What is no JSON stays
    /// as it is, to be judged.
    fn initial(&mut self) -> Read<String> {
        self.sign(b'=', "= and the initial value, after the type")?;
        let (begin, value) = self.scanner.value();
        self.on_one_line(begin, &value)?;
        let kept = match json::read(&value) {
            Ok(_) => json::kept(&value),
            Err(_) => (0..value.len()).collect(),
        };
        self.spots.push(begin);
        self.spots.extend(kept.iter().map(|at| begin + at));
        let value: Vec<u8> = kept.iter().map(|&at| value[at]).collect();
        string(begin, &value)
    }
}

/// Values.
impl<'a> Parser<'a> {
    /// Whether a value that stops before its end goes on below: no record's word
    /// begins the next line. Where one does, the value is judged as it is.
    fn on_one_line(&mut self, begin: usize, value: &[u8]) -> Read<()> {
        let Some((place, unfinished)) = json::unfinished(value) else {
            return Ok(());
        };
        match self.scanner.peek_below() {
            None => return Ok(()),
            Some(Token::Word(word)) if keyword(word).is_some() => return Ok(()),
            Some(_) => {}
        }
        self.runs_on = !matches!(unfinished, Unfinished::Bracket(_));
        let rule = match unfinished {
            Unfinished::Missing => "it begins after its =".to_string(),
            Unfinished::Bracket(open) => format!("this {} is not closed", char::from(open)),
            Unfinished::String => "this string has no closing quote".to_string(),
        };
        let rule = format!("a value stands on one line; {rule}");
        Err(misread(begin + place, None, &rule))
    }
}

/// Datainfos.
impl<'a> Parser<'a> {
    fn datainfo(&mut self) -> Read<Datainfo> {
        let (at, token) = self.scanner.peek();
        let Token::Word(word) = token else {
            return Err(instead(at, &format!("expected a type: {TYPES}"), token));
        };
        self.scanner.pass(token);
        self.spots.push(at);
        Ok(match word {
            b"double" => {
                let (min, max) = self.limits(Parser::decimal)?;
                Datainfo::Double { min, max }
            }
            b"int" => {
                let (min, max) = self.limits(|parser| parser.whole("an int"))?;
                Datainfo::Int { min, max }
            }
            b"bool" => Datainfo::Bool,
            b"enum" => Datainfo::Enum(self.list(Parser::enum_member)?),
            b"string" => {
                let (minchars, maxchars) = self.limits(|parser| parser.whole("a string"))?;
                Datainfo::String { minchars, maxchars }
            }
            b"array" => self.array()?,
            b"tuple" => Datainfo::Tuple(self.list(Parser::datainfo)?),
            b"struct" => Datainfo::Struct(self.list(Parser::member)?),
            b"scaled" => self.scaled()?,
            b"blob" => {
                let (minbytes, maxbytes) = self.limits(|parser| parser.whole("a blob"))?;
                Datainfo::Blob { minbytes, maxbytes }
            }
            b"partial" => Datainfo::Partial(self.list(Parser::partial_member)?),
            _ => return Err(instead(at, &format!("expected a type: {TYPES}"), token)),
        })
    }

    fn array(&mut self) -> Read<Datainfo> {
        let (minlen, maxlen) = self.limits(|parser| parser.whole("an array"))?;
        self.word("of", "`of` and the elements' type")?;
        Ok(Datainfo::array(minlen, maxlen, self.datainfo()?))
    }

    fn scaled(&mut self) -> Read<Datainfo> {
        let scale = self.decimal()?;
        let rule = "`times` and the limits, as in: scaled 0.001 times 0 to 5000";
        self.word("times", rule)?;
        let (min, max) = self.limits(|parser| parser.whole("a scaled"))?;
        Ok(Datainfo::Scaled { scale, min, max })
    }

    /// `MIN to MAX`.
    fn limits<Limit>(
        &mut self,
        mut limit: impl FnMut(&mut Self) -> Read<Limit>,
    ) -> Read<(Limit, Limit)> {
        let min = limit(self)?;
        self.word("to", "`to` and the upper limit")?;
        Ok((min, limit(self)?))
    }

    /// What stands between brackets, parted by commas.
    fn list<Item>(&mut self, mut item: impl FnMut(&mut Self) -> Read<Item>) -> Read<Vec<Item>> {
        self.sign(b'(', "( and what it holds")?;
        self.scanner.open_brackets += 1;
        let mut items = Vec::new();
        let (_, token) = self.scanner.peek();
        while token != Token::Sign(b')') {
            items.push(item(self)?);
            match self.scanner.peek() {
                (_, Token::Sign(b')')) => break,
                _ => self.sign(b',', ", or )")?,
            }
        }
        self.scanner.open_brackets -= 1;
        self.sign(b')', ")")?;
        Ok(items)
    }

    fn enum_member(&mut self) -> Read<(String, i32)> {
        let name = self.name("the name of an enum member")?;
        self.sign(b':', ": and the member's number")?;
        Ok((name, self.whole("an enum member")?))
    }

    fn member(&mut self) -> Read<(String, Datainfo)> {
        let name = self.name("the name of a member")?;
        if let (at, Token::Sign(b'?')) = self.scanner.peek() {
            let rule = "only a partial has optional members: write partial for struct";
            return Err(misread(at, None, rule));
        }
        self.sign(b':', ": and the member's type")?;
        Ok((name, self.datainfo()?))
    }

    fn partial_member(&mut self) -> Read<Member> {
        let name = self.name("the name of a member")?;
        let (_, token) = self.scanner.peek();
        let optional = token == Token::Sign(b'?');
        if optional {
            self.scanner.pass(token);
        }
        self.sign(b':', ": and the member's type (?: for an optional one)")?;
        let datainfo = self.datainfo()?;
        Ok(Member {
            optional,
            name,
            datainfo,
        })
    }
}

/// Names, texts, numbers and signs.
impl<'a> Parser<'a> {
    fn name(&mut self, what: &str) -> Read<String> {
        let (at, token) = self.scanner.peek();
        let Token::Word(name) = token else {
            return Err(instead(at, &format!("expected {what}"), token));
        };
        self.has_slashes |= name.starts_with(b"//");
        self.scanner.pass(token);
        self.spots.push(at);
        string(at, name)
    }

    fn description(&mut self) -> Read<String> {
        self.text("the description")
    }

    fn text(&mut self, what: &'static str) -> Read<String> {
        let (at, token) = self.scanner.peek();
        let Token::Text(text) = token else {
            return Err(instead(
                at,
                &format!("expected {what} in double quotes"),
                token,
            ));
        };
        self.scanner.pass(token);
        self.spots.push(at);
        self.last_text = Some(Quoted { at, text, what });
        string(at + 1, text)
    }

    fn decimal(&mut self) -> Read<Decimal> {
        let (at, token) = self.scanner.peek();
        let Token::Word(word) = token else {
            return Err(instead(at, "expected a decimal, as 300 or -1.5e-3", token));
        };
        self.scanner.pass(token);
        self.spots.push(at);
        let read = decimal(&String::from_utf8_lossy(word));
        read.map_err(|rule| misread(at, None, &rule))
    }

    /// A whole number of the size that it has in the table.
    fn whole<Number: Whole>(&mut self, whose: &str) -> Read<Number> {
        let (at, token) = self.scanner.peek();
        let word = match token {
            Token::Word(word) => String::from_utf8_lossy(word),
            _ => return Err(instead(at, "expected a whole number", token)),
        };
        let digits = word.strip_prefix('-').unwrap_or(&word);
        if digits.is_empty() || !digits.bytes().all(|byte| byte.is_ascii_digit()) {
            return Err(instead(
                at,
                "expected a whole number, without . and e",
                token,
            ));
        }
        self.scanner.pass(token);
        self.spots.push(at);
        let (least, most) = Number::LIMITS;
        let rule = || format!("the numbers of {whose} are from {least} to {most}");
        word.parse().map_err(|_| misread(at, None, &rule()))
    }

    fn word(&mut self, word: &str, rule: &str) -> Read<()> {
        let (at, token) = self.scanner.peek();
        if token != Token::Word(word.as_bytes()) {
            return Err(instead(at, &format!("expected {rule}"), token));
        }
        self.scanner.pass(token);
        Ok(())
    }

    fn sign(&mut self, sign: u8, rule: &str) -> Read<()> {
        let (at, token) = self.scanner.peek();
        if token != Token::Sign(sign) {
            return Err(instead(at, &format!("expected {rule}"), token));
        }
        self.scanner.pass(token);
        Ok(())
    }

    fn line_end(&mut self) -> Read<()> {
        match self.scanner.peek() {
            (_, Token::LineEnd) => Ok(()),
            (at, token) => Err(instead(at, "expected the end of the line", token)),
        }
    }
}

/// Whole numbers in a table, and their limits as they are told.
trait Whole: FromStr {
    const LIMITS: (&'static str, &'static str);
}

impl Whole for i64 {
    const LIMITS: (&'static str, &'static str) = ("-9223372036854775808", "9223372036854775807");
}

impl Whole for i32 {
    const LIMITS: (&'static str, &'static str) = ("-2147483648", "2147483647");
}

impl Whole for u16 {
    const LIMITS: (&'static str, &'static str) = ("0", "65535");
}

fn keyword(word: &[u8]) -> Option<Keyword> {
    let mut all = KEYWORDS.iter();
    let found = all.find(|(name, _)| name.as_bytes() == word);
    found.map(|(_, keyword)| *keyword)
}

/// All digits make the mantissa; the places after the point and what follows
/// `e` make the power.
fn decimal(word: &str) -> Result<Decimal, String> {
    let bad = || format!("a decimal is written as 300, -1.5 or 2e-3; here is {word}");
    let (front, power) = word.split_once(['e', 'E']).unwrap_or((word, "0"));
    let (whole, places) = front.split_once('.').unwrap_or((front, ""));
    let digits = [whole.trim_start_matches('-'), places].concat();
    let (all_digits, unsigned) = (digits.bytes(), power.trim_start_matches(['+', '-']));
    let is_decimal = all_digits
        .chain(unsigned.bytes())
        .all(|byte| byte.is_ascii_digit())
        && !unsigned.is_empty()
        && !whole.trim_start_matches('-').is_empty()
        && whole.matches('-').count() < 2
        && power.len() - unsigned.len() < 2
        && front.contains('.') != places.is_empty();
    if !is_decimal {
        return Err(bad());
    }
    let mantissa = [whole, places].concat().parse();
    let mantissa = mantissa.map_err(|_| {
        "the digits of a decimal, its point left out, are at most 9223372036854775807".to_string()
    })?;
    let written: Option<i64> = power.parse().ok();
    let power = written.and_then(|power| i8::try_from(power - places.len() as i64).ok());
    let power = power.ok_or("a power of ten is from -30 to 30")?;
    Ok(Decimal { mantissa, power })
}

/// How many brackets of a value are open after a word of it.
fn brackets(word: &[u8]) -> i32 {
    let step = |byte: &u8| match byte {
        b'[' | b'{' => 1,
        b']' | b'}' => -1,
        _ => 0,
    };
    word.iter().map(step).sum()
}

fn misread(at: usize, number: Option<u8>, rule: &str) -> Misread {
    let rule = rule.to_string();
    Misread { at, number, rule }
}

/// A rule, and what is found instead.
fn instead(at: usize, rule: &str, token: Token) -> Misread {
    let found = match token {
        Token::Word(word) if word.starts_with(b"//") => format!("//; {COMMENT}"),
        Token::Word(word) => String::from_utf8_lossy(word).into_owned(),
        Token::Text(text) => format!("\"{}\"", String::from_utf8_lossy(text)),
        Token::Open => "a double quote that is not closed in its line".to_string(),
        Token::Sign(sign) => char::from(sign).to_string(),
        Token::LineEnd => "the end of the line".to_string(),
    };
    misread(at, None, &format!("{rule}; found {found}"))
}

/// The text's file is UTF-8, whatever the rules let in of it.
fn string(at: usize, bytes: &[u8]) -> Read<String> {
    let read = std::str::from_utf8(bytes);
    read.map(str::to_string).map_err(|error| {
        let place = error.valid_up_to();
        let bad = character(&bytes[place..]);
        let rule = format!("the file is not UTF-8: here is {bad}");
        misread(at + place, None, &rule)
    })
}
