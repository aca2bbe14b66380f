//! Which initial values fit a datainfo and are in stored form, and what is
//! wrong with the others.

use super::datainfo::{Datainfo, Decimal};
use super::exact::Exact;
use super::json::{self, Node, Pair, Value};
use super::print;

const STORED: usize = 256;
const TOKEN: usize = 32;

/// Where an initial value is wrong, and why; the first place of several.
pub(super) fn fault(datainfo: &Datainfo, text: &[u8]) -> Option<(usize, String)> {
    let value = match json::read(text) {
        Ok(value) => value,
        Err(bad) => return Some(word_fault(datainfo, text, &bad).unwrap_or(bad)),
    };
    let mut faults = Faults(Vec::new());
    faults.fit(datainfo, &value);
    faults.order(datainfo, &value);
    let first = faults.0.into_iter().min_by_key(|(at, _)| *at);
    first.or_else(|| stored_form_fault(text))
}

/// Of a text that is no JSON for a word without quotes: what stands there in a
/// value of this type.
fn word_fault(datainfo: &Datainfo, text: &[u8], bad: &(usize, String)) -> Option<(usize, String)> {
    let value = json::read_with_words(text).ok()?;
    let mut faults = Faults(Vec::new());
    faults.fit(datainfo, &value);
    faults.0.into_iter().find(|(at, _)| *at == bad.0)
}

/// Of a value that fits: "the value's text without spaces outside strings", and
/// its length.
fn stored_form_fault(text: &[u8]) -> Option<(usize, String)> {
    let kept = json::kept(text);
    let space = (0..text.len()).find(|&at| kept.get(at) != Some(&at));
    if let Some(at) = space {
        return Some((
            at,
            "a stored value has no spaces outside strings".to_string(),
        ));
    }
    let length = text.len();
    let rule = || format!("a value has at most 256 bytes; this one has {length}");
    (length > STORED).then(|| (0, rule()))
}

struct Faults(Vec<(usize, String)>);

impl Faults {
    fn add(&mut self, at: usize, rule: impl Into<String>) {
        self.0.push((at, rule.into()));
    }

    fn fit(&mut self, datainfo: &Datainfo, value: &Value) {
        let at = value.at;
        match (datainfo, &value.node) {
            (Datainfo::Bool, Node::Bool) => {}
            (Datainfo::Double { min, max }, Node::Number(token)) => {
                self.number(at, token, min, max);
            }
            (
                Datainfo::Int { min, max } | Datainfo::Scaled { min, max, .. },
                Node::Number(token),
            ) if is_whole(token) => self.number(at, token, &(*min).into(), &(*max).into()),
            (Datainfo::Enum(members), Node::Number(token)) if is_whole(token) => {
                self.member(at, token, members);
            }
            (Datainfo::Enum(members), Node::String(name) | Node::Word(name)) => {
                self.name(at, name, members);
            }
            (Datainfo::String { minchars, maxchars }, Node::String(text)) => {
                self.string(at, text, *minchars, *maxchars);
            }
            (Datainfo::Blob { minbytes, maxbytes }, Node::String(text)) => {
                self.blob(at, text, *minbytes, *maxbytes);
            }
            (_, node) => self.fit_inside(datainfo, at, node),
        }
    }

    /// Of a value that holds values, or of none of its type.
    fn fit_inside(&mut self, datainfo: &Datainfo, at: usize, node: &Node) {
        match (datainfo, node) {
            (
                Datainfo::Array {
                    minlen,
                    maxlen,
                    element,
                },
                Node::Array(values),
            ) => {
                self.size(at, values.len(), (*minlen, *maxlen), "elements");
                values.iter().for_each(|value| self.fit(element, value));
            }
            (Datainfo::Tuple(elements), Node::Array(values)) => self.tuple(at, elements, values),
            (Datainfo::Struct(members), Node::Object(pairs)) => {
                let members = members.iter().map(|(name, of)| (name.as_str(), of));
                self.members(at, &members.collect::<Vec<_>>(), pairs);
            }
            (Datainfo::Partial(members), Node::Object(pairs)) => {
                let members = members.iter().map(|one| (one.name.as_str(), &one.datainfo));
                self.members(at, &members.collect::<Vec<_>>(), pairs);
            }
            (_, node) => self.add(at, format!("{}; here is {}", wanted(datainfo), found(node))),
        }
    }

    fn number(&mut self, at: usize, token: &str, min: &Decimal, max: &Decimal) {
        let Some(value) = self.exact(at, token) else {
            return;
        };
        if value < Exact::from(min) {
            self.add(at, format!("{token} is below min {}", print::decimal(min)));
        }
        if value > Exact::from(max) {
            self.add(at, format!("{token} is above max {}", print::decimal(max)));
        }
    }

    fn member(&mut self, at: usize, token: &str, members: &[(String, i32)]) {
        let Some(value) = self.exact(at, token) else {
            return;
        };
        let mut numbers = members.iter().map(|(_, number)| i64::from(*number));
        if !numbers.any(|number| Exact::from(number) == value) {
            self.add(at, format!("no member of the enum has the number {token}"));
        }
    }

    /// A number's value, if its token is within the limits.
    fn exact(&mut self, at: usize, token: &str) -> Option<Exact> {
        let length = token.len();
        if length > TOKEN {
            self.add(
                at,
                format!("a number has at most 32 characters; this one has {length}"),
            );
            return None;
        }
        let value = Exact::of_token(token);
        if value.is_none() {
            self.add(at, "the power of a number in a value is from -99 to 99");
        }
        value
    }

    fn name(&mut self, at: usize, name: &str, members: &[(String, i32)]) {
        let rule = match members.iter().find(|(member, _)| member == name) {
            Some((_, number)) => format!(
                "an initial value has the numbers of enum members: write {number} for \"{name}\""
            ),
            None => format!("the enum has no member {name}, and a value has its number"),
        };
        self.add(at, rule);
    }

    fn string(&mut self, at: usize, text: &str, min: u16, max: u16) {
        let mut count = 0;
        let mut rest = text;
        while !rest.is_empty() {
            let length = match rest.as_bytes() {
                [b'\\', b'u', ..] => 6,
                [b'\\', ..] => 2,
                _ => 1,
            };
            if length == 6 && (rest[2..4] != *"00" || rest.as_bytes()[4] > b'7') {
                let rule = format!(
                    "a string has characters up to \\u007f; here is {}",
                    &rest[..6]
                );
                self.add(at, rule);
            }
            rest = &rest[length..];
            count += 1;
        }
        self.size(at, count, (min, max), "characters");
    }

    fn blob(&mut self, at: usize, text: &str, min: u16, max: u16) {
        match base64_size(text.as_bytes()) {
            Some(size) => self.size(at, size, (min, max), "bytes"),
            None => self.add(at, "a blob is padded base64, as \"AAEC\" or \"/w==\""),
        }
    }

    fn size(&mut self, at: usize, size: usize, (min, max): (u16, u16), what: &str) {
        if size < min.into() {
            self.add(
                at,
                format!("too few {what}: {size}, and at least {min} are needed"),
            );
        }
        if size > max.into() {
            self.add(
                at,
                format!("too many {what}: {size}, and at most {max} are allowed"),
            );
        }
    }

    fn tuple(&mut self, at: usize, elements: &[Datainfo], values: &[Value]) {
        if elements.len() != values.len() {
            let (wanted, found) = (elements.len(), values.len());
            self.add(
                at,
                format!("the tuple has {wanted} elements; here are {found}"),
            );
            return;
        }
        let pairs = elements.iter().zip(values);
        pairs.for_each(|(element, value)| self.fit(element, value));
    }

    /// Every member exactly once, in any order. Where one has a name that there
    /// isn't, that is told in the place of what is missing.
    fn members(&mut self, at: usize, members: &[(&str, &Datainfo)], pairs: &[Pair]) {
        for (number, pair) in pairs.iter().enumerate() {
            let key = pair.key;
            let is_twice = pairs[..number].iter().any(|other| other.key == key);
            match members.iter().find(|(name, _)| *name == key) {
                None => self.no_member(pair, members),
                Some(_) if is_twice => self.add(pair.at, format!("\"{key}\" is here twice")),
                Some((_, datainfo)) => self.fit(datainfo, &pair.value),
            }
        }
        let is_known = |pair: &Pair| members.iter().any(|(name, _)| *name == pair.key);
        if !pairs.iter().all(is_known) {
            return;
        }
        for (name, _) in members {
            if pairs.iter().all(|pair| pair.key != *name) {
                let rule =
                    format!("the member \"{name}\" is missing; an initial value has all of them");
                self.add(at, rule);
            }
        }
    }

    fn no_member(&mut self, pair: &Pair, members: &[(&str, &Datainfo)]) {
        let key = pair.key;
        let mut names = members.iter().map(|(name, _)| name);
        let rule = match names.find(|name| name.eq_ignore_ascii_case(key)) {
            Some(name) => format!("the struct has no member \"{key}\": write \"{name}\""),
            None => format!("the struct has no member \"{key}\""),
        };
        self.add(pair.at, rule);
    }

    /// "The stored form of a top-level type 11 .. lists members in table order,
    /// and initial values must too".
    fn order(&mut self, datainfo: &Datainfo, value: &Value) {
        let (Datainfo::Partial(members), Node::Object(pairs)) = (datainfo, &value.node) else {
            return;
        };
        let mut both = members.iter().zip(pairs);
        if let Some((member, pair)) = both.find(|(member, pair)| member.name != pair.key) {
            let (name, key) = (&member.name, pair.key);
            let rule = format!(
                "members stand in the order of their struct: \"{name}\" comes before \"{key}\""
            );
            self.add(pair.at, rule);
        }
    }
}

fn is_whole(token: &str) -> bool {
    !token.contains(['.', 'e', 'E'])
}

/// How many bytes a text is the padded base64 of, its unused bits zero.
fn base64_size(text: &[u8]) -> Option<usize> {
    let padding = text.iter().rev().take_while(|&&byte| byte == b'=').count();
    let digits: Option<Vec<u8>> = text[..text.len() - padding].iter().map(digit).collect();
    let last = digits?.last().copied().unwrap_or_default();
    let unused_bits = match padding {
        0 => 0,
        1 => 0b11,
        2 => 0b1111,
        _ => return None,
    };
    let is_whole = text.len() % 4 == 0 && last & unused_bits == 0;
    is_whole.then(|| text.len() / 4 * 3 - padding)
}

fn digit(byte: &u8) -> Option<u8> {
    Some(match byte {
        b'A'..=b'Z' => byte - b'A',
        b'a'..=b'z' => byte - b'a' + 26,
        b'0'..=b'9' => byte - b'0' + 52,
        b'+' => 62,
        b'/' => 63,
        _ => return None,
    })
}

fn wanted(datainfo: &Datainfo) -> &'static str {
    match datainfo {
        Datainfo::Double { .. } => "a double is a number",
        Datainfo::Int { .. } => "an int is a number without . and e",
        Datainfo::Bool => "a bool is true or false",
        Datainfo::Enum(_) => "an enum's value is the number of a member",
        Datainfo::String { .. } => "a string stands in double quotes",
        Datainfo::Array { .. } => "an array stands in [ ]",
        Datainfo::Tuple(_) => "a tuple stands in [ ]",
        Datainfo::Struct(_) | Datainfo::Partial(_) => "a struct stands in { }",
        Datainfo::Scaled { .. } => "a scaled is a number without . and e, in steps of its scale",
        Datainfo::Blob { .. } => "a blob is base64 in double quotes",
    }
}

fn found(node: &Node) -> String {
    match node {
        Node::Null => "null".to_string(),
        Node::Bool => "true or false".to_string(),
        Node::Number(token) => token.to_string(),
        Node::Word(word) => word.to_string(),
        Node::String(text) => format!("\"{text}\""),
        Node::Array(_) => "an array".to_string(),
        Node::Object(_) => "an object".to_string(),
    }
}
