//! Values for a datainfo, as JSON texts: fitting ones in many spellings, ones
//! near the limits, of a wrong type, broken ones and odd corners of JSON.

use super::{datainfos, names};
use crate::base64;
use crate::datainfo::{Datainfo, Limit};
use crate::json::{self, Json, Text};
use crate::random::Random;

/// Texts that try the corners of RFC 8259 and of the value rules.
#[rustfmt::skip]
pub const CORNERS: &[&str] = &[
    "", " ", "   ", "null", " null ", "true", " false", "nul", "truefalse", "True", "0", "-0",
    "00", "01", "-01", "-", "+1", "1.", ".5", "-.5", "1.0", "1.5", "0.0", "-0.0", "1e5", "1E5",
    "1E+05", "1e-05", "1e", "1e+", "1e1.0", "0e99", "0e100", "0e-99", "0e-100", "1e99", "1e100",
    "1e-99", "1e-100", "10e-100", "1e0099", "1e000000000000000000000000000001",
    "1e0000000000000000000000000000001", "1e00000000000000000000000000000001", "0.1e1", "12 34",
    "00000000000000000000000000000000", "0.000000000000000000000000000000",
    "0.0000000000000000000000000000000", "-0.000000000000000000000000000000",
    "9223372036854775807", "9223372036854775808", "-9223372036854775808", "-9223372036854775809",
    "18446744073709551616", "18446744073709551617", "4294967296", "2147483648", "-2147483649",
    "11111111111111111111111111111111", "111111111111111111111111111111111", "1e9999999999999999",
    "0x1", "NaN", "-Infinity", "1,", "1 ,", "1\t", "\t1", "1\n", "1\r", "\u{7f}", "1\u{80}",
    "\"\"", "\"a\"", "\"", "\"\\\"", "\"\\\\\"", "\"\\\\\\\"", "\"\\/\"", "\"\\b\\f\\n\\r\\t\"",
    "\"\\a\"", "\"\\u\"", "\"\\u004\"", "\"\\u0041\"", "\"\\u004G\"", "\"\\U0041\"",
    "\"\\u0000\"", "\"\\u007f\"", "\"\\u007F\"", "\"\\u0080\"", "\"\\uD800\"", "\"\\udC00\"",
    "\"\\ud83d\\ude00\"", "\"\\uFFFF\"", "\"\u{1f}\"", "\"\u{7f}\"", "\"\u{80}\"", "\"\t\"",
    "\"a\" \"b\"", "\"[\"", "\" \"", "'a'", "[]", "[ ]", "[,]", "[1,]", "[,1]", "[1 2]", "[1,2]",
    "[ 1 , 2 ]", "[", "]", "[]]", "[[]", "[1", "[1}", "[true]", "[[[]]]", "[[[[[[[[]]]]]]]]",
    "[[[[[[[[[]]]]]]]]]", "[[[[[[[[1]]]]]]]]", "[[[[[[[[\"[[\"]]]]]]]]",
    "[{\"a\":[{\"a\":[{\"a\":[{\"a\":1}]}]}]}]", "[{\"a\":[{\"a\":[{\"a\":[{\"a\":[]}]}]}]}]",
    "{}", "{ }", "{,}", "{\"a\"}", "{\"a\":}", "{\"a\":1,}", "{\"a\":1}", "{ \"a\" : 1 }",
    "{\"a\":1,\"a\":1}", "{\"a\":1 \"b\":2}", "{a:1}", "{1:1}", "{\"a\":1", "{\"a\" 1}", "{:1}",
    "{\"\\u0061\":1}", "{\"\":1}", "{{}}", "{\"a\":1}}", "{\"a\u{7f}\":1}",
    "\"Zg==\"", " \"Zm8=\" ", "\"Zm9v\"", "\"Zm9vYg==\"", "\"Zm9vYmE=\"", "\"Zm9vYmFy\"",
    "\"Zm9vYmFyYg==\"", "\"+/+/\"", "\"AAAA\"", "\"zz99\"", "\"Zh==\"", "\"Zv==\"", "\"Zm9=\"",
    "\"Zm/=\"", "\"Zw==\"", "\"Z/==\"", "\"Zm4=\"", "\"Z\"", "\"Zg\"", "\"Zg=\"", "\"Zm8\"",
    "\"Z===\"", "\"====\"", "\"=\"", "\"Zm9v=\"", "\"Zm9v====\"", "\"Zg==Zm9v\"", "\"Zm8=Zm8=\"",
    "\"Z=g=\"", "\"=Zm8\"", "\"Zm9vY\"", "\"Zm-v\"", "\"Zm_v\"", "\"Zm 9\"", "\" Zm9v\"",
    "\"Zm9v \"", "\"Zm9@\"", "\"Zm9[\"", "\"Zm9`\"", "\"Zm9{\"", "\"Zm9.\"", "\"Zm9:\"",
    "\"\\/\\/\\/\\/\"", "\"Zm9\\/\"", "\"\\u005Am9v\"", "\"\\u0080m9v\"", "\"Zm9\\n\"",
    "\"Zm9v\\n\"", "[\"Zm9v\"]", "Zm9v",
];

/// Escapes that count as one character.
const ESCAPES: [&str; 12] = [
    "\\\"", "\\\\", "\\/", "\\b", "\\f", "\\n", "\\r", "\\t", "\\u0041", "\\u007f", "\\u007F",
    "\\u0000",
];

/// The longest token that a number may have.
const MAX_TOKEN: usize = 32;

/// Any text: fitting, nearly fitting, unfit or broken.
pub fn any(random: &mut Random, datainfo: &Datainfo) -> Vec<u8> {
    let text = match random.below(20) {
        0..=5 => fitting(random, datainfo),
        6..=10 => Writer { random, odd_in: 3 }.value(datainfo),
        11..=13 => Writer { random, odd_in: 1 }.value(datainfo),
        14 => of_another_type(random),
        15..=16 => around_256(random, datainfo),
        17..=18 => corner(random),
        _ => {
            let text = Writer { random, odd_in: 6 }.value(datainfo);
            damaged(random, text)
        }
    };
    let text = if random.one_in(2) {
        with_names(random, datainfo, &text)
    } else {
        text
    };
    if random.one_in(3) {
        with_spaces(random, &text)
    } else {
        text
    }
}

/// A fitting value in stored form: without spaces outside strings, enum
/// members by their numbers. It is over 256 bytes only where the datainfo asks
/// for much.
pub fn fitting(random: &mut Random, datainfo: &Datainfo) -> Vec<u8> {
    let mut writer = Writer { random, odd_in: 0 };
    match datainfo {
        Datainfo::Partial { members, .. } => object(&writer.in_order(members)),
        _ => writer.value(datainfo),
    }
}

/// A change that leaves some optional members out, if there are any; the
/// others in any order, now and then one that is required left out too.
pub fn partly(random: &mut Random, datainfo: &Datainfo) -> Vec<u8> {
    let Datainfo::Partial { optional, members } = datainfo else {
        return sent(random, datainfo);
    };
    let kept: Vec<_> = members
        .iter()
        .zip(optional)
        .filter(|(_, optional)| !random.one_in(if **optional { 2 } else { 12 }))
        .map(|(member, _)| member.clone())
        .collect();
    if kept.is_empty() {
        return random.pick(&[&b"{}"[..], b"{ }", b" {}"]).to_vec();
    }
    let mut odd_in = Writer { random, odd_in: 0 };
    let text = object(&odd_in.members(&kept));
    with_names(random, datainfo, &text)
}

/// A fitting value as it may be sent, some enum members by their names.
pub fn sent(random: &mut Random, datainfo: &Datainfo) -> Vec<u8> {
    let value = fitting(random, datainfo);
    with_names(random, datainfo, &value)
}

/// The value with the names of some enum members in the place of their
/// numbers, at any depth, and without spaces; what is no JSON stays.
pub fn with_names(random: &mut Random, datainfo: &Datainfo, text: &[u8]) -> Vec<u8> {
    match json::read(text) {
        Some(value) => named(random, datainfo, value).stored_form(),
        None => text.to_vec(),
    }
}

fn named(random: &mut Random, datainfo: &Datainfo, value: Json) -> Json {
    match (datainfo, value) {
        (Datainfo::Enum(members), Json::Number(number)) => {
            let one = members
                .iter()
                .find(|(_, value)| value.to_string().as_bytes() == number.token);
            match one {
                Some((name, _)) if !random.one_in(4) => Json::String(Text { raw: name.clone() }),
                _ => Json::Number(number),
            }
        }
        (Datainfo::Array { members, .. }, Json::Array(elements)) => {
            let elements = elements.into_iter();
            Json::Array(elements.map(|one| named(random, members, one)).collect())
        }
        (Datainfo::Tuple(members), Json::Array(elements)) if members.len() == elements.len() => {
            let pairs = members.iter().zip(elements);
            Json::Array(
                pairs
                    .map(|(member, one)| named(random, member, one))
                    .collect(),
            )
        }
        (Datainfo::Struct(members) | Datainfo::Partial { members, .. }, Json::Object(sent)) => {
            let sent = sent.into_iter().map(|(key, value)| {
                let member = members.iter().find(|(name, _)| *name == key.raw);
                match member {
                    Some((_, member)) => (key, named(random, member, value)),
                    None => (key, value),
                }
            });
            Json::Object(sent.collect())
        }
        (_, value) => value,
    }
}

/// A value just outside the limits, or of nearly the right kind.
pub fn nearly_fitting(random: &mut Random, datainfo: &Datainfo) -> Vec<u8> {
    Writer { random, odd_in: 0 }.nearly(datainfo)
}

/// A fitting value of exactly so many bytes, where the datainfo holds a
/// string, a blob, a list of bools or a list of enum members that can be
/// stretched.
pub fn fitting_of_length(
    random: &mut Random,
    datainfo: &Datainfo,
    length: usize,
) -> Option<Vec<u8>> {
    match datainfo {
        Datainfo::String { minchars, maxchars } => {
            let count = length.checked_sub(2)?;
            let fits = (usize::from(*minchars)..=usize::from(*maxchars)).contains(&count);
            fits.then(|| quoted(&vec![b'x'; count]))
        }
        Datainfo::Blob { minbytes, maxbytes } => {
            let groups = length.checked_sub(2).filter(|count| count % 4 == 0)? / 4;
            let sizes = (3 * groups).saturating_sub(2)..=3 * groups;
            let limits = usize::from(*minbytes)..=usize::from(*maxbytes);
            let fitting: Vec<usize> = sizes.filter(|size| limits.contains(size)).collect();
            (!fitting.is_empty()).then(|| {
                let size = *random.pick(&fitting);
                blob(random, size)
            })
        }
        Datainfo::Array {
            minlen,
            maxlen,
            members,
        } if **members == Datainfo::Bool => {
            let counts = usize::from(*minlen)..=usize::from(*maxlen);
            bools_of_length(length)
                .filter(|text| counts.contains(&text.split(|&byte| byte == b',').count()))
        }
        Datainfo::Array {
            minlen,
            maxlen,
            members,
        } if matches!(**members, Datainfo::Enum(_)) => {
            let counts = usize::from(*minlen)..=usize::from(*maxlen);
            let lists = (0..8).filter_map(|_| numbers_of_length(random, members, length));
            lists
                .collect::<Vec<_>>()
                .into_iter()
                .find(|text| counts.contains(&text.split(|&byte| byte == b',').count()))
        }
        Datainfo::Array {
            minlen,
            maxlen,
            members,
        } if *maxlen > 0 => {
            let count = usize::from(*minlen).max(1);
            let all: Vec<&Datainfo> = (0..count).map(|_| &**members).collect();
            stretched(random, &all, length, list)
        }
        Datainfo::Tuple(members) => {
            let all: Vec<&Datainfo> = members.iter().collect();
            stretched(random, &all, length, list)
        }
        Datainfo::Struct(members) | Datainfo::Partial { members, .. } => {
            let all: Vec<&Datainfo> = members.iter().map(|(_, member)| member).collect();
            stretched(random, &all, length, |values| {
                let names = members.iter().map(|(name, _)| quoted(name));
                object(&names.zip(values.iter().cloned()).collect::<Vec<_>>())
            })
        }
        _ => None,
    }
}

/// Fitting values of several datainfos put together, one of them stretched so
/// that the whole has the length wanted.
fn stretched(
    random: &mut Random,
    datainfos: &[&Datainfo],
    length: usize,
    join: impl Fn(&[Vec<u8>]) -> Vec<u8>,
) -> Option<Vec<u8>> {
    let mut values: Vec<Vec<u8>> = datainfos.iter().map(|one| fitting(random, one)).collect();
    let first = random.below(values.len());
    let in_turn = (first..values.len()).chain(0..first);
    for at in in_turn.collect::<Vec<_>>() {
        let rest = join(&values).len() - values[at].len();
        let stretched = length
            .checked_sub(rest)
            .and_then(|length| fitting_of_length(random, datainfos[at], length));
        if let Some(value) = stretched {
            values[at] = value;
            return Some(join(&values));
        }
    }
    None
}

/// A list of bools: with commas and brackets each `true` takes five bytes and
/// each `false` six, and one byte remains.
fn bools_of_length(length: usize) -> Option<Vec<u8>> {
    let payload = length.checked_sub(1)?;
    let falses = payload % 5;
    let trues = payload.checked_sub(6 * falses)? / 5;
    let words = std::iter::repeat_n("true", trues).chain(std::iter::repeat_n("false", falses));
    let words: Vec<_> = words.map(|word| word.as_bytes().to_vec()).collect();
    Some(list(&words)).filter(|text| text.len() == length)
}

/// A list of an enum's numbers, of the length wanted if the last ones happen to
/// fill it: with commas and brackets each takes a byte more than its digits,
/// and one byte remains.
fn numbers_of_length(random: &mut Random, datainfo: &Datainfo, length: usize) -> Option<Vec<u8>> {
    let mut rest = length.checked_sub(1)?;
    let mut elements = Vec::new();
    while rest > 0 {
        let number = fitting(random, datainfo);
        rest = rest.checked_sub(number.len() + 1)?;
        elements.push(number);
    }
    Some(list(&elements))
}

fn around_256(random: &mut Random, datainfo: &Datainfo) -> Vec<u8> {
    let length = random.between(254, 258);
    fitting_of_length(random, datainfo, length).unwrap_or_else(|| quoted(&vec![b'x'; length - 2]))
}

fn corner(random: &mut Random) -> Vec<u8> {
    random.pick(CORNERS).as_bytes().to_vec()
}

fn of_another_type(random: &mut Random) -> Vec<u8> {
    let other = datainfos::good(random, 3);
    fitting(random, &other)
}

/// One byte lost, changed or added, or the end cut off.
fn damaged(random: &mut Random, mut text: Vec<u8>) -> Vec<u8> {
    let at = random.between(0, text.len());
    let byte = *random.pick(b"\"\\,:[]{}0-.eE 1u\x00\x09\x0a\x1f\x7f\x80\xff");
    match random.below(4) {
        0 => text.truncate(at),
        1 => text.insert(at, byte),
        2 if at < text.len() => text[at] = byte,
        _ if at < text.len() => {
            text.remove(at);
        }
        _ => {}
    }
    text
}

/// Spaces put here and there outside strings.
pub fn with_spaces(random: &mut Random, text: &[u8]) -> Vec<u8> {
    let mut spaced = spaces(random);
    let (mut in_string, mut escaped) = (false, false);
    for &byte in text {
        let structural = !in_string && b"[]{}:,".contains(&byte);
        if structural {
            spaced.extend(spaces(random));
        }
        spaced.push(byte);
        if structural {
            spaced.extend(spaces(random));
        }
        if byte == b'"' && !escaped {
            in_string = !in_string;
        }
        escaped = in_string && byte == b'\\' && !escaped;
    }
    spaced.extend(spaces(random));
    spaced
}

fn spaces(random: &mut Random) -> Vec<u8> {
    let count = *random.pick(&[0, 0, 0, 1, 2]);
    vec![b' '; count]
}

fn quoted(text: &[u8]) -> Vec<u8> {
    [b"\"", text, b"\""].concat()
}

fn list(elements: &[Vec<u8>]) -> Vec<u8> {
    [b"[", elements.join(&b',').as_slice(), b"]"].concat()
}

fn object(members: &[(Vec<u8>, Vec<u8>)]) -> Vec<u8> {
    let members: Vec<_> = members
        .iter()
        .map(|(key, value)| [key.as_slice(), value].join(&b':'))
        .collect();
    [b"{", members.join(&b',').as_slice(), b"}"].concat()
}

/// The base64 of so many bytes, as a value.
fn blob(random: &mut Random, size: usize) -> Vec<u8> {
    let bytes: Vec<u8> = (0..size).map(|_| random.byte()).collect();
    quoted(&base64::encode(&bytes))
}

/// Writes values; one part in `odd_in` is an odd one, none if that is 0.
struct Writer<'a> {
    random: &'a mut Random,
    odd_in: usize,
}

impl Writer<'_> {
    fn value(&mut self, datainfo: &Datainfo) -> Vec<u8> {
        if self.odd_in > 0 && self.random.one_in(self.odd_in) {
            return self.odd(datainfo);
        }
        match datainfo {
            Datainfo::Double { min, max } => self.double(min, max),
            Datainfo::Int { min, max } | Datainfo::Scaled { min, max, .. } => self.int(*min, *max),
            Datainfo::Bool => self.random.pick(&["true", "false"]).as_bytes().to_vec(),
            Datainfo::Enum(members) => {
                let (_, value) = *self.random.pick(members);
                self.whole(i128::from(value))
            }
            Datainfo::String { minchars, maxchars } => {
                let count = self.count(*minchars, *maxchars, 12);
                self.string(count)
            }
            Datainfo::Blob { minbytes, maxbytes } => {
                let size = self.count(*minbytes, *maxbytes, 7);
                blob(self.random, size)
            }
            Datainfo::Array {
                minlen,
                maxlen,
                members,
            } => {
                let count = self.count(*minlen, *maxlen, 3);
                let elements: Vec<_> = (0..count).map(|_| self.value(members)).collect();
                list(&elements)
            }
            Datainfo::Tuple(members) => {
                let elements: Vec<_> = members.iter().map(|member| self.value(member)).collect();
                list(&elements)
            }
            Datainfo::Struct(members) | Datainfo::Partial { members, .. } => {
                object(&self.members(members))
            }
        }
    }

    /// A count within the limits, not far above the lower one.
    fn count(&mut self, min: u16, max: u16, spread: u16) -> usize {
        let high = max.min(min.saturating_add(spread));
        self.random.between(usize::from(min), usize::from(high))
    }

    /// A limit in some spelling, or a number between limits of the same power.
    fn double(&mut self, min: &Limit, max: &Limit) -> Vec<u8> {
        let Limit { mantissa, power } = match self.random.below(3) {
            0 => *min,
            1 => *max,
            _ if min.power == max.power => Limit {
                mantissa: self
                    .random
                    .whole(i128::from(min.mantissa), i128::from(max.mantissa))
                    as i64,
                power: min.power,
            },
            _ => *min,
        };
        self.spelled(i128::from(mantissa), i64::from(power))
    }

    fn int(&mut self, min: i64, max: i64) -> Vec<u8> {
        let (min, max) = (i128::from(min), i128::from(max));
        let number = match self.random.below(4) {
            0 => min,
            1 => max,
            _ => self.random.whole(min, max),
        };
        self.whole(number)
    }

    /// A whole number; zero sometimes with a minus.
    fn whole(&mut self, number: i128) -> Vec<u8> {
        if number == 0 && self.random.one_in(3) {
            return b"-0".to_vec();
        }
        number.to_string().into_bytes()
    }

    /// The number `mantissa × 10^power` in one of many spellings.
    fn spelled(&mut self, mantissa: i128, power: i64) -> Vec<u8> {
        let sign = match (mantissa, self.random.one_in(2)) {
            (0, true) | (i128::MIN..0, _) => "-",
            _ => "",
        };
        let mut digits = mantissa.unsigned_abs().to_string();
        let zeros = *self.random.pick(&[0, 0, 0, 1, 4]);
        digits += &"0".repeat(zeros);
        // Zero has but one digit before the dot.
        let fraction = match mantissa {
            0 => zeros,
            _ => self.random.below(digits.len()),
        };
        let exponent = self.exponent(power - zeros as i64 + fraction as i64);
        digits.insert(digits.len() - fraction, '.');
        let digits = digits.trim_end_matches('.');
        let token = format!("{sign}{digits}{exponent}");
        if token.len() <= MAX_TOKEN {
            token.into_bytes()
        } else {
            format!("{mantissa}e{power}").into_bytes()
        }
    }

    fn exponent(&mut self, power: i64) -> String {
        if power == 0 && self.random.one_in(2) {
            return String::new();
        }
        let letter = self.random.pick(&["e", "E"]);
        let sign = match power {
            i64::MIN..0 => "-",
            _ => self.random.pick(&["", "", "+"]),
        };
        let zeros = self.random.pick(&["", "", "0", "000"]);
        format!("{letter}{sign}{zeros}{}", power.abs())
    }

    fn string(&mut self, count: usize) -> Vec<u8> {
        let characters: Vec<Vec<u8>> = (0..count).map(|_| self.character()).collect();
        quoted(&characters.concat())
    }

    fn character(&mut self) -> Vec<u8> {
        if self.random.one_in(12) {
            return self.random.pick(&ESCAPES).as_bytes().to_vec();
        }
        match self.random.between(32, 126) as u8 {
            b'"' | b'\\' => vec![b' '],
            byte => vec![byte],
        }
    }

    /// A struct's members in table order.
    fn in_order(&mut self, members: &[(Vec<u8>, Datainfo)]) -> Vec<(Vec<u8>, Vec<u8>)> {
        let members = members.iter();
        members
            .map(|(name, member)| (quoted(name), self.value(member)))
            .collect()
    }

    /// A struct's members in any order.
    fn members(&mut self, members: &[(Vec<u8>, Datainfo)]) -> Vec<(Vec<u8>, Vec<u8>)> {
        let mut written = self.in_order(members);
        let first = self.random.below(written.len());
        written.rotate_left(first);
        if self.random.one_in(3) {
            written.reverse();
        }
        written
    }

    /// Something near a fitting value, or far from it.
    fn odd(&mut self, datainfo: &Datainfo) -> Vec<u8> {
        match self.random.below(8) {
            0 => corner(self.random),
            1 => of_another_type(self.random),
            _ => self.nearly(datainfo),
        }
    }

    /// Just outside the limits, or of nearly the right kind.
    fn nearly(&mut self, datainfo: &Datainfo) -> Vec<u8> {
        match datainfo {
            Datainfo::Double { min, max } => {
                let limit = *self.random.pick(&[*min, *max]);
                self.beside(&limit)
            }
            Datainfo::Int { min, max } | Datainfo::Scaled { min, max, .. } => {
                let limit = i128::from(*self.random.pick(&[*min, *max]));
                let step = *self.random.pick(&[-1, 1]);
                let dot = self.random.pick(&["", "", "", ".0", "e0", "E1"]);
                format!("{}{dot}", limit + step).into_bytes()
            }
            Datainfo::Bool => self
                .random
                .pick(&["0", "1", "null", "\"true\"", "tru"])
                .as_bytes()
                .to_vec(),
            Datainfo::Enum(members) => {
                let (name, value) = self.random.pick(members).clone();
                let step = *self.random.pick(&[-1, 1, 1 << 32]);
                match self.random.below(4) {
                    0..=1 => self.odd_name(&name, value),
                    2 => format!("{value}.0").into_bytes(),
                    _ => (i128::from(value) + step).to_string().into_bytes(),
                }
            }
            Datainfo::String { minchars, maxchars } => self.odd_string(*minchars, *maxchars),
            Datainfo::Blob { minbytes, maxbytes } => self.odd_blob(*minbytes, *maxbytes),
            Datainfo::Array {
                minlen,
                maxlen,
                members,
            } => {
                let few = usize::from(*minlen).saturating_sub(1);
                let many = (usize::from(*maxlen) + 1).min(40);
                let count = *self.random.pick(&[few, many]);
                list(&(0..count).map(|_| self.value(members)).collect::<Vec<_>>())
            }
            Datainfo::Tuple(members) => {
                let mut elements: Vec<_> =
                    members.iter().map(|member| self.value(member)).collect();
                if self.random.one_in(2) {
                    elements.pop();
                } else {
                    elements.push(corner(self.random));
                }
                list(&elements)
            }
            Datainfo::Struct(members) | Datainfo::Partial { members, .. } => {
                self.odd_struct(members)
            }
        }
    }

    /// A string that nearly is a member's name: its letters in another case, a
    /// letter escaped, one too many or too few, a space; or the number quoted.
    fn odd_name(&mut self, name: &[u8], value: i32) -> Vec<u8> {
        let mut text = name.to_vec();
        let at = self.random.below(text.len());
        match self.random.below(8) {
            0 => text = names::other_case(self.random, name),
            1 => {
                let escape = format!("\\u{:04x}", text[at]);
                text.splice(at..=at, escape.bytes());
            }
            2 => {
                text.remove(at);
            }
            3 => text.push(text[at]),
            4 => text.insert(at, *self.random.pick(b" 0_\x7f")),
            5 => text.extend(self.random.pick(&ESCAPES).bytes()),
            6 => text = value.to_string().into_bytes(),
            _ => {}
        }
        quoted(&text)
    }

    /// A number on or very near a limit, on either side of it.
    fn beside(&mut self, limit: &Limit) -> Vec<u8> {
        let (mantissa, power) = (i128::from(limit.mantissa), i64::from(limit.power));
        let step = self.random.whole(-1, 1);
        match self.random.below(4) {
            0 => self.spelled(mantissa + step, power),
            1 => self.spelled(mantissa * 10 + step, power - 1),
            2 => format!("{mantissa}.0000000001e{power}").into_bytes(),
            _ => self.spelled(-mantissa, power),
        }
    }

    fn odd_string(&mut self, minchars: u16, maxchars: u16) -> Vec<u8> {
        let few = usize::from(minchars).saturating_sub(1);
        let many = (usize::from(maxchars) + 1).min(300);
        let inside = self.count(minchars, maxchars, 5);
        match self.random.below(4) {
            0 => self.string(few),
            1 => self.string(many),
            2 => {
                let mut text = self.string(inside);
                let odd = self
                    .random
                    .pick(&["\\u0080", "\\uD800", "\\u00e9", "\\x", "\\"]);
                text.splice(1..1, odd.bytes());
                text
            }
            _ => {
                let mut text = self.string(inside);
                text.insert(1, *self.random.pick(&[0, 9, 31, 127, 128, 255]));
                text
            }
        }
    }

    /// A size just outside the limits, or a text that is nearly base64: an
    /// unused bit set, padding or a digit lost or added, another byte in it.
    fn odd_blob(&mut self, minbytes: u16, maxbytes: u16) -> Vec<u8> {
        let few = usize::from(minbytes).saturating_sub(1);
        let many = (usize::from(maxbytes) + 1).min(195);
        let inside = self.count(minbytes, maxbytes, 5);
        let size = *self.random.pick(&[few, many, many, inside]);
        let mut text = blob(self.random, size);
        let last = text.len() - 2;
        match self.random.below(9) {
            0..=3 => {}
            4 if size > 0 => {
                let digit = text.iter().rposition(|byte| !b"\"=".contains(byte));
                text[digit.unwrap_or(1)] = *self.random.pick(b"BCEGIQghowxz019+/");
            }
            5 if size > 0 => {
                text.remove(last);
            }
            6 => text.insert(last + 1, *self.random.pick(b"=A \x7f")),
            7 => {
                let at = self.random.between(1, last + 1);
                let odd = self
                    .random
                    .pick(&["\\/", "\\u0041", "\\u0080", "-", "_", "=", "===="]);
                text.splice(at..at, odd.bytes());
            }
            _ => return base64::encode(&text),
        }
        text
    }

    /// A member left out, named twice, renamed or added.
    fn odd_struct(&mut self, members: &[(Vec<u8>, Datainfo)]) -> Vec<u8> {
        let mut written = self.members(members);
        let at = self.random.below(written.len());
        match self.random.below(5) {
            0 => {
                written.remove(at);
            }
            1 => written.push(written[at].clone()),
            2 => {
                let first = written[0].clone();
                written[at] = first;
                written.push((b"\"extra\"".to_vec(), b"1".to_vec()));
            }
            3 => {
                let letter = written[at].0[1];
                written[at]
                    .0
                    .splice(1..2, format!("\\u{letter:04x}").bytes());
            }
            _ => written[at].0 = written[at].0.to_ascii_uppercase(),
        }
        object(&written)
    }
}
