//! Which values fit a datainfo, and what is stored of them.

use crate::base64;
use crate::datainfo::Datainfo;
use crate::decimal::Decimal;
use crate::json::{self, Json, Number, Text};

/// The longest stored form.
pub const MAX_STORED: usize = 256;

/// The longest number token.
const MAX_TOKEN: usize = 32;

/// Why a value is refused.
#[derive(Clone, Copy, Debug, PartialEq, Eq)]
pub enum ValueFault {
    BadJson,
    WrongType,
    RangeError,
}

/// The judgement on a tree and all its parts. The order is that of weight: of
/// several, the heaviest stands, so that a type fault anywhere wins over a
/// range fault anywhere.
#[derive(Clone, Copy, Debug, PartialEq, Eq, PartialOrd, Ord)]
enum Verdict {
    Fits,
    OutOfRange,
    WrongType,
}

/// Judges a text for a datainfo, where all members are required; the answer is
/// its stored form.
pub fn judge(datainfo: &Datainfo, text: &[u8]) -> Result<Vec<u8>, ValueFault> {
    judge_value(datainfo, json::read(text).ok_or(ValueFault::BadJson)?)
}

/// Judges a change of what a parameter shows, which is nothing while it is in
/// error: optional members that are left out at the top level are taken over
/// from it, and then all is as always.
pub fn judge_change(
    datainfo: &Datainfo,
    shown: Option<&[u8]>,
    text: &[u8],
) -> Result<Vec<u8>, ValueFault> {
    let value = json::read(text).ok_or(ValueFault::BadJson)?;
    judge_value(datainfo, completed(datainfo, shown, value))
}

/// The stored form has the numbers of enum members in the place of their
/// names, the members of a top-level struct with optional ones in table order,
/// and its length is what counts.
fn judge_value(datainfo: &Datainfo, value: Json) -> Result<Vec<u8>, ValueFault> {
    match verdict(datainfo, &value) {
        Verdict::WrongType => Err(ValueFault::WrongType),
        Verdict::OutOfRange => Err(ValueFault::RangeError),
        Verdict::Fits => Some(in_order(datainfo, numbered(datainfo, value)).stored_form())
            .filter(|stored| stored.len() <= MAX_STORED)
            .ok_or(ValueFault::RangeError),
    }
}

/// The value with each optional member that it leaves out as it is shown.
fn completed(datainfo: &Datainfo, shown: Option<&[u8]>, value: Json) -> Json {
    match (datainfo, value, shown.and_then(json::read)) {
        (
            Datainfo::Partial { optional, members },
            Json::Object(mut sent),
            Some(Json::Object(old)),
        ) => {
            for ((name, _), _) in members
                .iter()
                .zip(optional)
                .filter(|(_, optional)| **optional)
            {
                if sent.iter().all(|(key, _)| key.raw != *name) {
                    sent.extend(old.iter().find(|(key, _)| key.raw == *name).cloned());
                }
            }
            Json::Object(sent)
        }
        (_, value, _) => value,
    }
}

/// A fitting value of a struct with optional members, these in table order.
fn in_order(datainfo: &Datainfo, value: Json) -> Json {
    match (datainfo, value) {
        (Datainfo::Partial { members, .. }, Json::Object(mut sent)) => {
            sent.sort_by_key(|(key, _)| members.iter().position(|(name, _)| *name == key.raw));
            Json::Object(sent)
        }
        (_, value) => value,
    }
}

/// Judges the data of a command that declares no argument: only null will do.
pub fn judge_no_argument(text: &[u8]) -> Result<(), ValueFault> {
    match json::read(text) {
        None => Err(ValueFault::BadJson),
        Some(Json::Null) => Ok(()),
        Some(_) => Err(ValueFault::WrongType),
    }
}

/// Whether a text fits and is already in stored form, as initial values are:
/// with numbers alone for the members of enums.
pub fn is_stored_form(datainfo: &Datainfo, text: &[u8]) -> bool {
    judge(datainfo, text).is_ok_and(|stored| stored == text)
}

fn verdict(datainfo: &Datainfo, value: &Json) -> Verdict {
    match (datainfo, value) {
        (Datainfo::Bool, Json::Bool(_)) => Verdict::Fits,
        (Datainfo::Double { min, max }, Json::Number(number)) => number_verdict(number, |value| {
            (min.decimal()..=max.decimal()).contains(&value)
        }),
        (Datainfo::Int { min, max } | Datainfo::Scaled { min, max, .. }, Json::Number(number))
            if number.is_whole() =>
        {
            number_verdict(number, |value| (whole(*min)..=whole(*max)).contains(&value))
        }
        (Datainfo::Enum(members), Json::Number(number)) if number.is_whole() => {
            number_verdict(number, |value| {
                members
                    .iter()
                    .any(|(_, member)| value == whole(i64::from(*member)))
            })
        }
        (Datainfo::Enum(members), Json::String(text)) => {
            in_range(number_named(members, &text.raw).is_some())
        }
        (Datainfo::String { minchars, maxchars }, Json::String(text)) => {
            string_verdict(text, *minchars, *maxchars)
        }
        (Datainfo::Blob { minbytes, maxbytes }, Json::String(text)) => {
            blob_verdict(text, *minbytes, *maxbytes)
        }
        (
            Datainfo::Array {
                minlen,
                maxlen,
                members,
            },
            Json::Array(elements),
        ) => {
            let count_fits = is_within(elements.len(), *minlen, *maxlen);
            elements
                .iter()
                .map(|element| verdict(members, element))
                .fold(in_range(count_fits), Verdict::max)
        }
        (Datainfo::Tuple(members), Json::Array(elements)) if members.len() == elements.len() => {
            members
                .iter()
                .zip(elements)
                .map(|(member, element)| verdict(member, element))
                .fold(Verdict::Fits, Verdict::max)
        }
        (Datainfo::Struct(members) | Datainfo::Partial { members, .. }, Json::Object(sent))
            if members.len() == sent.len() =>
        {
            members
                .iter()
                .map(|(name, member)| member_verdict(name, member, sent))
                .fold(Verdict::Fits, Verdict::max)
        }
        _ => Verdict::WrongType,
    }
}

fn whole(number: i64) -> Decimal {
    Decimal::whole(number)
}

fn in_range(holds: bool) -> Verdict {
    if holds {
        Verdict::Fits
    } else {
        Verdict::OutOfRange
    }
}

fn is_within(count: usize, min: u16, max: u16) -> bool {
    (usize::from(min)..=usize::from(max)).contains(&count)
}

/// For all number types alike: the token's length, its written power,
/// then the value.
fn number_verdict(number: &Number, fits: impl Fn(Decimal) -> bool) -> Verdict {
    let short_enough = number.token.len() <= MAX_TOKEN;
    in_range(short_enough && number.decimal().is_some_and(fits))
}

fn string_verdict(text: &Text, minchars: u16, maxchars: u16) -> Verdict {
    let characters = text.characters();
    let all_ascii = characters.iter().all(|&character| character <= 0x7F);
    in_range(all_ascii && is_within(characters.len(), minchars, maxchars))
}

/// The text between the quotes, as it is written, must be the base64 of some
/// bytes: with an escape in it, it is none.
fn blob_verdict(text: &Text, minbytes: u16, maxbytes: u16) -> Verdict {
    base64::decode(&text.raw).map_or(Verdict::WrongType, |blob| {
        in_range(is_within(blob.len(), minbytes, maxbytes))
    })
}

/// A struct's member must be among the keys sent, raw byte by raw byte. As
/// many keys are sent as there are members and names are unique, so each key
/// is then there exactly once.
fn member_verdict(name: &[u8], member: &Datainfo, sent: &[(Text, Json)]) -> Verdict {
    sent.iter()
        .find(|(key, _)| key.raw == name)
        .map_or(Verdict::WrongType, |(_, value)| verdict(member, value))
}

/// The number of the enum member with this name, raw byte by raw byte. No name
/// has a backslash, so an escape names nobody.
fn number_named(members: &[(Vec<u8>, i32)], name: &[u8]) -> Option<i32> {
    members
        .iter()
        .find(|(member, _)| member == name)
        .map(|(_, number)| *number)
}

/// A fitting value with the member's number in the place of each enum member's
/// name, at any depth. Keys, and strings where no enum is asked for, are no
/// such names.
fn numbered(datainfo: &Datainfo, value: Json) -> Json {
    match (datainfo, value) {
        (Datainfo::Enum(members), Json::String(text)) => {
            let number = number_named(members, &text.raw);
            number.map_or(Json::String(text), Json::whole)
        }
        (Datainfo::Array { members, .. }, Json::Array(elements)) => {
            let elements = elements.into_iter();
            Json::Array(elements.map(|one| numbered(members, one)).collect())
        }
        (Datainfo::Tuple(members), Json::Array(elements)) => {
            let pairs = members.iter().zip(elements);
            Json::Array(pairs.map(|(member, one)| numbered(member, one)).collect())
        }
        (Datainfo::Struct(members) | Datainfo::Partial { members, .. }, Json::Object(sent)) => {
            let sent = sent.into_iter();
            Json::Object(sent.map(|one| numbered_member(members, one)).collect())
        }
        (_, value) => value,
    }
}

fn numbered_member(members: &[(Vec<u8>, Datainfo)], (key, value): (Text, Json)) -> (Text, Json) {
    match members.iter().find(|(name, _)| *name == key.raw) {
        Some((_, member)) => (key, numbered(member, value)),
        None => (key, value),
    }
}
