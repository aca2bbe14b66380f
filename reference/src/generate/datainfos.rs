//! Datainfos, good ones and ones with a fault.

use super::names::{self, Scope};
use crate::datainfo::{Datainfo, Limit};
use crate::random::Random;

const MANTISSAS: [i64; 12] = [
    0,
    1,
    -1,
    3,
    250,
    300,
    -300,
    1_000_000_007,
    i64::MAX,
    i64::MIN,
    i64::MAX - 1,
    i64::MIN + 1,
];
const MEMBER_VALUES: [i32; 8] = [0, 1, 2, -1, 100, 400, i32::MAX, i32::MIN];

/// A good datainfo of at most so many levels.
pub fn good(random: &mut Random, levels: usize) -> Datainfo {
    match random.below(if levels > 1 { 18 } else { 11 }) {
        0..=1 => double(random),
        2..=3 => int(random),
        4 => Datainfo::Bool,
        5 => enumeration(random),
        6..=7 => string(random),
        8 => scaled(random),
        9..=10 => blob(random),
        11..=12 => array(random, levels),
        13 => Datainfo::Tuple(members(random, levels)),
        14..=15 => partial(random, levels),
        _ => {
            let mut scope = Scope::default();
            let members = members(random, levels).into_iter();
            Datainfo::Struct(
                members
                    .map(|member| (scope.fresh(random), member))
                    .collect(),
            )
        }
    }
}

/// A struct with optional members: some, none or all of them.
pub fn partial(random: &mut Random, levels: usize) -> Datainfo {
    let mut scope = Scope::default();
    let members: Vec<_> = members(random, levels)
        .into_iter()
        .map(|member| (scope.fresh(random), member))
        .collect();
    let optional = match random.below(6) {
        0 => vec![false; members.len()],
        1 => vec![true; members.len()],
        _ => members.iter().map(|_| random.one_in(2)).collect(),
    };
    Datainfo::Partial { optional, members }
}

fn double(random: &mut Random) -> Datainfo {
    let (one, other) = (limit(random), limit(random));
    if one.decimal() <= other.decimal() {
        Datainfo::Double {
            min: one,
            max: other,
        }
    } else {
        Datainfo::Double {
            min: other,
            max: one,
        }
    }
}

fn limit(random: &mut Random) -> Limit {
    let mantissa = if random.one_in(2) {
        *random.pick(&MANTISSAS)
    } else {
        random.whole(-1_000, 1_000) as i64
    };
    let power = match random.below(6) {
        0 => *random.pick(&[-30, 30]),
        1 => random.whole(-30, 30) as i8,
        2 => random.whole(-3, 3) as i8,
        _ => 0,
    };
    Limit { mantissa, power }
}

fn int(random: &mut Random) -> Datainfo {
    let (one, other) = (limit(random).mantissa, limit(random).mantissa);
    Datainfo::Int {
        min: one.min(other),
        max: one.max(other),
    }
}

fn enumeration(random: &mut Random) -> Datainfo {
    let count = if random.one_in(10) {
        32
    } else {
        random.between(1, 5)
    };
    Datainfo::Enum(enum_members(random, count))
}

/// Members with different names and values.
fn enum_members(random: &mut Random, count: usize) -> Vec<(Vec<u8>, i32)> {
    let mut scope = Scope::default();
    let mut members: Vec<(Vec<u8>, i32)> = Vec::new();
    while members.len() < count {
        let value = if random.one_in(2) {
            *random.pick(&MEMBER_VALUES)
        } else {
            random.whole(-100, 100) as i32
        };
        if members.iter().all(|(_, taken)| *taken != value) {
            members.push((scope.fresh(random), value));
        }
    }
    members
}

fn string(random: &mut Random) -> Datainfo {
    let minchars = if random.one_in(2) {
        0
    } else {
        random.between(0, 4) as u16
    };
    let maxchars = match random.below(8) {
        0 => u16::MAX,
        1..=2 => random.between(250, 400) as u16,
        _ => minchars + random.between(0, 8) as u16,
    };
    Datainfo::String { minchars, maxchars }
}

/// The scale is any positive decimal; it has no say in what values there are.
fn scaled(random: &mut Random) -> Datainfo {
    let Limit { mantissa, power } = limit(random);
    let scale = Limit {
        mantissa: mantissa.saturating_abs().max(1),
        power,
    };
    let (one, other) = (limit(random).mantissa, limit(random).mantissa);
    Datainfo::Scaled {
        scale,
        min: one.min(other),
        max: one.max(other),
    }
}

/// Few bytes, or about as many as go into 256 bytes of stored form, 189.
fn blob(random: &mut Random) -> Datainfo {
    let minbytes = match random.below(6) {
        0..=2 => 0,
        3 => random.between(184, 189) as u16,
        _ => random.between(0, 6) as u16,
    };
    let maxbytes = match random.below(6) {
        0 => u16::MAX,
        1 => random.between(186, 194).max(usize::from(minbytes)) as u16,
        _ => minbytes + random.between(0, 7) as u16,
    };
    Datainfo::Blob { minbytes, maxbytes }
}

fn array(random: &mut Random, levels: usize) -> Datainfo {
    let minlen = random.between(0, 2) as u16;
    let maxlen = match random.below(8) {
        0 => u16::MAX,
        1 => 300,
        _ => minlen + random.between(0, 3) as u16,
    };
    Datainfo::Array {
        minlen,
        maxlen,
        members: Box::new(if random.one_in(4) {
            enumeration(random)
        } else {
            good(random, levels - 1)
        }),
    }
}

/// What a tuple or struct of so many levels holds.
fn members(random: &mut Random, levels: usize) -> Vec<Datainfo> {
    let count = if random.one_in(12) {
        8
    } else {
        random.between(1, 3)
    };
    (0..count).map(|_| good(random, levels - 1)).collect()
}

/// A datainfo with a bad or repeated name somewhere.
pub fn with_bad_name(random: &mut Random) -> Datainfo {
    let bad = names::bad(random);
    let good_name = names::good(random);
    let repeated = names::other_case(random, &good_name);
    let second = if random.one_in(2) { bad } else { repeated };
    let faulty = if random.one_in(2) {
        Datainfo::Enum(vec![(good_name, 1), (second, 2)])
    } else {
        Datainfo::Struct(vec![(good_name, Datainfo::Bool), (second, Datainfo::Bool)])
    };
    wrapped(random, faulty)
}

/// A datainfo that breaks its own rules somewhere.
pub fn breaking_rules(random: &mut Random) -> Datainfo {
    let faulty = match random.below(10) {
        0 => bad_double(random),
        8 => bad_scaled(random),
        9 => Datainfo::Blob {
            minbytes: 256,
            maxbytes: 255,
        },
        1 => Datainfo::Int {
            min: i64::MIN + 1,
            max: i64::MIN,
        },
        2 => Datainfo::Enum(repeated_value(random)),
        3 => {
            let count = *random.pick(&[0, 33, 40]);
            Datainfo::Enum(enum_members(random, count))
        }
        4 => Datainfo::String {
            minchars: 256,
            maxchars: 255,
        },
        5 => Datainfo::Array {
            minlen: 1,
            maxlen: 0,
            members: Box::new(good(random, 1)),
        },
        6 => {
            let count = *random.pick(&[0, 9, 20]);
            Datainfo::Tuple((0..count).map(|_| good(random, 1)).collect())
        }
        _ => {
            let count = *random.pick(&[0, 9, 12]);
            let mut scope = Scope::default();
            let members = (0..count).map(|_| (scope.fresh(random), good(random, 1)));
            Datainfo::Struct(members.collect())
        }
    };
    wrapped(random, faulty)
}

fn bad_double(random: &mut Random) -> Datainfo {
    let limit = |mantissa, power| Limit { mantissa, power };
    let (min, max) = match random.below(4) {
        0 => (limit(1, 0), limit(0, 0)),
        1 => (limit(3_001, -1), limit(3, 2)),
        2 => (limit(0, *random.pick(&[31, -31, 127, -128])), limit(1, 0)),
        _ => (limit(-1, 0), limit(0, *random.pick(&[31, -31, 127, -128]))),
    };
    Datainfo::Double { min, max }
}

/// A scale that is not positive or has a power too far, or limits swapped.
fn bad_scaled(random: &mut Random) -> Datainfo {
    let limit = |mantissa, power| Limit { mantissa, power };
    let (scale, min, max) = match random.below(4) {
        0 => (limit(0, *random.pick(&[0, -30, 30])), 0, 1),
        1 => (limit(*random.pick(&[-1, i64::MIN]), 0), 0, 1),
        2 => (limit(1, *random.pick(&[31, -31, 127, -128])), 0, 1),
        _ => (limit(1, -3), i64::MAX, i64::MIN),
    };
    Datainfo::Scaled { scale, min, max }
}

fn repeated_value(random: &mut Random) -> Vec<(Vec<u8>, i32)> {
    let mut members = enum_members(random, 3);
    members[2].1 = members[0].1;
    members
}

/// A datainfo of at most two levels inside none, one or two others.
fn wrapped(random: &mut Random, inner: Datainfo) -> Datainfo {
    (0..random.below(3)).fold(inner, |inner, _| outer(random, inner))
}

/// A datainfo with a fifth level.
pub fn too_deep(random: &mut Random) -> Datainfo {
    let innermost = good(random, 1);
    (0..4).fold(innermost, |inner, _| outer(random, inner))
}

/// A good datainfo one level higher around another.
fn outer(random: &mut Random, inner: Datainfo) -> Datainfo {
    match random.below(3) {
        0 => Datainfo::Array {
            minlen: 0,
            maxlen: 3,
            members: Box::new(inner),
        },
        1 => Datainfo::Tuple(vec![Datainfo::Bool, inner]),
        _ if random.one_in(3) => Datainfo::Partial {
            optional: vec![random.one_in(2)],
            members: vec![(names::good(random), inner)],
        },
        _ => Datainfo::Struct(vec![(names::good(random), inner)]),
    }
}

/// Tuples of eight within each other: few bytes in a table, many in a report.
pub fn bulky(levels: usize) -> Datainfo {
    match levels {
        1 => Datainfo::Bool,
        _ => Datainfo::Tuple(vec![bulky(levels - 1); 8]),
    }
}
