//! Datainfos: what values a parameter or an argument may have.

use crate::decimal::Decimal;
use crate::name::are_good_names;

/// A limit of a double or the scale of a scaled: a whole number times a power
/// of ten.
#[derive(Clone, Copy, Debug, PartialEq)]
pub struct Limit {
    pub mantissa: i64,
    pub power: i8,
}

/// A datainfo as it stands in the table, with its faults if it has any.
#[derive(Clone, Debug, PartialEq)]
pub enum Datainfo {
    Double {
        min: Limit,
        max: Limit,
    },
    Int {
        min: i64,
        max: i64,
    },
    Bool,
    Enum(Vec<(Vec<u8>, i32)>),
    String {
        minchars: u16,
        maxchars: u16,
    },
    Array {
        minlen: u16,
        maxlen: u16,
        members: Box<Datainfo>,
    },
    Tuple(Vec<Datainfo>),
    Struct(Vec<(Vec<u8>, Datainfo)>),
    Scaled {
        scale: Limit,
        min: i64,
        max: i64,
    },
    Blob {
        minbytes: u16,
        maxbytes: u16,
    },
    /// A struct, and of each member whether it is optional.
    Partial {
        optional: Vec<bool>,
        members: Vec<(Vec<u8>, Datainfo)>,
    },
}

impl Limit {
    pub fn decimal(&self) -> Decimal {
        Decimal::scaled(self.mantissa, self.power)
    }

    fn keeps_its_rules(&self) -> bool {
        (-30..=30).contains(&self.power)
    }
}

impl Datainfo {
    /// The datainfos straight inside this one.
    pub fn inner(&self) -> Vec<&Datainfo> {
        match self {
            Datainfo::Array { members, .. } => vec![members],
            Datainfo::Tuple(members) => members.iter().collect(),
            Datainfo::Struct(members) | Datainfo::Partial { members, .. } => {
                members.iter().map(|(_, member)| member).collect()
            }
            _ => Vec::new(),
        }
    }

    /// Whether all names in it are good; each enum and each struct is a scope
    /// of its own.
    pub fn has_good_names(&self) -> bool {
        let own_names = match self {
            Datainfo::Enum(members) => are_good_names(members.iter().map(|(name, _)| &name[..])),
            Datainfo::Struct(members) | Datainfo::Partial { members, .. } => {
                are_good_names(members.iter().map(|(name, _)| &name[..]))
            }
            _ => true,
        };
        own_names && self.inner().into_iter().all(Datainfo::has_good_names)
    }

    /// Whether it keeps the rules for limits, counts and enum values, inside
    /// as well.
    pub fn keeps_its_rules(&self) -> bool {
        let own_rules = match self {
            Datainfo::Double { min, max } => {
                min.keeps_its_rules() && max.keeps_its_rules() && min.decimal() <= max.decimal()
            }
            Datainfo::Int { min, max } => min <= max,
            Datainfo::Bool => true,
            Datainfo::Enum(members) => {
                (1..=32).contains(&members.len()) && has_unique_values(members)
            }
            Datainfo::String { minchars, maxchars } => minchars <= maxchars,
            Datainfo::Array { minlen, maxlen, .. } => minlen <= maxlen,
            Datainfo::Tuple(members) => (1..=8).contains(&members.len()),
            Datainfo::Struct(members) | Datainfo::Partial { members, .. } => {
                (1..=8).contains(&members.len())
            }
            Datainfo::Scaled { scale, min, max } => {
                scale.keeps_its_rules() && scale.decimal() > Decimal::whole(0) && min <= max
            }
            Datainfo::Blob { minbytes, maxbytes } => minbytes <= maxbytes,
        };
        own_rules && self.inner().into_iter().all(Datainfo::keeps_its_rules)
    }
}

fn has_unique_values(members: &[(Vec<u8>, i32)]) -> bool {
    members.iter().enumerate().all(|(at, (_, value))| {
        members[..at]
            .iter()
            .all(|(_, earlier_value)| earlier_value != value)
    })
}
