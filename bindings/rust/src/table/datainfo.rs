//! Datainfos: which values a parameter or an argument may have.

/// A limit of a double, or the scale of a scaled: a whole number times a power
/// of ten, from -30 to 30. 2.50 is 250 with the power -2.
#[derive(Clone, Copy, Debug, PartialEq, Eq)]
pub struct Decimal {
    pub mantissa: i64,
    pub power: i8,
}

impl Decimal {
    pub const fn new(mantissa: i64, power: i8) -> Decimal {
        Decimal { mantissa, power }
    }
}

/// A whole number.
impl From<i64> for Decimal {
    fn from(mantissa: i64) -> Decimal {
        Decimal::new(mantissa, 0)
    }
}

/// A datainfo of each of the types 1 to 11, in their order.
#[derive(Clone, Debug, PartialEq, Eq)]
pub enum Datainfo {
    Double {
        min: Decimal,
        max: Decimal,
    },
    Int {
        min: i64,
        max: i64,
    },
    Bool,
    /// 1 to 32 members, each a name and a number.
    Enum(Vec<(String, i32)>),
    String {
        minchars: u16,
        maxchars: u16,
    },
    Array {
        minlen: u16,
        maxlen: u16,
        element: Box<Datainfo>,
    },
    /// 1 to 8 elements.
    Tuple(Vec<Datainfo>),
    /// 1 to 8 members.
    Struct(Vec<(String, Datainfo)>),
    /// A value travels as a whole number that counts steps of the scale.
    Scaled {
        scale: Decimal,
        min: i64,
        max: i64,
    },
    Blob {
        minbytes: u16,
        maxbytes: u16,
    },
    /// A struct of which a change may leave some members out: type 11.
    Partial(Vec<Member>),
}

/// A member of a struct that may have optional ones.
#[derive(Clone, Debug, PartialEq, Eq)]
pub struct Member {
    pub optional: bool,
    pub name: String,
    pub datainfo: Datainfo,
}

impl Member {
    pub fn required(name: &str, datainfo: Datainfo) -> Member {
        Member {
            optional: false,
            name: name.to_string(),
            datainfo,
        }
    }

    pub fn optional(name: &str, datainfo: Datainfo) -> Member {
        Member {
            optional: true,
            ..Member::required(name, datainfo)
        }
    }
}

impl Datainfo {
    pub fn double(min: impl Into<Decimal>, max: impl Into<Decimal>) -> Datainfo {
        let (min, max) = (min.into(), max.into());
        Datainfo::Double { min, max }
    }

    pub fn int(min: i64, max: i64) -> Datainfo {
        Datainfo::Int { min, max }
    }

    pub fn choice(members: &[(&str, i32)]) -> Datainfo {
        let members = members.iter();
        Datainfo::Enum(members.map(|(name, of)| (name.to_string(), *of)).collect())
    }

    pub fn string(minchars: u16, maxchars: u16) -> Datainfo {
        Datainfo::String { minchars, maxchars }
    }

    pub fn array(minlen: u16, maxlen: u16, element: Datainfo) -> Datainfo {
        let element = Box::new(element);
        Datainfo::Array {
            minlen,
            maxlen,
            element,
        }
    }

    pub fn structure(members: &[(&str, Datainfo)]) -> Datainfo {
        let members = members.iter();
        let member = |(name, of): &(&str, Datainfo)| (name.to_string(), of.clone());
        Datainfo::Struct(members.map(member).collect())
    }

    pub fn scaled(scale: impl Into<Decimal>, min: i64, max: i64) -> Datainfo {
        let scale = scale.into();
        Datainfo::Scaled { scale, min, max }
    }

    pub fn blob(minbytes: u16, maxbytes: u16) -> Datainfo {
        Datainfo::Blob { minbytes, maxbytes }
    }
}
