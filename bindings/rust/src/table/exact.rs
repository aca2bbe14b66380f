//! Numbers compared as they are written, never rounded.

use super::datainfo::Decimal;
use std::cmp::Ordering;

/// The powers of ten that a number in a value may be written with.
const POWERS: std::ops::RangeInclusive<i32> = -99..=99;

/// A number as its digits after a point, without zeros at either end (none for
/// 0), times a power of ten.
#[derive(Clone, Debug, PartialEq, Eq)]
pub(super) struct Exact {
    is_negative: bool,
    digits: Vec<u8>,
    power: i32,
}

impl Exact {
    /// Of digits that stand for a whole number, times a power of ten.
    fn new(is_negative: bool, digits: &[u8], power: i32) -> Exact {
        let zeros = digits.iter().take_while(|&&digit| digit == b'0').count();
        let mut digits = digits[zeros..].to_vec();
        let power = power + digits.len() as i32;
        while digits.last() == Some(&b'0') {
            digits.pop();
        }
        let is_zero = digits.is_empty();
        Exact {
            is_negative: is_negative && !is_zero,
            digits,
            power: if is_zero { 0 } else { power },
        }
    }

    /// Of a JSON number; `None` if its power is out of the limits.
    pub fn of_token(token: &str) -> Option<Exact> {
        let (mantissa, power) = token.split_once(['e', 'E']).unwrap_or((token, "0"));
        let power = written_power(power)?;
        let is_negative = mantissa.starts_with('-');
        let mantissa = mantissa.trim_start_matches('-');
        let (whole, places) = mantissa.split_once('.').unwrap_or((mantissa, ""));
        let digits = [whole, places].concat();
        let power = power - places.len() as i32;
        Some(Exact::new(is_negative, digits.as_bytes(), power))
    }
}

/// A power as it is written, whatever zeros it begins with.
fn written_power(power: &str) -> Option<i32> {
    let digits = power.trim_start_matches(['+', '-']).trim_start_matches('0');
    let size: i32 = match digits {
        "" => 0,
        _ => digits.parse().ok()?,
    };
    let power = if power.starts_with('-') { -size } else { size };
    POWERS.contains(&power).then_some(power)
}

impl From<&Decimal> for Exact {
    fn from(decimal: &Decimal) -> Exact {
        let digits = decimal.mantissa.unsigned_abs().to_string();
        let is_negative = decimal.mantissa < 0;
        Exact::new(is_negative, digits.as_bytes(), decimal.power.into())
    }
}

impl From<i64> for Exact {
    fn from(whole: i64) -> Exact {
        Exact::from(&Decimal::from(whole))
    }
}

impl Ord for Exact {
    fn cmp(&self, other: &Exact) -> Ordering {
        let side = |one: &Exact| match (one.is_negative, one.digits.is_empty()) {
            (true, _) => -1,
            (false, true) => 0,
            (false, false) => 1,
        };
        let sizes = || (self.power, &self.digits).cmp(&(other.power, &other.digits));
        side(self).cmp(&side(other)).then_with(|| match side(self) {
            0 => Ordering::Equal,
            1 => sizes(),
            _ => sizes().reverse(),
        })
    }
}

impl PartialOrd for Exact {
    fn partial_cmp(&self, other: &Exact) -> Option<Ordering> {
        Some(self.cmp(other))
    }
}

#[cfg(test)]
mod tests {
    use super::*;

    #[test]
    fn comparisons_are_exact() {
        let token = |text| Exact::of_token(text).expect("a power within its limits");
        let limit = |mantissa, power| Exact::from(&Decimal::new(mantissa, power));
        assert_eq!(token("3e2"), limit(300, 0));
        assert!(token("300.0000000000000000001") > limit(3, 2));
        assert_eq!(token("-0"), limit(0, 30));
        assert_eq!(token("25e-1"), limit(250, -2));
        assert!(token("-2") < token("-1.999"));
        assert!(token("-1") < token("0.0"));
        assert!(token("0.1") < token("0.12"));
        assert!(token("9e1") < token("1e2"));
        assert!(token("-9e1") > token("-1e2"));
        assert!(token("-9223372036854775809") < Exact::from(i64::MIN));
    }

    #[test]
    fn powers_are_taken_as_written() {
        assert_eq!(Exact::of_token("0e100"), None);
        assert_eq!(Exact::of_token("1e-100"), None);
        assert!(Exact::of_token("1e+0099").is_some());
        assert!(Exact::of_token("1.5e-99").is_some());
        assert_eq!(Exact::of_token("1e99999999999999"), None);
    }
}
