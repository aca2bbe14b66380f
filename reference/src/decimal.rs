//! Exact decimals: a sign, digits and a power of ten. They are compared digit
//! by digit; nothing is ever rounded.

use std::cmp::Ordering;

/// The number `± digits × 10^power`.
///
/// The digits are 0 to 9, the leading one first and never 0; zero has no
/// digits and no sign.
#[derive(Clone, Debug)]
pub struct Decimal {
    negative: bool,
    digits: Vec<u8>,
    power: i64,
}

impl Decimal {
    /// Takes ASCII digits, leading zeros allowed.
    pub fn new(negative: bool, ascii_digits: &[u8], power: i64) -> Decimal {
        let digits: Vec<u8> = ascii_digits
            .iter()
            .map(|digit| digit - b'0')
            .skip_while(|&digit| digit == 0)
            .collect();
        Decimal {
            negative: negative && !digits.is_empty(),
            digits,
            power,
        }
    }

    /// A whole number times a power of ten, as the table's limits are given.
    pub fn scaled(mantissa: i64, power: i8) -> Decimal {
        let digits = mantissa.unsigned_abs().to_string();
        Decimal::new(mantissa < 0, digits.as_bytes(), i64::from(power))
    }

    /// A whole number.
    pub fn whole(number: i64) -> Decimal {
        Decimal::scaled(number, 0)
    }

    /// -1, 0 or 1.
    fn sign(&self) -> i8 {
        match (self.digits.is_empty(), self.negative) {
            (true, _) => 0,
            (false, true) => -1,
            (false, false) => 1,
        }
    }

    /// The place of the leading digit: 1 for units, 2 for tens, 0 for tenths.
    fn leading_place(&self) -> i64 {
        self.digits.len() as i64 + self.power
    }

    /// Compares two numbers that are not zero without their signs.
    fn compare_sizes(&self, other: &Decimal) -> Ordering {
        self.leading_place()
            .cmp(&other.leading_place())
            .then_with(|| compare_from_the_left(&self.digits, &other.digits))
    }
}

/// Compares digits that start at the same place; what is missing on the right
/// counts as zeros.
fn compare_from_the_left(left: &[u8], right: &[u8]) -> Ordering {
    let digit = |digits: &[u8], at: usize| digits.get(at).copied().unwrap_or(0);
    (0..left.len().max(right.len()))
        .map(|at| digit(left, at).cmp(&digit(right, at)))
        .find(|order| order.is_ne())
        .unwrap_or(Ordering::Equal)
}

impl Ord for Decimal {
    fn cmp(&self, other: &Decimal) -> Ordering {
        self.sign()
            .cmp(&other.sign())
            .then_with(|| match self.sign() {
                0 => Ordering::Equal,
                1 => self.compare_sizes(other),
                _ => other.compare_sizes(self),
            })
    }
}

impl PartialOrd for Decimal {
    fn partial_cmp(&self, other: &Decimal) -> Option<Ordering> {
        Some(self.cmp(other))
    }
}

impl PartialEq for Decimal {
    fn eq(&self, other: &Decimal) -> bool {
        self.cmp(other).is_eq()
    }
}

impl Eq for Decimal {}

#[cfg(test)]
mod tests {
    use super::*;

    #[test]
    fn the_same_number_in_two_spellings_is_equal() {
        assert_eq!(Decimal::scaled(3, 2), Decimal::whole(300));
        assert_eq!(Decimal::scaled(250, -2), Decimal::new(false, b"25", -1));
        assert_eq!(Decimal::scaled(0, 30), Decimal::new(true, b"000", -99));
    }

    #[test]
    fn order_around_zero_and_at_the_ends_of_i64() {
        let rising = [
            Decimal::scaled(i64::MIN, 30),
            Decimal::scaled(i64::MIN, 0),
            Decimal::scaled(-i64::MAX, 0),
            Decimal::whole(-1),
            Decimal::scaled(-1, -30),
            Decimal::whole(0),
            Decimal::new(false, b"1", -120),
            Decimal::scaled(1, -30),
            Decimal::whole(1),
            Decimal::scaled(i64::MAX, 0),
            Decimal::new(false, b"9223372036854775808", 0),
            Decimal::scaled(i64::MAX, 30),
        ];
        for (at, left) in rising.iter().enumerate() {
            for (other, right) in rising.iter().enumerate() {
                assert_eq!(left.cmp(right), at.cmp(&other), "{left:?} {right:?}");
            }
        }
    }

    #[test]
    fn one_digit_far_to_the_right_counts() {
        let just_above = Decimal::new(false, b"3000000000000000000001", -19);
        assert!(just_above > Decimal::whole(300));
        let just_below = Decimal::new(true, b"3000000000000000000001", -19);
        assert!(just_below < Decimal::whole(-300));
    }
}
