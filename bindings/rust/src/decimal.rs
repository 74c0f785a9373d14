//! Numbers as the file writes them: exact decimals, never rounded to a machine number.

use std::cmp::Ordering;
use std::fmt;

/// A number: sign, digits before and behind the point, exponent, uncertainty.
///
/// Its text is that of a rendering, and means exactly the same number: `-1.50e-3(4)`. Two are `==` where
/// all parts are, so that `1.5` is not `1.50`; [`is_same_value`](Decimal::is_same_value) and
/// [`compare`](Decimal::compare) tell by value.
#[derive(Debug, Clone, Copy, Default, PartialEq, Eq, Hash)]
pub struct Decimal {
    /// Whether a minus stands before it.
    pub minus: bool,
    /// The digits before the point.
    pub integer: u64,
    /// The digits behind the point, as a number: 50 in `1.50`. Below 10 to the power of `digits`.
    pub fraction: u64,
    /// How many digits stand behind the point: 2 in `1.50`.
    pub digits: u64,
    /// The power of ten that the digits are multiplied by.
    pub exponent: i64,
    /// The uncertainty, in units of the last digit written; none where no brackets stand.
    pub uncertainty: Option<u64>,
}

impl Decimal {
    /// The nearest `f64`, without the uncertainty; infinite where none is near.
    pub fn to_f64(self) -> f64 {
        let exact = Decimal {
            uncertainty: None,
            ..self
        };
        exact.to_string().parse().unwrap_or(f64::NAN)
    }

    /// Which of two numbers is the larger, exactly and for every exponent; the uncertainties don't count.
    pub fn compare(&self, other: &Decimal) -> Ordering {
        match (self.is_below_zero(), other.is_below_zero()) {
            (false, false) => self.size().cmp(other.size()),
            (true, true) => other.size().cmp(self.size()),
            (below, other_below) => other_below.cmp(&below),
        }
    }

    /// Whether two numbers are the same, as `1.50`, `1.5` and `15e-1` are, and `-0` and `0`; the
    /// uncertainties don't count.
    pub fn is_same_value(&self, other: &Decimal) -> bool {
        self.compare(other) == Ordering::Equal
    }

    /// Which of two uncertainties is the larger, as the size that it has in units of the last digit
    /// written; where no brackets stand it is 0.
    pub fn compare_uncertainties(&self, other: &Decimal) -> Ordering {
        self.uncertainty_size().cmp(other.uncertainty_size())
    }

    fn is_below_zero(&self) -> bool {
        self.minus && (self.integer > 0 || self.fraction > 0)
    }

    /// The digits that are not 0, each behind its power of ten, the largest first. As such rows are
    /// ordered, so are the sizes: by the first digit that differs, and then the longer row is the larger.
    fn size(&self) -> impl Iterator<Item = (i128, u64)> {
        let unit = i128::from(self.exponent);
        digits(self.integer, unit).chain(digits(self.fraction, self.last_power()))
    }

    fn uncertainty_size(&self) -> impl Iterator<Item = (i128, u64)> {
        digits(self.uncertainty.unwrap_or(0), self.last_power())
    }

    /// The power of ten of the last digit written.
    fn last_power(&self) -> i128 {
        i128::from(self.exponent) - i128::from(self.digits)
    }
}

/// The digits of a number that are not 0, each behind its power of ten; that of the last digit is given.
fn digits(number: u64, last_power: i128) -> impl Iterator<Item = (i128, u64)> {
    let digit = move |power: u32| {
        (
            last_power + i128::from(power),
            number / 10_u64.pow(power) % 10,
        )
    };
    (0..20).rev().map(digit).filter(|(_, digit)| *digit > 0)
}

impl fmt::Display for Decimal {
    fn fmt(&self, out: &mut fmt::Formatter<'_>) -> fmt::Result {
        if self.minus {
            out.write_str("-")?;
        }
        write!(out, "{}", self.integer)?;
        if self.digits > 0 {
            write!(
                out,
                ".{:0width$}",
                self.fraction,
                width = self.digits as usize
            )?;
        }
        if self.exponent != 0 {
            write!(out, "e{}", self.exponent)?;
        }
        match self.uncertainty {
            Some(uncertainty) => write!(out, "({uncertainty})"),
            None => Ok(()),
        }
    }
}

#[cfg(test)]
mod tests {
    use super::*;

    const ZERO: Decimal = Decimal {
        minus: false,
        integer: 0,
        fraction: 0,
        digits: 0,
        exponent: 0,
        uncertainty: None,
    };

    #[test]
    fn leading_and_trailing_zeros_of_the_fraction_are_kept() {
        let decimal = Decimal {
            integer: 1,
            fraction: 50,
            digits: 3,
            ..ZERO
        };
        assert_eq!(decimal.to_string(), "1.050");
        assert_eq!(Decimal { digits: 1, ..ZERO }.to_string(), "0.0");
    }

    #[test]
    fn every_part_is_printed() {
        let decimal = Decimal {
            minus: true,
            integer: 1,
            fraction: 5,
            digits: 1,
            exponent: -3,
            uncertainty: Some(0),
        };
        assert_eq!(decimal.to_string(), "-1.5e-3(0)");
        assert_eq!(decimal.to_f64(), -0.0015);
    }

    #[test]
    fn zero_keeps_its_sign() {
        let minus = Decimal {
            minus: true,
            ..ZERO
        };
        assert_eq!(
            (ZERO.to_string(), minus.to_string()),
            ("0".into(), "-0".into())
        );
        assert!(minus.to_f64().is_sign_negative());
    }

    #[test]
    fn the_largest_and_smallest_exponents_need_no_room() {
        let large = Decimal {
            integer: 999_999_999,
            exponent: 999_999_999,
            ..ZERO
        };
        assert_eq!(large.to_string(), "999999999e999999999");
        assert_eq!(large.to_f64(), f64::INFINITY);
        let small = Decimal {
            exponent: -999_999_999,
            ..large
        };
        assert_eq!(small.to_f64(), 0.0);
    }

    /// A number as a file has it.
    fn read(word: &str) -> Decimal {
        let text = format!("data_x _a {word}");
        let document = crate::Document::read(text.as_bytes()).expect("the text is read");
        let value = document.records().nth(2).expect("the value stands there");
        value.decimal.expect("the value is a number")
    }

    /// Numbers of one row are equal, and larger than those of the rows before it.
    #[test]
    fn numbers_are_ordered_by_value() {
        let rows: [&[&str]; 13] = [
            &["-1e999999999", "-10e999999998(5)"],
            &["-2", "-2.0(1)", "-0.2e1"],
            &["-1.999999999999999999"],
            &["-1e-999999999"],
            &["0", "-0", "0.00", "0e999999999", "-0.0e-999999999(3)"],
            &["1e-999999999", "0.1e-999999998"],
            &["0.000000000000000001", "1e-18"],
            &["1.5", "1.50", "15e-1", "0.0015e3(2)"],
            &["1.500000000000000001"],
            &["999999999.999999999999999999"],
            &["1e9", "10e8", "0.1e10"],
            &["9e999999998"],
            &["1e999999999", "10e999999998"],
        ];
        let numbers = || {
            rows.iter()
                .enumerate()
                .flat_map(|(row, words)| words.iter().map(move |word| (row, read(word))))
        };
        for ((row, number), (other_row, other)) in
            numbers().flat_map(|one| numbers().map(move |other| (one, other)))
        {
            assert_eq!(
                number.compare(&other),
                row.cmp(&other_row),
                "{number} {other}"
            );
            assert_eq!(number.is_same_value(&other), row == other_row);
        }
    }

    #[test]
    fn uncertainties_are_ordered_by_size() {
        for (smaller, larger) in [
            ("1", "1(1)"),
            ("1.5(2)", "1(1)"),
            ("1e-999999999(9)", "-5.25e-3(1)"),
        ] {
            let (smaller, larger) = (read(smaller), read(larger));
            assert_eq!(smaller.compare_uncertainties(&larger), Ordering::Less);
            assert_eq!(larger.compare_uncertainties(&smaller), Ordering::Greater);
        }
        for (one, other) in [
            ("1.5(1)", "7.50(10)"),
            ("1", "2.5(0)"),
            ("3e2(5)", "-3.0e3(5)"),
        ] {
            assert_eq!(
                read(one).compare_uncertainties(&read(other)),
                Ordering::Equal
            );
        }
    }

    /// No store has such parts, but a program may put them together.
    #[test]
    fn no_parts_overflow() {
        let large = Decimal {
            integer: u64::MAX,
            fraction: u64::MAX,
            digits: u64::MAX,
            exponent: i64::MAX,
            ..ZERO
        };
        let small = Decimal {
            exponent: i64::MIN,
            ..large
        };
        assert_eq!(
            (large.compare(&small), small.compare(&large)),
            (Ordering::Greater, Ordering::Less)
        );
        assert!(large.is_same_value(&large));
    }

    #[test]
    fn all_18_digits_behind_the_point_are_kept() {
        let decimal = Decimal {
            fraction: 1,
            digits: 18,
            ..ZERO
        };
        assert_eq!(decimal.to_string(), "0.000000000000000001");
    }
}
