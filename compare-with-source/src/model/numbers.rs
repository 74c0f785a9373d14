//! Which words are numbers, and what they mean.

use super::count_while;
use crate::answer::Decimal;
use crate::reading::Reading;

/// Whether a word is a number, and whether it keeps the digit limits.
pub enum Number {
    No,
    Within(Decimal),
    OverLimits,
}

/// Cuts a word into the parts of a number. The digits of an exponent or a bracket may be absent in the
/// first reading, as in the source; in the standard they may not.
pub fn number(reading: Reading, word: &[u8]) -> Number {
    let mut rest = word;
    let minus = sign(&mut rest);
    let integer = digits(&mut rest);
    let fraction = if mark(&mut rest, b".") {
        digits(&mut rest)
    } else {
        b""
    };
    let power = rest.len() > 1 && mark(&mut rest, b"eE");
    let exponent_minus = power && sign(&mut rest);
    let exponent = if power { digits(&mut rest) } else { b"" };
    let bracket = mark(&mut rest, b"(");
    let uncertainty = if bracket { digits(&mut rest) } else { b"" };
    if bracket && !mark(&mut rest, b")") {
        return Number::No;
    }
    if !rest.is_empty() || (integer.is_empty() && fraction.is_empty()) {
        return Number::No;
    }
    let empty_part = (power && exponent.is_empty()) || (bracket && uncertainty.is_empty());
    if reading == Reading::Strict && empty_part {
        return Number::No;
    }
    if integer.len() > 9 || fraction.len() > 18 || exponent.len() > 9 || uncertainty.len() > 9 {
        return Number::OverLimits;
    }
    let magnitude = amount(exponent) as i32;
    Number::Within(Decimal {
        minus,
        integer: amount(integer) as u32,
        fraction: amount(fraction),
        fraction_digits: fraction.len() as u8,
        exponent: if exponent_minus {
            -magnitude
        } else {
            magnitude
        },
        uncertainty: bracket.then(|| amount(uncertainty) as u32),
    })
}

/// Takes an optional sign; true for minus.
fn sign(rest: &mut &[u8]) -> bool {
    let minus = rest.first() == Some(&b'-');
    mark(rest, b"+-");
    minus
}

/// Takes one byte if it is among these.
fn mark(rest: &mut &[u8], marks: &[u8]) -> bool {
    let found = rest.first().is_some_and(|byte| marks.contains(byte));
    if found {
        *rest = &rest[1..];
    }
    found
}

/// Takes all digits that stand next.
fn digits<'a>(rest: &mut &'a [u8]) -> &'a [u8] {
    let (digits, after) = rest.split_at(count_while(rest, |byte| byte.is_ascii_digit()));
    *rest = after;
    digits
}

/// The number that at most 18 digits write.
fn amount(digits: &[u8]) -> u64 {
    digits
        .iter()
        .fold(0, |amount, digit| amount * 10 + u64::from(digit - b'0'))
}
