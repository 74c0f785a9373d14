//! Numbers: the standard's, and their digit limits.

use super::*;
use crate::answer::Decimal;

fn decimal(word: &str) -> Option<Decimal> {
    match number(Reading::Strict, word.as_bytes()) {
        Number::Within(decimal) => Some(decimal),
        _ => None,
    }
}

#[test]
fn a_number_is_what_the_standard_calls_one() {
    for word in [
        "1", "-1", "+1", "1.", ".5", "-.5", "1.5", "1e5", "1E-5", "1.e+5", ".5e0", "007",
    ] {
        assert_eq!(value(word), (14, String::new()), "{word}");
    }
    for word in ["1(2)", "1.50(2)", "1e5(3)", ".5(0)", "-1.e5(12)"] {
        assert_eq!(value(word), (15, String::new()), "{word}");
    }
    for word in [
        "1e+", "1E-", "1e", "1()", "1e(5)", "1e+()", "1e5()", ".e5", "+", "(1)", "1(2", "1(2)3",
    ] {
        bare(word);
    }
    let parts = decimal("-01.050E-07(02)").expect("a number");
    let expected = Decimal {
        minus: true,
        integer: 1,
        fraction: 50,
        fraction_digits: 3,
        exponent: -7,
        uncertainty: Some(2),
    };
    assert_eq!(parts, expected);
}

#[test]
fn only_such_numbers_are_judged_by_their_digits() {
    for word in [
        "1234567890",
        ".0000000000000000001",
        "1e0000000000",
        "1(0000000000)",
    ] {
        let text = format!("data_x _a {word}");
        assert_eq!(refused(&text), (9, 10, 1, 11, 0), "{word}");
    }
    for word in [
        "1234567890e+",
        "1234567890()",
        "1234567890x",
        "1e+(1234567890)",
    ] {
        bare(word);
    }
    assert_eq!(
        value("123456789.123456789012345678e-123456789(123456789)").0,
        15
    );
    assert_eq!(
        refused("data_x save_f _a 1234567890 save_"),
        (9, 17, 1, 18, 0)
    );
}

/// The standard's grammar of numbers, rule by rule, without regard to limits.
mod grammar {
    fn digits(word: &str) -> bool {
        !word.is_empty() && word.bytes().all(|byte| byte.is_ascii_digit())
    }

    fn unsigned(word: &str) -> &str {
        word.strip_prefix(['+', '-']).unwrap_or(word)
    }

    fn integer(word: &str) -> bool {
        digits(unsigned(word))
    }

    fn exponent(word: &str) -> bool {
        word.strip_prefix(['e', 'E']).is_some_and(integer)
    }

    fn point_form(word: &str) -> bool {
        let parts = unsigned(word).split_once('.');
        parts.is_some_and(|(before, behind)| {
            let ends_in_digits = (before.is_empty() || digits(before)) && digits(behind);
            ends_in_digits || (digits(before) && behind.is_empty())
        })
    }

    fn float(word: &str) -> bool {
        let cut = |at: usize| word.split_at(at);
        let scaled = |(number, power)| (integer(number) || point_form(number)) && exponent(power);
        point_form(word) || (0..word.len()).map(cut).any(scaled)
    }

    fn number(word: &str) -> bool {
        integer(word) || float(word)
    }

    pub fn numeric(word: &str) -> bool {
        let uncertain = word
            .strip_suffix(')')
            .and_then(|word| word.rsplit_once('('));
        number(word) || uncertain.is_some_and(|(word, inside)| number(word) && digits(inside))
    }
}

#[test]
fn numbers_are_the_standards_numerics_both_ways() {
    let judged = |word: &String| {
        let taken = !matches!(number(Reading::Strict, word.as_bytes()), Number::No);
        assert_eq!(taken, grammar::numeric(word), "{word}");
        taken
    };
    for (letters, most) in [("+-07.eE()x", 4), ("-7.e()", 6)] {
        let mut words = vec![String::new()];
        for _ in 0..most {
            let longer = |word: &String| {
                letters
                    .chars()
                    .map(|letter| format!("{word}{letter}"))
                    .collect::<Vec<_>>()
            };
            words = words.iter().flat_map(longer).collect();
            assert!(words.iter().filter(|word| judged(word)).count() > 0);
        }
    }
}
