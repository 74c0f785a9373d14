//! The answers to one text: in full, as the documents fix them, and as far as the source tells them.

/// A place of 01: offset, line and column.
#[derive(Debug, Clone, Copy, PartialEq, Eq)]
pub struct Place {
    pub offset: usize,
    pub line: usize,
    pub column: usize,
}

impl Place {
    /// The place of a refusal that has none.
    pub const NONE: Place = Place {
        offset: 0,
        line: 0,
        column: 0,
    };
}

/// A refusal: number, place and detail.
#[derive(Debug, Clone, Copy, PartialEq, Eq)]
pub struct Refusal {
    pub number: u8,
    pub place: Place,
    pub detail: usize,
}

impl Refusal {
    /// The detail as far as the source tells it: the remainder of a 5. The reason in a 6 or 7 is ours.
    pub fn told_detail(&self) -> usize {
        if self.number == 5 {
            self.detail
        } else {
            0
        }
    }
}

/// The decimal parts of a number.
#[derive(Debug, Clone, Copy, PartialEq, Eq)]
pub struct Decimal {
    pub minus: bool,
    pub integer: u32,
    pub fraction: u64,
    pub fraction_digits: u8,
    pub exponent: i32,
    pub uncertainty: Option<u32>,
}

/// What a record holds beside its place.
#[derive(Debug, Clone, PartialEq, Eq)]
pub enum Body {
    Nothing,
    Content(Vec<u8>),
    Tags(u32),
    Number(Decimal),
}

/// One record. A loop's end has no place of its own and keeps zeros.
#[derive(Debug, Clone, PartialEq, Eq)]
pub struct Record {
    pub kind: u8,
    pub place: Place,
    pub length: usize,
    pub body: Body,
}

impl Record {
    /// The end of a loop.
    pub const LOOP_END: Record = Record {
        kind: 7,
        place: Place::NONE,
        length: 0,
        body: Body::Nothing,
    };
}

/// How many bytes of a token of this kind are marks.
pub fn mark_bytes(kind: u8) -> usize {
    match kind {
        1 | 2 => 5,
        4 | 6 | 21 => 1,
        11..=13 => 2,
        _ => 0,
    }
}

/// The answer to a text by the rules of a reading.
pub type Answer = Result<Vec<Record>, Refusal>;

/// One read thing, as both sides can tell it. The kind is the record's, but 10 for every text.
#[derive(Debug, Clone, PartialEq, Eq)]
pub struct Thing {
    pub kind: u8,
    /// A name or a text; empty for other kinds.
    pub content: Vec<u8>,
    /// The number of a loop's tags, or the uncertainty.
    pub amount: u32,
    /// A number's bits as `f64`, one pattern standing for every NaN.
    pub bits: u64,
}

impl Thing {
    /// A thing of which only the kind is known.
    pub fn plain(kind: u8) -> Thing {
        Thing {
            kind,
            content: Vec::new(),
            amount: 0,
            bits: 0,
        }
    }

    /// A name or a text.
    pub fn named(kind: u8, content: &[u8]) -> Thing {
        Thing {
            content: content.to_vec(),
            ..Thing::plain(kind)
        }
    }

    /// A loop's opening.
    pub fn opening(tags: u32) -> Thing {
        Thing {
            amount: tags,
            ..Thing::plain(5)
        }
    }

    /// A number, with or without an uncertainty.
    pub fn number(value: f64, uncertainty: Option<u32>) -> Thing {
        Thing {
            amount: uncertainty.unwrap_or(0),
            bits: bits(value),
            ..Thing::plain(if uncertainty.is_some() { 15 } else { 14 })
        }
    }
}

/// The bits of a number, the same for every NaN.
fn bits(value: f64) -> u64 {
    if value.is_nan() {
        f64::NAN.to_bits()
    } else {
        value.to_bits()
    }
}

/// The words that the source shows with a refusal.
#[derive(Debug, Clone, PartialEq, Eq)]
pub enum Shown {
    /// What is left of the line at the place.
    RestOfLine(String),
    /// The bytes from the place on.
    Start(String),
    /// The lines from the place on.
    Lines(Vec<String>),
}

/// A refusal, as far as the source tells it.
#[derive(Debug, Clone, PartialEq, Eq)]
pub struct ToldRefusal {
    pub number: u8,
    pub line: usize,
    /// None where the source keeps no column.
    pub column: Option<usize>,
    pub detail: usize,
    pub shown: Shown,
}

/// The source's answer to a text.
#[derive(Debug, Clone, PartialEq, Eq)]
pub enum Told {
    Read(Vec<Thing>),
    Refused(ToldRefusal),
    Panicked(String),
}

/// The records as things, numbers put together again by the source's steps.
pub fn things(records: &[Record]) -> Vec<Thing> {
    records.iter().map(thing).collect()
}

fn thing(record: &Record) -> Thing {
    let kind = match record.kind {
        11..=13 => 10,
        kind => kind,
    };
    match &record.body {
        Body::Nothing => Thing::plain(kind),
        Body::Content(content) => Thing::named(kind, content),
        Body::Tags(tags) => Thing::opening(*tags),
        Body::Number(decimal) => Thing::number(rebuilt(decimal), decimal.uncertainty),
    }
}

/// Our answer as the source would tell it. What it would show of the text is left out.
pub fn as_told(answer: &Answer) -> Told {
    match answer {
        Ok(records) => Told::Read(things(records)),
        Err(refusal) => Told::Refused(ToldRefusal {
            number: refusal.number,
            line: refusal.place.line,
            column: (4..=6)
                .contains(&refusal.number)
                .then_some(refusal.place.column),
            detail: refusal.told_detail(),
            shown: Shown::Start(String::new()),
        }),
    }
}

/// The `f64` that the source makes of these parts: each digit behind the point divided by its own
/// power of ten and added from the left, then the integer, the sign and the exponent.
/// An exponent of 0 needs no step, whether written or not: it would be a product with 1.
pub fn rebuilt(decimal: &Decimal) -> f64 {
    let mut fraction = 0.0;
    let mut power = 1.0;
    for position in (0..decimal.fraction_digits as u32).rev() {
        let digit = decimal.fraction / 10u64.pow(position) % 10;
        power *= 10.0;
        fraction += digit as f64 / power;
    }
    let mut number = decimal.integer as f64 + fraction;
    if decimal.minus {
        number = -number;
    }
    if decimal.exponent != 0 {
        number *= 10f64.powi(decimal.exponent);
    }
    number
}

#[cfg(test)]
mod tests {
    use super::*;

    fn decimal(integer: u32, fraction: u64, fraction_digits: u8, exponent: i32) -> Decimal {
        Decimal {
            minus: true,
            integer,
            fraction,
            fraction_digits,
            exponent,
            uncertainty: None,
        }
    }

    #[test]
    fn numbers_are_put_together() {
        assert_eq!(rebuilt(&decimal(1, 50, 2, 0)), -1.5);
        assert_eq!(rebuilt(&decimal(25, 0, 0, 2)), -2500.0);
        assert_eq!(rebuilt(&decimal(0, 0, 0, 0)).to_bits(), (-0.0f64).to_bits());
        assert!(rebuilt(&decimal(0, 0, 0, 999)).is_nan());
    }
}
