//! Read and Outline beside the source and gemmi, on each text.

use std::str;

use chuntarek::{Document, Reading, Refusal};

use crate::gemmi;
use crate::inputs::Input;
use crate::source;
use crate::table::{figure, Table};
use crate::timing::{best, call, Effort};

/// What one text took, in nanoseconds for each of its bytes. What could not be had is missing.
struct Times {
    read: f64,
    read_decided: f64,
    outline: f64,
    outline_decided: f64,
    document: f64,
    strict_read: Option<f64>,
    strict_outline: Option<f64>,
    source: Option<f64>,
    gemmi_document: Option<f64>,
    gemmi_check: Option<f64>,
}

/// Prints the two tables of the texts that the library reads.
pub fn report(effort: Effort, inputs: &[Input]) {
    let mut times = Table::new(&[
        "ns for a byte\nof the text",
        "\nbytes",
        "\nRead",
        "de-\nciding",
        "\nwriting",
        "\nOutline",
        "de-\nciding",
        "\nwriting",
        "\nDocument",
        "Read,\nstrict",
        "Outline,\nstrict",
        "\nsource",
        "gemmi,\ndocument",
        "gemmi,\ncheck",
    ]);
    let mut ratios = Table::new(&[
        "how many times\nas fast",
        "Read,\nsource",
        "Document,\nsource",
        "Outline,\nsource",
        "Read,\ngemmi document",
        "Document,\ngemmi document",
        "Outline,\ngemmi check",
    ]);
    for input in inputs {
        match time(effort, input) {
            Ok(taken) => {
                times.row(times_row(input, &taken));
                ratios.row(ratios_row(input, &taken));
            }
            Err(refusal) => eprintln!("bench: {} is left out: {refusal}", input.name),
        }
    }
    println!("{}\n{}", times.shown(), ratios.shown());
}

fn time(effort: Effort, input: &Input) -> Result<Times, Refusal> {
    let text = &input.text[..];
    let mut first = Rooms::of(Reading::First, text)?;
    let mut strict = Rooms::of(Reading::Strict, text).ok();
    let words = str::from_utf8(text).unwrap_or_default();
    let by_source = source::reads(words);
    let by_gemmi = gemmi::check(text);
    let mut calls = vec![
        call(|| chuntarek::read(Reading::First, text, &mut first.store, &mut first.area)),
        call(|| chuntarek::read(Reading::First, text, &mut [], &mut [])),
        call(|| chuntarek::outline(Reading::First, text, &mut first.outline)),
        call(|| chuntarek::outline(Reading::First, text, &mut [])),
        call(|| Document::read(text)),
    ];
    let by_strict = strict.is_some();
    if let Some(rooms) = &mut strict {
        let (store, area) = (&mut rooms.store, &mut rooms.area);
        calls.push(call(|| chuntarek::read(Reading::Strict, text, store, area)));
        let outline = &mut rooms.outline;
        calls.push(call(|| chuntarek::outline(Reading::Strict, text, outline)));
    }
    if by_source {
        calls.push(call(|| source::read(words)));
    }
    if by_gemmi {
        calls.push(call(|| gemmi::read(text)));
        calls.push(call(|| gemmi::check(text)));
    }
    let mut taken = best(effort, &mut calls).into_iter();
    let mut next = || taken.next().unwrap_or(f64::NAN) / text.len() as f64;
    Ok(Times {
        read: next(),
        read_decided: next(),
        outline: next(),
        outline_decided: next(),
        document: next(),
        strict_read: by_strict.then(&mut next),
        strict_outline: by_strict.then(&mut next),
        source: by_source.then(&mut next),
        gemmi_document: by_gemmi.then(&mut next),
        gemmi_check: by_gemmi.then(&mut next),
    })
}

/// Exactly the room that Read and Outline of a text need.
struct Rooms {
    store: Vec<u8>,
    area: Vec<u8>,
    outline: Vec<u8>,
}

impl Rooms {
    fn of(reading: Reading, text: &[u8]) -> Result<Rooms, Refusal> {
        let (store, area) = chuntarek::read(reading, text, &mut [], &mut []).needed()?;
        let (outline, _) = chuntarek::outline(reading, text, &mut []).needed()?;
        Ok(Rooms {
            store: touched(store),
            area: touched(area),
            outline: touched(outline),
        })
    }
}

/// A buffer whose pages are all there: every byte of it has been written.
pub fn touched(length: usize) -> Vec<u8> {
    vec![1; length]
}

fn times_row(input: &Input, taken: &Times) -> Vec<String> {
    let figures = [
        Some(taken.read),
        Some(taken.read_decided),
        Some(taken.read - taken.read_decided),
        Some(taken.outline),
        Some(taken.outline_decided),
        Some(taken.outline - taken.outline_decided),
        Some(taken.document),
        taken.strict_read,
        taken.strict_outline,
        taken.source,
        taken.gemmi_document,
        taken.gemmi_check,
    ];
    let mut row = vec![input.name.clone(), input.text.len().to_string()];
    row.extend(figures.map(figure));
    row
}

fn ratios_row(input: &Input, taken: &Times) -> Vec<String> {
    let over = |other: Option<f64>, own: f64| other.map(|other| other / own);
    let figures = [
        over(taken.source, taken.read),
        over(taken.source, taken.document),
        over(taken.source, taken.outline),
        over(taken.gemmi_document, taken.read),
        over(taken.gemmi_document, taken.document),
        over(taken.gemmi_check, taken.outline),
    ];
    let mut row = vec![input.name.clone()];
    row.extend(figures.map(figure));
    row
}
