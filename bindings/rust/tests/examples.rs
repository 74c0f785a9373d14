//! The files of examples/, held to the outlines beside them: those below strict/ in the strict reading.

use std::fs;
use std::path::{Path, PathBuf};

use chuntarek::{outline, Document, Reading, Refusal};

/// The files of a folder of examples, and of its refused ones, that have an outline beside them.
fn outlined(folder: &str) -> Vec<(PathBuf, String)> {
    let examples = Path::new(env!("CARGO_MANIFEST_DIR")).join("../../examples");
    let folder = examples.join(folder);
    let mut found = Vec::new();
    for folder in [folder.clone(), folder.join("refused")] {
        for entry in fs::read_dir(folder).expect("the folder is there") {
            let path = entry.expect("the entry is there").path();
            if path
                .extension()
                .is_some_and(|extension| extension == "outline")
            {
                let lines = fs::read_to_string(&path).expect("outlines are text");
                found.push((path.with_extension("cif"), lines));
            }
        }
    }
    found
}

fn refused(refusal: Refusal) -> String {
    let place = refusal
        .place
        .expect("a refusal of a small text has a place");
    format!(
        "refused {} {} {} {}\n",
        refusal.number, place.offset, place.line, place.column
    )
}

/// The outline by the records of a reading.
fn by_records(reading: Reading, text: &[u8]) -> String {
    let document = match Document::read_as(reading, text) {
        Ok(document) => document,
        Err(refusal) => return refused(refusal),
    };
    let mut lines = String::new();
    for record in document.records() {
        let place = record.place.map(|place| {
            format!(
                " {} {} {} {}",
                place.offset, record.length, place.line, place.column
            )
        });
        lines += &format!("{}{}\n", record.kind.number(), place.unwrap_or_default());
    }
    lines + "end\n"
}

/// The outline by the bytes that the service Outline writes.
fn by_outline(reading: Reading, text: &[u8]) -> String {
    let length = match outline(reading, text, &mut []).needed() {
        Ok((length, _)) => length,
        Err(refusal) => return refused(refusal),
    };
    let mut store = vec![0; length];
    outline(reading, text, &mut store)
        .result()
        .expect("there is room");
    let mut lines = String::new();
    let mut rest = &store[..];
    while let Some((kind, after)) = rest.split_first() {
        let (fields, after) = after.split_at(if *kind == 7 { 0 } else { 16 });
        lines += &kind.to_string();
        for field in fields.chunks(4) {
            let field = u32::from_le_bytes(field.try_into().expect("four bytes"));
            lines += &format!(" {field}");
        }
        lines += "\n";
        rest = after;
    }
    lines + "end\n"
}

fn have_outlines(reading: Reading, folder: &str, count: usize) {
    let outlined = outlined(folder);
    assert_eq!(outlined.len(), count);
    for (file, lines) in outlined {
        let text = fs::read(&file).expect("the example is there");
        assert_eq!(by_records(reading, &text), lines, "{}", file.display());
        assert_eq!(by_outline(reading, &text), lines, "{}", file.display());
    }
}

#[test]
fn examples_have_the_outlines_beside_them() {
    have_outlines(Reading::First, "", 23);
    have_outlines(Reading::Strict, "strict", 11);
}
