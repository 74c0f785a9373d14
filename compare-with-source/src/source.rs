//! The source's answer to a text: its lexer, unchanged, and what its errors tell of a refusal.

use std::cell::Cell;
use std::panic;
use std::sync::Once;

use crate::answer::{Shown, Thing, Told, ToldRefusal};
use crate::error::{Context, PDBError};
use crate::mmcif::lexer::lex_cif;
use crate::mmcif::lexitem::{DataBlock, DataItem, Item, Loop, Value};

/// Whether the source can be asked.
pub const AT_HAND: bool = true;

/// What the source makes of a text. A panic is caught and is an answer too.
pub fn read(text: &str) -> Told {
    keep_quiet();
    QUIET.with(|quiet| quiet.set(true));
    let outcome = panic::catch_unwind(|| lex_cif(text));
    QUIET.with(|quiet| quiet.set(false));
    match outcome {
        Ok(Ok(block)) => Told::Read(things(&block)),
        Ok(Err(error)) => Told::Refused(refusal(&error)),
        Err(cause) => Told::Panicked(message(cause.as_ref())),
    }
}

thread_local! {
    static QUIET: Cell<bool> = const { Cell::new(false) };
}

/// Keeps panics of the source, and no others, from being printed.
fn keep_quiet() {
    static DONE: Once = Once::new();
    DONE.call_once(|| {
        let usual = panic::take_hook();
        panic::set_hook(Box::new(move |info| {
            if !QUIET.with(Cell::get) {
                usual(info);
            }
        }));
    });
}

/// The words of a panic.
fn message(cause: &(dyn std::any::Any + Send)) -> String {
    if let Some(words) = cause.downcast_ref::<&str>() {
        (*words).to_string()
    } else if let Some(words) = cause.downcast_ref::<String>() {
        words.clone()
    } else {
        String::from("a panic without words")
    }
}

fn things(block: &DataBlock) -> Vec<Thing> {
    let mut out = vec![Thing::named(1, block.name.as_bytes())];
    for item in &block.items {
        match item {
            Item::DataItem(item) => put_item(&mut out, item),
            Item::SaveFrame(frame) => {
                out.push(Thing::named(2, frame.name.as_bytes()));
                for item in &frame.items {
                    put_item(&mut out, item);
                }
                out.push(Thing::plain(3));
            }
        }
    }
    out
}

fn put_item(out: &mut Vec<Thing>, item: &DataItem) {
    match item {
        DataItem::Single(single) => {
            out.push(Thing::named(4, single.name.as_bytes()));
            out.push(value(&single.content));
        }
        DataItem::Loop(whole) => put_loop(out, whole),
    }
}

fn put_loop(out: &mut Vec<Thing>, whole: &Loop) {
    out.push(Thing::opening(whole.header.len() as u32));
    for name in &whole.header {
        out.push(Thing::named(6, name.as_bytes()));
    }
    for row in &whole.data {
        assert_eq!(row.len(), whole.header.len(), "the source's rows are whole");
        out.extend(row.iter().map(value));
    }
    out.push(Thing::plain(7));
}

fn value(value: &Value) -> Thing {
    match value {
        Value::Inapplicable => Thing::plain(8),
        Value::Unknown => Thing::plain(9),
        Value::Text(text) => Thing::named(10, text.as_bytes()),
        Value::Numeric(number) => Thing::number(*number, None),
        Value::NumericWithUncertainty(number, uncertainty) => {
            Thing::number(*number, Some(*uncertainty))
        }
    }
}

/// The refusal that an error stands for. 3 and 7 keep a line and the rest of it; 4, 5 and 6 keep
/// the column too.
fn refusal(error: &PDBError) -> ToldRefusal {
    let number = number(error);
    let keeps_column = (4..=6).contains(&number);
    let (line, column, shown) = match error.context() {
        Context::Line {
            linenumber,
            line,
            offset,
            ..
        } if keeps_column => (*linenumber, Some(*offset), Shown::Start(line.clone())),
        Context::Line {
            linenumber, line, ..
        } => (*linenumber, None, Shown::RestOfLine(line.clone())),
        Context::Range {
            start_linenumber,
            lines,
            offset,
        } => (
            *start_linenumber,
            Some(*offset),
            Shown::Lines(lines.clone()),
        ),
        other => unreachable!("the lexer shows a line or a range, not {other:?}"),
    };
    ToldRefusal {
        number,
        line,
        column,
        // It drops the reason of a 6 or 7.
        detail: if number == 5 { remainder(error) } else { 0 },
        shown,
    }
}

/// 01's number for an error, told by a word of its short description.
fn number(error: &PDBError) -> u8 {
    const WORDS: [(&str, u8); 5] = [
        ("not opened", 3),
        ("save_", 4),
        ("Loop", 5),
        ("Value", 6),
        ("DataItem", 7),
    ];
    let short = error.short();
    let known = WORDS.iter().find(|(word, _)| short.contains(word));
    match known {
        Some((_, number)) => *number,
        None => unreachable!("the lexer gives no other error out, but here is {short}"),
    }
}

/// The only number in the long description of a 5.
fn remainder(error: &PDBError) -> usize {
    let words = error.long().split_whitespace();
    let mut numbers = words.filter_map(|word| word.parse().ok());
    numbers.next().expect("the source names the remainder")
}

#[cfg(test)]
mod tests {
    use super::*;

    fn refused(text: &str) -> (u8, usize, Option<usize>, usize) {
        match read(text) {
            Told::Refused(refusal) => {
                (refusal.number, refusal.line, refusal.column, refusal.detail)
            }
            other => panic!("{text} gives {other:?}"),
        }
    }

    #[test]
    fn refusals_are_told_apart() {
        assert_eq!(refused("\nx"), (3, 2, None, 0));
        assert_eq!(refused("data_x\n save_f _a 1"), (4, 2, Some(2), 0));
        assert_eq!(
            refused("data_x loop_ _a _b _c\n1 2 3 4 5"),
            (5, 1, Some(8), 2)
        );
        assert_eq!(refused("data_x _a 'b"), (6, 1, Some(8), 0));
        assert_eq!(refused("data_x\ndata_y"), (7, 2, None, 0));
    }

    #[test]
    fn panics_are_answers() {
        let told = read("data_x loop_");
        assert!(matches!(&told, Told::Panicked(words) if words.contains("divisor of zero")));
        let told = read("data_x _a 12345678901");
        assert!(matches!(&told, Told::Panicked(words) if words.contains("overflow")));
    }

    #[test]
    fn things_stand_in_reading_order() {
        let Told::Read(things) = read("data_x save_f _a 1(2) save_ loop_ _b ? 'c'") else {
            panic!("the text is read");
        };
        let kinds: Vec<_> = things.iter().map(|thing| thing.kind).collect();
        assert_eq!(kinds, [1, 2, 4, 15, 3, 5, 6, 9, 10, 7]);
    }
}
