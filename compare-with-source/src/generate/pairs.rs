//! Random pairs of texts that have most of their values in common: items, rows and columns in another
//! order, values respelt or changed, names in another letter case, and now and then a name twice.

use std::collections::HashSet;

use crate::random::Random;
use crate::reading::Reading;

/// An old text and a new one. Some are refused by the reading, as one whose quotes don't close in it.
pub fn pair(reading: Reading, random: &mut Random) -> [Vec<u8>; 2] {
    let old = scopes(reading, random);
    let mut new = old.clone();
    for _ in 0..random.below(6) {
        change(reading, &mut new, random);
    }
    if random.once_in(40) {
        new = scopes(reading, random);
    }
    [text(&old, random), text(&new, random)]
}

/// An old text and a new one of some so many values: single tags, wide loops and long ones, loops of one
/// column, or frames.
pub fn large(reading: Reading, size: usize, random: &mut Random) -> [Vec<u8>; 2] {
    let old = large_scopes(reading, size, random);
    let mut new = old.clone();
    for _ in 0..random.below(4) {
        change(reading, &mut new, random);
    }
    if random.once_in(2) {
        shuffle(&mut new, random);
    }
    let values = new.iter_mut().flat_map(|scope| &mut scope.items);
    let values = values.flat_map(|item| item.rows.iter_mut().flatten());
    for word in values {
        if random.once_in(20) {
            *word = value(reading, random);
        }
    }
    [text(&old, random), text(&new, random)]
}

fn large_scopes(reading: Reading, size: usize, random: &mut Random) -> Vec<Scope> {
    let in_block = |items: Vec<Item>| vec![Scope { frame: None, items }];
    let name = |number: usize| format!("t{number}");
    match random.below(5) {
        0 => in_block(
            (0..size)
                .map(|number| filled(reading, false, vec![name(number)], 1, random))
                .collect(),
        ),
        1 => in_block(
            (0..size / 10 + 1)
                .map(|number| filled(reading, true, vec![name(number)], 10, random))
                .collect(),
        ),
        2 => {
            let frame = |number: usize| Scope {
                frame: Some(name(number)),
                items: (0..4)
                    .map(|tag| filled(reading, false, vec![name(tag)], 1, random))
                    .collect(),
            };
            (0..size / 4 + 1).map(frame).collect()
        }
        _ => {
            let columns = 1 + random.below(size);
            let tags = (0..columns).map(name).collect();
            in_block(vec![filled(
                reading,
                true,
                tags,
                size / columns + 1,
                random,
            )])
        }
    }
}

/// A frame, or a part of the block's own items.
#[derive(Clone)]
struct Scope {
    frame: Option<String>,
    items: Vec<Item>,
}

/// A loop, or a single tag with one row.
#[derive(Clone)]
struct Item {
    is_loop: bool,
    tags: Vec<String>,
    rows: Vec<Vec<String>>,
}

const NAMES: [&str; 12] = [
    "a",
    "A",
    "b",
    "B",
    "c",
    "d",
    "e",
    "[",
    "{",
    "cell.length_a",
    "Cell.length_A",
    "f",
];
const FRAMES: [&str; 6] = ["f", "F", "g", "a", "A", "h1"];

fn scopes(reading: Reading, random: &mut Random) -> Vec<Scope> {
    let mut scopes = vec![scope(reading, None, random)];
    let mut frames = HashSet::new();
    for _ in 0..random.below(4) {
        let frame = (!random.once_in(3)).then(|| String::from(random.pick(&FRAMES)));
        let is_new = frame
            .as_ref()
            .is_none_or(|frame| frames.insert(frame.to_ascii_lowercase()));
        if is_new || random.once_in(30) {
            scopes.push(scope(reading, frame, random));
        }
    }
    mend(&mut scopes, random);
    scopes
}

fn scope(reading: Reading, frame: Option<String>, random: &mut Random) -> Scope {
    let items = (0..random.below(4))
        .map(|_| item(reading, random))
        .collect();
    Scope { frame, items }
}

fn item(reading: Reading, random: &mut Random) -> Item {
    let is_loop = random.once_in(2);
    let (columns, rows) = match is_loop {
        true => (1 + random.below(4), 1 + random.below(4)),
        false => (1, 1),
    };
    let tags = (0..columns)
        .map(|_| String::from(random.pick(&NAMES)))
        .collect();
    filled(reading, is_loop, tags, rows, random)
}

/// An item with so many rows of values.
fn filled(
    reading: Reading,
    is_loop: bool,
    tags: Vec<String>,
    rows: usize,
    random: &mut Random,
) -> Item {
    let row = |random: &mut Random| tags.iter().map(|_| value(reading, random)).collect();
    Item {
        is_loop,
        rows: (0..rows).map(|_| row(random)).collect(),
        tags,
    }
}

/// Takes out most of the names that stand twice in a scope, with their columns.
fn mend(scopes: &mut [Scope], random: &mut Random) {
    let mut met = HashSet::new();
    for scope in scopes {
        let frame = scope.frame.clone();
        for item in &mut scope.items {
            let mut column = 0;
            while column < item.tags.len() {
                let is_new = met.insert((frame.clone(), item.tags[column].to_ascii_lowercase()));
                if is_new || random.once_in(60) {
                    column += 1;
                } else {
                    item.drop_column(column);
                }
            }
        }
        scope.items.retain(|item| !item.tags.is_empty());
    }
}

impl Item {
    fn drop_column(&mut self, column: usize) {
        self.tags.remove(column);
        for row in &mut self.rows {
            row.remove(column);
        }
    }
}

/// Changes a text in one way.
fn change(reading: Reading, scopes: &mut Vec<Scope>, random: &mut Random) {
    let at = random.below(scopes.len());
    match random.below(12) {
        0 => shuffle(scopes, random),
        1 => shuffle(&mut scopes[at].items, random),
        2 => respell_names(&mut scopes[at], random),
        3 if scopes[at].frame.is_some() => drop(scopes.remove(at)),
        4 => scopes[at].items.push(item(reading, random)),
        5 => take_apart(&mut scopes[at].items, random),
        6 => join(&mut scopes[at].items),
        _ => {
            let items = &mut scopes[at].items;
            if !items.is_empty() {
                let at = random.below(items.len());
                change_item(reading, &mut items[at], random);
            }
        }
    }
    mend(scopes, random);
}

fn shuffle<T>(things: &mut [T], random: &mut Random) {
    for last in (1..things.len()).rev() {
        things.swap(last, random.below(last + 1));
    }
}

/// The same names in another letter case.
fn respell_names(scope: &mut Scope, random: &mut Random) {
    let tags = scope.items.iter_mut().flat_map(|item| &mut item.tags);
    for name in scope.frame.iter_mut().chain(tags) {
        match random.below(4) {
            0 => name.make_ascii_uppercase(),
            1 => name.make_ascii_lowercase(),
            _ => {}
        }
    }
}

/// A loop's columns, each in a loop of its own; a single row as single tags.
fn take_apart(items: &mut Vec<Item>, random: &mut Random) {
    let apart = items.iter().flat_map(|item| {
        let columns = item.tags.iter().enumerate();
        columns.map(|(column, tag)| Item {
            is_loop: item.rows.len() > 1,
            tags: vec![tag.clone()],
            rows: item
                .rows
                .iter()
                .map(|row| vec![row[column].clone()])
                .collect(),
        })
    });
    *items = apart.collect();
    shuffle(items, random);
}

/// Items of as many rows as one loop.
fn join(items: &mut Vec<Item>) {
    let mut joined: Vec<Item> = Vec::new();
    for item in items.drain(..) {
        match joined
            .iter_mut()
            .find(|other| other.rows.len() == item.rows.len())
        {
            Some(other) => {
                other.is_loop = true;
                other.tags.extend(item.tags);
                for (row, more) in other.rows.iter_mut().zip(item.rows) {
                    row.extend(more);
                }
            }
            None => joined.push(item),
        }
    }
    *items = joined;
}

fn change_item(reading: Reading, item: &mut Item, random: &mut Random) {
    let (row, column) = (random.below(item.rows.len()), random.below(item.tags.len()));
    match random.below(8) {
        0 if item.is_loop => item.rows.push(item.rows[row].clone()),
        1 if item.rows.len() > 1 => drop(item.rows.remove(row)),
        2 => shuffle(&mut item.rows, random),
        3 => {
            item.tags.swap(0, column);
            item.rows.iter_mut().for_each(|row| row.swap(0, column));
        }
        4 if item.tags.len() > 1 => item.drop_column(column),
        5..=6 => change_number(&mut item.rows[row][column], random),
        _ => item.rows[row][column] = value(reading, random),
    }
}

/// Another number for a number, often the same one in other digits.
fn change_number(value: &mut String, random: &mut Random) {
    if value.starts_with(|first: char| first.is_ascii_digit() || "+-".contains(first)) {
        *value = number(random);
    }
}

/// Values of which many are equal, or the same in other marks or digits.
fn value(reading: Reading, random: &mut Random) -> String {
    const TEXTS: [&str; 14] = [
        "a", "'a'", "\"a\"", "\n;a\n;", "A", "'1.5'", "'.'", "\"?\"", "''", "\"\"", "'a b'",
        "\"a b\"", "\n;\n;", "b",
    ];
    const STRICT: [&str; 6] = ["'a'b'", "\"a'b\"", "'''", "\"'\"", ";a", ".a"];
    match random.below(10) {
        0 => String::from("."),
        1 => String::from("?"),
        2 if reading == Reading::Strict => String::from(random.pick(&STRICT)),
        2..=3 => String::from(random.pick(&TEXTS)),
        _ => number(random),
    }
}

fn number(random: &mut Random) -> String {
    const COMMON: [&str; 20] = [
        "1.5",
        "1.50",
        "15e-1",
        "0.15e1",
        "1.5(1)",
        "1.50(10)",
        "1.50(1)",
        "15e-1(1)",
        "1.5(0)",
        "-1.5",
        "0",
        "-0",
        "0.000",
        "0e999999999",
        "-0e-999999999(3)",
        "0(0)",
        "100",
        "1e2",
        "1E+2",
        "99.999999999999999999",
    ];
    if random.once_in(2) {
        return String::from(random.pick(&COMMON));
    }
    let mut word = format!("{}{}", random.pick(&["", "", "-", "+"]), digits(9, random));
    if random.once_in(2) {
        word = format!("{word}.{}", digits(18, random));
    }
    if random.once_in(2) {
        const POWERS: [&str; 12] = [
            "0",
            "1",
            "-1",
            "9",
            "-9",
            "-18",
            "26",
            "-27",
            "999999999",
            "-999999999",
            "999999982",
            "-999999981",
        ];
        word = format!("{word}e{}", random.pick(&POWERS));
    }
    match random.below(3) {
        0 => format!("{word}({})", digits(9, random)),
        _ => word,
    }
}

/// Some digits, most of them 0 or 9.
fn digits(most: usize, random: &mut Random) -> String {
    let count = match random.below(3) {
        0 => 1 + random.below(most),
        _ => 1 + random.below(2),
    };
    (0..count)
        .map(|_| random.pick(&["0", "0", "1", "9", "9", "5"]))
        .collect()
}

fn text(scopes: &[Scope], random: &mut Random) -> Vec<u8> {
    let mut text = format!("data_{}", random.pick(&["x", "X", "other"]));
    for scope in scopes {
        if let Some(frame) = &scope.frame {
            text += &format!("\nsave_{frame}");
        }
        for item in &scope.items {
            if item.is_loop {
                text += "\nloop_";
            }
            for tag in &item.tags {
                text += &format!(" _{tag}");
            }
            for value in item.rows.iter().flatten() {
                text += &format!(" {value}");
            }
        }
        if scope.frame.is_some() {
            text += "\nsave_";
        }
    }
    text += "\n";
    text.into_bytes()
}
