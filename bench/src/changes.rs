//! How the time of a comparison grows: n, 2n and 4n of the same thing, in an old store and a new one.

use std::fmt::Write;

use chuntarek::{compare, Reading};

use crate::stores::Stored;
use crate::table::Table;
use crate::timing::{best, call, Effort};

/// A sort of pair: its name, how many of its things are n, and the old and the new text of so many.
struct Pair {
    name: &'static str,
    count: usize,
    texts: fn(usize) -> [String; 2],
}

/// Those whose loops correspond come first, and then those that need more walks.
const PAIRS: [Pair; 11] = [
    Pair {
        name: "rows, the same",
        count: ROWS,
        texts: |n| [atoms(n, &COLUMNS, 0), atoms(n, &COLUMNS, 0)],
    },
    Pair {
        name: "rows, all numbers changed",
        count: ROWS,
        texts: |n| [atoms(n, &COLUMNS, 0), atoms(n, &COLUMNS, 1)],
    },
    Pair {
        name: "rows, columns in another order",
        count: ROWS,
        texts: |n| [atoms(n, &COLUMNS, 0), atoms(n, &[4, 2, 0, 3, 1], 0)],
    },
    Pair {
        name: "rows, two columns more",
        count: ROWS,
        texts: |n| [atoms(n, &[0, 3, 1], 0), atoms(n, &COLUMNS, 0)],
    },
    Pair {
        name: "rows, each column a loop",
        count: ROWS,
        texts: |n| {
            let columns = COLUMNS.map(|column| table(n, &[column], 0));
            [atoms(n, &COLUMNS, 0), in_block(&columns.concat())]
        },
    },
    Pair {
        name: "rows, none in common",
        count: ROWS,
        texts: |n| {
            [
                atoms(n, &COLUMNS, 0),
                atoms(n, &COLUMNS, 0).replace("_c", "_d"),
            ]
        },
    },
    Pair {
        name: "tags, the same",
        count: TAGS,
        texts: |n| [tags(0..n), tags(0..n)],
    },
    Pair {
        name: "tags, the last first",
        count: TAGS,
        texts: |n| [tags(0..n), tags((0..n).rev())],
    },
    Pair {
        name: "frames, the same",
        count: FRAMES,
        texts: |n| [frames(0..n), frames(0..n)],
    },
    Pair {
        name: "frames, the last first",
        count: FRAMES,
        texts: |n| [frames(0..n), frames((0..n).rev())],
    },
    Pair {
        name: "loops, gathered into one",
        count: LOOPS,
        texts: |n| [loops(n), gathered(n)],
    },
];

/// Few enough for a comparison whose time grows by the product of both stores; to be raised as soon as it
/// does not.
const ROWS: usize = 50;
const TAGS: usize = 250;
const FRAMES: usize = 50;
const LOOPS: usize = 25;

const COLUMNS: [usize; 5] = [0, 1, 2, 3, 4];

fn in_block(items: &str) -> String {
    format!("data_x\n{items}")
}

fn atoms(rows: usize, columns: &[usize], moved: usize) -> String {
    in_block(&table(rows, columns, moved))
}

/// A loop of so many rows with these columns of five, the numbers moved on by so much.
fn table(rows: usize, columns: &[usize], moved: usize) -> String {
    let mut text = String::from("loop_");
    for column in columns {
        let _ = write!(text, " _c{column}");
    }
    for row in 0..rows {
        text.push('\n');
        for column in columns {
            let _ = match column {
                0 => write!(text, "A{row} "),
                1 => write!(text, "{}.{}(3) ", row % 90 + moved, row % 1_000),
                2 => write!(text, "-0.{}({}) ", row % 10_000 + moved, row % 7),
                3 => write!(text, "? "),
                _ => write!(text, "{}e-2 ", row + moved),
            };
        }
    }
    text + "\n"
}

/// Single tags, each another.
fn tags(numbers: impl Iterator<Item = usize>) -> String {
    let tag = |number| format!("_t{number} 1.{number}(2)\n");
    in_block(&numbers.map(tag).collect::<String>())
}

/// Frames of five tags.
fn frames(numbers: impl Iterator<Item = usize>) -> String {
    let frame = |number| format!("save_f{number}\n_a 1 _b 'b c' _c ? _d 2.5(1) _e .\nsave_\n");
    in_block(&numbers.map(frame).collect::<String>())
}

/// So many loops of one column and ten rows.
fn loops(count: usize) -> String {
    let of_one = |number| format!("loop_ _t{number}{}\n", " 1.5".repeat(10));
    in_block(&(0..count).map(of_one).collect::<String>())
}

/// The same columns as one loop.
fn gathered(count: usize) -> String {
    let names: String = (0..count).map(|number| format!(" _t{number}")).collect();
    format!(
        "data_x\nloop_{names}{}\n",
        format!("\n{}", "1.5 ".repeat(count)).repeat(10)
    )
}

/// Prints the table: how long n takes, and 2n and 4n in that.
pub fn report(effort: Effort) {
    let mut table = Table::new(&[
        "comparing",
        "values\nfor n",
        "entries\nfor n",
        "ms\nfor n",
        "2n and 4n,\nn is 1",
    ]);
    for pair in &PAIRS {
        table.row(row(effort, pair));
    }
    println!("{}", table.shown());
}

/// Two stores, and room for any list.
struct Sides {
    old: Stored,
    new: Stored,
    list: Vec<u8>,
}

impl Sides {
    fn of([old, new]: [String; 2]) -> Sides {
        let read = |text: String| Stored::of(Reading::First, text.as_bytes());
        let (old, new) = (read(old), read(new));
        let (old, new) = (old.expect("it is read"), new.expect("it is read"));
        let list = vec![0; old.store.len() + new.store.len()];
        Sides { old, new, list }
    }

    /// The length of the list.
    fn compare(&mut self) -> usize {
        let old = (&self.old.store[..], &self.old.area[..]);
        let new = (&self.new.store[..], &self.new.area[..]);
        let answer = compare(Reading::First, old, new, &mut self.list);
        answer.result().expect("they can be compared").0
    }
}

fn row(effort: Effort, pair: &Pair) -> Vec<String> {
    let mut sides = [1, 2, 4].map(|times| Sides::of((pair.texts)(times * pair.count)));
    let entries = sides[0].compare() / chuntarek::ENTRY_LENGTH;
    let values = values(&sides[0].old);
    let mut calls: Vec<_> = sides
        .iter_mut()
        .map(|sides| call(|| sides.compare()))
        .collect();
    let taken = best(effort, &mut calls);
    vec![
        String::from(pair.name),
        values.to_string(),
        entries.to_string(),
        format!("{:.2}", taken[0] / 1e6),
        format!("{:.1} {:>4.1}", taken[1] / taken[0], taken[2] / taken[0]),
    ]
}

fn values(stored: &Stored) -> usize {
    let mut at = 0;
    let mut values = 0;
    while let Ok(record) = chuntarek::record_at(stored.reading, &stored.store, &stored.area, at) {
        values += usize::from(record.kind.is_value());
        at = record.next;
    }
    values
}

#[cfg(test)]
mod tests {
    use super::*;

    /// How many entries ten things have, by what they are.
    #[test]
    fn each_pair_differs_as_it_says() {
        let expected = [0, 30, 0, 20, 0, 100, 0, 0, 0, 0, 0];
        for (pair, expected) in PAIRS.iter().zip(expected) {
            let mut sides = Sides::of((pair.texts)(10));
            assert_eq!(
                sides.compare(),
                expected * chuntarek::ENTRY_LENGTH,
                "{}",
                pair.name
            );
            assert!(values(&sides.old) > 0 && values(&sides.new) > 0);
        }
    }
}
