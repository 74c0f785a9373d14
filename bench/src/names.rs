//! The name check on names that are many, that stand in frames, and that are chosen against its table.

use chuntarek::Reading;

use crate::inputs::hard::{crowded_tags, framed_tags, plain_tags, short_tags};
use crate::library;
use crate::stores::Stored;
use crate::table::Table;
use crate::timing::{best, call, Effort};

/// Prints the table: milliseconds, and how many times as long as the row that each is compared with.
pub fn report(effort: Effort) {
    let mut table = Table::new(&[
        "milliseconds",
        "\nbytes",
        "\nRead",
        "\nsoundness",
        "\nname check",
        "\nin that of",
    ]);
    let plain = timed(effort, &plain_tags(20_000));
    table.row(plain.row("20,000 tags", None));
    let crowded = timed(effort, &crowded_tags(20_000));
    table.row(crowded.row("20,000 tags of one place", Some(("20,000 tags", &plain))));
    let half = timed(effort, &framed_tags(3_000, 30));
    table.row(half.row("3,000 frames of 30 tags", None));
    let whole = timed(effort, &framed_tags(6_000, 30));
    table.row(whole.row("6,000 frames of 30 tags", Some(("3,000 frames", &half))));
    let many = timed(effort, &short_tags(2_000_000));
    table.row(many.row("2,000,000 tags", None));
    println!("{}", table.shown());
}

/// Milliseconds of three services on a text, and its length.
struct Taken {
    bytes: usize,
    read: f64,
    sound: f64,
    names: f64,
}

fn timed(effort: Effort, text: &str) -> Taken {
    let stored = Stored::of(Reading::First, text.as_bytes()).expect("each of these texts is read");
    let (mut store, mut area) = (stored.store.clone(), stored.area.clone());
    let taken = best(
        effort,
        &mut [
            call(|| chuntarek::read(Reading::First, text.as_bytes(), &mut store, &mut area)),
            call(|| library::sound(Reading::First, &stored.store, &stored.area)),
            call(|| chuntarek::names(Reading::First, &stored.store, &stored.area)),
        ],
    );
    Taken {
        bytes: text.len(),
        read: taken[0] / 1e6,
        sound: taken[1] / 1e6,
        names: taken[2] / 1e6,
    }
}

impl Taken {
    fn row(&self, name: &str, other: Option<(&str, &Taken)>) -> Vec<String> {
        let compared = match other {
            Some((row, taken)) => format!("{:.1} × {row}", self.names / taken.names),
            None => String::from("-"),
        };
        vec![
            String::from(name),
            self.bytes.to_string(),
            format!("{:.2}", self.read),
            format!("{:.2}", self.sound),
            format!("{:.2}", self.names),
            compared,
        ]
    }
}
