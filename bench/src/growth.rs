//! How the time grows with texts that are made to be slow: n, 2n and 4n of the same thing.

use chuntarek::Reading;

use crate::inputs::hard::{Sort, SORTS, STRICT_SORTS};
use crate::library;
use crate::reading::touched;
use crate::source;
use crate::stores::Stored;
use crate::table::Table;
use crate::timing::{best, call, Call, Effort};

/// Prints the table: for each sort of text and each service, the time for 2n and for 4n in that for n.
pub fn report(effort: Effort) {
    let mut table = Table::new(&[
        "time for 2n and 4n,\nthat for n is 1",
        "bytes\nfor n",
        "\nRead",
        "\nOutline",
        "\nsoundness",
        "\nname check",
        "\nwalk",
        "\nRender",
        "bytes,\nsource",
        "\nsource",
    ]);
    for sort in &SORTS {
        table.row(row(effort, Reading::First, sort));
    }
    for sort in &STRICT_SORTS {
        table.row(row(effort, Reading::Strict, sort));
    }
    println!("{}", table.shown());
}

fn row(effort: Effort, reading: Reading, sort: &Sort) -> Vec<String> {
    let texts = sizes(sort, sort.count);
    let small = sort.source_count.map(|count| sizes(sort, count));
    let mut rooms = texts
        .each_ref()
        .map(|text| Rooms::of(reading, text.as_bytes()));
    let mut calls: Vec<Call> = rooms.iter_mut().flat_map(services).collect();
    calls.extend(
        small
            .iter()
            .flatten()
            .map(|text| call(|| source::read(text))),
    );
    let taken = best(effort, &mut calls);
    let (services, lexed) = taken.split_at(3 * SERVICES);
    let mut cells = vec![String::from(sort.name), texts[0].len().to_string()];
    for service in 0..SERVICES {
        let times = [0, 1, 2].map(|size| services[size * SERVICES + service]);
        cells.push(growth(times));
    }
    cells.extend(match &small {
        Some(small) => [
            small[0].len().to_string(),
            growth([lexed[0], lexed[1], lexed[2]]),
        ],
        None => [String::from("-"), String::from("-")],
    });
    cells
}

/// The texts of n, 2n and 4n things.
fn sizes(sort: &Sort, n: usize) -> [String; 3] {
    [1, 2, 4].map(|times| (sort.text)(times * n))
}

/// Two ratios.
fn growth([one, two, four]: [f64; 3]) -> String {
    format!("{:.1} {:>4.1}", two / one, four / one)
}

/// A text, what was read of it, and room to read, outline and render it again.
struct Rooms<'a> {
    text: &'a [u8],
    stored: Stored,
    store: Vec<u8>,
    area: Vec<u8>,
    outline: Vec<u8>,
    rendering: Vec<u8>,
}

impl<'a> Rooms<'a> {
    fn of(reading: Reading, text: &'a [u8]) -> Self {
        let stored = Stored::of(reading, text).expect("each sort of text is read");
        let outline_length = chuntarek::outline(reading, text, &mut []).first_length as usize;
        Rooms {
            text,
            store: touched(stored.store.len()),
            area: touched(stored.area.len()),
            outline: touched(outline_length),
            rendering: stored.rendering(),
            stored,
        }
    }
}

/// How many services there are in the table.
const SERVICES: usize = 6;

/// A call of each service, in the table's order.
fn services<'a>(rooms: &'a mut Rooms) -> [Call<'a>; SERVICES] {
    let Rooms {
        text,
        stored,
        store,
        area,
        outline,
        rendering,
    } = rooms;
    let Stored {
        reading,
        store: read,
        area: held,
    } = &*stored;
    [
        call(|| chuntarek::read(*reading, text, store, area)),
        call(|| chuntarek::outline(*reading, text, outline)),
        call(|| library::sound(*reading, read, held)),
        call(|| chuntarek::names(*reading, read, held)),
        call(|| library::walk(read, held)),
        call(|| chuntarek::render(*reading, read, held, rendering)),
    ]
}

#[cfg(test)]
mod tests {
    use super::*;

    #[test]
    fn library_and_source_read_each_sort() {
        for sort in &SORTS {
            let text = (sort.text)(100);
            let stored = Stored::of(Reading::First, text.as_bytes());
            assert!(stored.is_ok(), "{}", sort.name);
            assert!(source::reads(&text), "{}", sort.name);
        }
    }

    /// A hundred blocks have a tag and a value each. The other things are values of one loop, beside which
    /// stand the block, the loop, its tag and its end; a full line has 1,024 of them.
    #[test]
    fn the_strict_reading_reads_each_of_its_sorts() {
        let expected = [300, 4 + 100, 4 + 100, 4 + 102_400, 4 + 100];
        for (sort, records) in STRICT_SORTS.iter().zip(expected) {
            let text = (sort.text)(100);
            let stored = Stored::of(Reading::Strict, text.as_bytes()).expect(sort.name);
            assert_eq!(
                library::walk(&stored.store, &stored.area),
                records,
                "{}",
                sort.name
            );
        }
    }

    #[test]
    fn full_lines_are_as_long_as_may_be() {
        let full = STRICT_SORTS
            .iter()
            .find(|sort| sort.name.ends_with("full lines"));
        let text = (full.expect("there are such lines").text)(1);
        assert_eq!(text.lines().map(str::len).max(), Some(2_048));
    }
}
