//! What is done with a store afterwards: soundness, the name check, the walk and Render.

use chuntarek::{Answer, Reading, Refusal};

use crate::inputs::Input;
use crate::library;
use crate::reading::touched;
use crate::table::{figure, Table};
use crate::timing::{best, call, Effort};

/// A text that was read, and the reading that it was read in.
pub struct Stored {
    pub reading: Reading,
    pub store: Vec<u8>,
    pub area: Vec<u8>,
}

impl Stored {
    /// Store and area of exactly the room that they need.
    pub fn of(reading: Reading, text: &[u8]) -> Result<Self, Refusal> {
        let (store_length, area_length) =
            chuntarek::read(reading, text, &mut [], &mut []).needed()?;
        let (mut store, mut area) = (touched(store_length), touched(area_length));
        chuntarek::read(reading, text, &mut store, &mut area).result()?;
        Ok(Stored {
            reading,
            store,
            area,
        })
    }

    /// Room for the rendering; none where it would be over the limit.
    pub fn rendering(&self) -> Vec<u8> {
        let answer: Answer = chuntarek::render(self.reading, &self.store, &self.area, &mut []);
        touched(answer.needed().map_or(0, |(length, _)| length))
    }
}

/// Prints the table of the stores of the texts that the library reads.
pub fn report(effort: Effort, inputs: &[Input]) {
    let mut table = Table::new(&[
        "ns for a byte of\nstore and area",
        "bytes,\nstore",
        "bytes,\narea",
        "\nrecords",
        "\nsoundness",
        "\nname check",
        "\nwalk",
        "\nRender",
    ]);
    for input in inputs {
        match Stored::of(Reading::First, &input.text) {
            Ok(stored) => table.row(row(effort, input, &stored)),
            Err(refusal) => eprintln!("bench: {} is left out: {refusal}", input.name),
        }
    }
    println!("{}", table.shown());
}

fn row(effort: Effort, input: &Input, stored: &Stored) -> Vec<String> {
    let (store, area) = (&stored.store[..], &stored.area[..]);
    let mut rendering = stored.rendering();
    let renders = !rendering.is_empty();
    let mut calls = vec![
        call(|| library::sound(stored.reading, store, area)),
        call(|| chuntarek::names(stored.reading, store, area)),
        call(|| library::walk(store, area)),
        call(|| chuntarek::render(stored.reading, store, area, &mut rendering)),
    ];
    let taken = best(effort, &mut calls);
    let mut cells = vec![
        input.name.clone(),
        store.len().to_string(),
        area.len().to_string(),
        library::walk(store, area).to_string(),
    ];
    for (number, taken) in taken.iter().enumerate() {
        let told = number < 3 || renders;
        cells.push(figure(
            told.then_some(taken / (store.len() + area.len()) as f64),
        ));
    }
    cells
}
