//! Times the library beside its source and beside gemmi, and prints tables.

include!(concat!(env!("OUT_DIR"), "/source_modules.rs"));
mod changes;
mod gemmi;
mod growth;
mod inputs;
mod library;
mod names;
mod options;
mod reading;
mod source;
mod stores;
mod table;
mod timing;

use std::process::ExitCode;

use options::{Options, Wish, HELP};

fn main() -> ExitCode {
    match options::wish(std::env::args().skip(1)) {
        Wish::Help => print!("{HELP}"),
        Wish::Run(options) => run(&options),
        Wish::Unclear(word) => {
            eprintln!("bench: {word} is not understood; --help says what is");
            return ExitCode::from(2);
        }
    }
    ExitCode::SUCCESS
}

fn run(options: &Options) {
    let mut inputs = Vec::new();
    if options.standard {
        inputs = inputs::standard();
    }
    for path in &options.files {
        match inputs::file(path) {
            Ok(input) => inputs.push(input),
            Err(message) => eprintln!("bench: {message}"),
        }
    }
    if let Some(reason) = gemmi::MISSING {
        eprintln!("bench: gemmi is left out: {reason}");
    }
    if options.reading {
        reading::report(options.effort, &inputs);
    }
    if options.stores {
        stores::report(options.effort, &inputs);
    }
    if options.names {
        names::report(options.effort);
    }
    if options.growth {
        growth::report(options.growth_effort);
    }
    if options.changes {
        changes::report(options.growth_effort);
    }
}
