//! Feeds the source and the rules of document 01 the same texts and compares their answers. In document
//! 02's strict reading, which the source doesn't know, the library is held to a model of the rules, and
//! the model to what is claimed of it.

// Without the source, what takes its answers apart is idle.
#![cfg_attr(not(has_source), allow(dead_code))]

mod alike;
mod alter;
mod answer;
#[cfg(feature = "library")]
mod calls;
mod compare;
mod exhaustive;
mod files;
mod generate;
mod laws;
#[cfg(feature = "library")]
mod library;
mod list;
mod model;
#[cfg(any(test, feature = "library"))]
mod model_changes;
mod model_sound;
mod model_stores;
mod options;
#[cfg(feature = "library")]
mod over_pairs;
#[cfg(feature = "library")]
mod over_stores;
mod random;
mod reading;
mod report;
mod shrink;
#[cfg(has_source)]
mod source;
#[cfg(not(has_source))]
#[path = "no_source.rs"]
mod source;
mod stores;
mod tokens;
#[cfg(feature = "library")]
mod walks;

#[cfg(has_source)]
include!(concat!(env!("OUT_DIR"), "/source_modules.rs"));

use std::process::ExitCode;

use answer::Answer;
use compare::Verdict;
use options::{Backend, Options, Work};
use reading::Reading;
use report::Report;

fn main() -> ExitCode {
    let options = match Options::parse(std::env::args().skip(1)) {
        Ok(options) => options,
        Err(words) => {
            eprintln!("{words}\n{}", options::USAGE);
            return ExitCode::from(2);
        }
    };
    let judge = |text: &[u8]| judge(&options, text);
    match &options.work {
        Work::Help => {
            println!("{}", options::USAGE);
            ExitCode::SUCCESS
        }
        Work::Compare => compare_all(&options, &judge),
        #[cfg(feature = "library")]
        Work::Pairs(pairs) => finish(pairs_held(&options, *pairs)),
        Work::Show(file) => finish(files::load(file).and_then(|text| shown(&options, &text))),
        Work::WriteList(file) => finish(with_source().and_then(|()| {
            let (texts, bytes) = list::write(file, options.count, options.seed, judge)?;
            Ok(format!("{texts} texts in {bytes} bytes"))
        })),
        Work::CheckList(file) => {
            let answer = |text: &[u8]| answer(&options, text);
            finish(list::check(file, answer).map(|texts| format!("{texts} texts of the list hold")))
        }
    }
}

/// Holds the library's comparisons of pairs to the model's.
#[cfg(feature = "library")]
fn pairs_held(options: &Options, pairs: u64) -> Result<String, String> {
    let met = over_pairs::hold(options.reading, options.seed, pairs, options.size)?;
    let [done, unsound, twice] = [0, 12, 13].map(|number| met.refused[number]);
    let cases: Vec<String> = (1..8)
        .map(|case| format!("{case}: {}", met.cases[case]))
        .collect();
    Ok(format!(
        "{pairs} pairs, {done} comparisons done, {unsound} refused by 12 and {twice} by 13; entries by their cases: {}",
        cases.join(", ")
    ))
}

/// The backend's answer to a text, or what is wrong with it.
fn answer(options: &Options, text: &[u8]) -> Result<Answer, String> {
    match options.backend {
        Backend::Model => model_answer(options.reading, text),
        #[cfg(feature = "library")]
        Backend::Library => library::read(options.reading, text),
    }
}

/// What comes of one text: the source knows the first reading, the laws are for the strict one.
fn judge(options: &Options, text: &[u8]) -> Verdict {
    match (answer(options, text), options.reading) {
        (Ok(answer), Reading::First) => compare::compare(text, &answer),
        (Ok(answer), Reading::Strict) => laws::judge(options.reading, text, &answer),
        (Err(fault), _) => Verdict::Different(fault),
    }
}

/// The model's answer, its records taken from the store and the area as the library's are.
fn model_answer(reading: Reading, text: &[u8]) -> Result<Answer, String> {
    match model::read(reading, text) {
        Ok(records) => {
            let (store, area) = stores::encode(&records);
            let decoded = stores::decode(&store, &area);
            Ok(Ok(decoded.ok_or("the model's store has no whole records")?))
        }
        refused => Ok(refused),
    }
}

fn compare_all(options: &Options, judge: &impl Fn(&[u8]) -> Verdict) -> ExitCode {
    if options.reading == Reading::First && !source::AT_HAND {
        println!(
            "the source is not at hand: only the backend, the model and the texts are compared"
        );
    }
    let mut report = Report::default();
    if let Err(words) = compare_files(options, &mut report, judge) {
        eprintln!("{words}");
        return ExitCode::from(2);
    }
    compare_generated(options, &mut report, judge);
    let by_both = options.reading == Reading::First && source::AT_HAND;
    print!("{}", report.lines(by_both));
    if report.is_clean() {
        ExitCode::SUCCESS
    } else {
        ExitCode::FAILURE
    }
}

fn compare_files(
    options: &Options,
    report: &mut Report,
    judge: &impl Fn(&[u8]) -> Verdict,
) -> Result<(), String> {
    for folder in &options.files {
        for file in files::below(folder)? {
            let text = files::load(&file)?;
            let verdict = judge(&text);
            if let Verdict::Different(what) = &verdict {
                println!("{}: {what}", file.display());
            }
            report.add(&text, verdict, judge);
        }
    }
    Ok(())
}

/// The texts at the limit, the exhaustive ones, and random ones for what is left of the number.
fn compare_generated(options: &Options, report: &mut Report, judge: &impl Fn(&[u8]) -> Verdict) {
    let last = report.texts() + options.texts;
    if options.texts == 0 {
        return;
    }
    for length in [model::TEXT_LIMIT, model::TEXT_LIMIT + 1] {
        let mut text = b"data_x _a 1".to_vec();
        text.resize(length, b' ');
        report.add(&text, judge(&text), judge);
    }
    let depth = exhaustive::Depth::for_texts(options.mix(), options.texts);
    exhaustive::each(options.mix(), &depth, &mut |text| {
        report.add(text, judge(text), judge);
        report.texts() < last
    });
    let mut number = 0;
    while report.texts() < last {
        let text = generate::text(options.mix(), options.seed, number);
        report.add(&text, judge(&text), judge);
        number += 1;
    }
}

/// Nothing, if the source can be asked.
fn with_source() -> Result<(), String> {
    match source::AT_HAND {
        true => Ok(()),
        false => Err(String::from(
            "the source is not at hand: set PDBTBX_SRC to its folder and build again",
        )),
    }
}

/// The answers to one text, and what comes of comparing them or of holding one to the laws.
fn shown(options: &Options, text: &[u8]) -> Result<String, String> {
    let model = model::read(options.reading, text);
    let source = match options.reading {
        Reading::First => {
            with_source()?;
            format!(
                "source: {:#?}\n",
                std::str::from_utf8(text).map(source::read)
            )
        }
        Reading::Strict => String::new(),
    };
    let verdict = judge(options, text);
    Ok(format!("{source}model: {model:#?}\n{verdict:?}"))
}

fn finish(outcome: Result<String, String>) -> ExitCode {
    match outcome {
        Ok(words) => {
            println!("{words}");
            ExitCode::SUCCESS
        }
        Err(words) => {
            eprintln!("{words}");
            ExitCode::FAILURE
        }
    }
}
