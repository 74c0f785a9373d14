//! The command line.

use std::path::PathBuf;

use crate::reading::Reading;

pub const USAGE: &str = "\
usage: compare-with-source [--texts N] [--seed S] [--backend model|library] [--files DIR]...
                           [--reading first|strict] [--mix first|strict]
       compare-with-source --write-list FILE [--count N] [--seed S] [--backend model|library]
       compare-with-source --check-list FILE [--backend model|library]
       compare-with-source --show FILE [--reading first|strict]
       compare-with-source --pairs N [--size N] [--reading first|strict] [--seed S]

  --texts N        how many texts to make (default 300000; 0 for files only)
  --seed S         which random texts (default 1)
  --backend WHAT   who answers beside the source (default model)
  --reading WHICH  first: compare with the source (default); strict, which the source doesn't know:
                   hold the backend to the model, and the model to its laws
  --mix WHICH      the texts made for this reading (default: for the one that is chosen)
  --files DIR      compare also every .cif file below DIR
  --write-list F   write the fixed list
  --count N        about how many texts the list has (default 3000)
  --check-list F   hold a fixed list to the source and the backend
  --show F         print the source's and the model's answers to one file
  --pairs N        hold the library's comparisons of N pairs of texts to the model's
  --size N         with some N values each, and not small ones

exit status: 0 no difference, 1 a difference, 2 usage or an unreadable file";

/// Who answers beside the source.
#[derive(Debug, Clone, Copy, PartialEq, Eq)]
pub enum Backend {
    Model,
    #[cfg(feature = "library")]
    Library,
}

/// What to do.
#[derive(Debug, PartialEq, Eq)]
pub enum Work {
    Help,
    Compare,
    WriteList(PathBuf),
    CheckList(PathBuf),
    Show(PathBuf),
    #[cfg(feature = "library")]
    Pairs(u64),
}

/// All that the command line says.
#[derive(Debug, PartialEq, Eq)]
pub struct Options {
    pub work: Work,
    pub backend: Backend,
    pub reading: Reading,
    mix: Option<Reading>,
    pub texts: u64,
    pub seed: u64,
    pub count: usize,
    pub size: Option<usize>,
    pub files: Vec<PathBuf>,
}

impl Options {
    /// The options of these words, or what is wrong with them.
    pub fn parse(words: impl Iterator<Item = String>) -> Result<Options, String> {
        let mut options = Options {
            work: Work::Compare,
            backend: Backend::Model,
            reading: Reading::First,
            mix: None,
            texts: 300_000,
            seed: 1,
            count: 3000,
            size: None,
            files: Vec::new(),
        };
        let mut words = words;
        while let Some(word) = words.next() {
            if word == "--help" {
                options.work = Work::Help;
                return Ok(options);
            }
            let value = words.next().ok_or(format!("{word} needs a value"))?;
            options.set(&word, &value)?;
        }
        options.checked()
    }

    /// Which reading the random texts are made for.
    pub fn mix(&self) -> Reading {
        self.mix.unwrap_or(self.reading)
    }

    /// The source and its list know the first reading alone.
    fn checked(self) -> Result<Options, String> {
        let listed = matches!(self.work, Work::WriteList(_) | Work::CheckList(_));
        if self.reading == Reading::Strict && listed {
            return Err(String::from(
                "the list is the source's, of the first reading",
            ));
        }
        Ok(self)
    }

    fn set(&mut self, word: &str, value: &str) -> Result<(), String> {
        match word {
            "--texts" => self.texts = number(word, value)?,
            "--seed" => self.seed = number(word, value)?,
            "--size" => self.size = Some(number(word, value)?.max(1) as usize),
            "--count" => self.count = number(word, value)? as usize,
            "--backend" => self.backend = backend(value)?,
            "--reading" => self.reading = reading(value)?,
            "--mix" => self.mix = Some(reading(value)?),
            "--files" => self.files.push(PathBuf::from(value)),
            "--write-list" => self.work = Work::WriteList(PathBuf::from(value)),
            "--check-list" => self.work = Work::CheckList(PathBuf::from(value)),
            "--show" => self.work = Work::Show(PathBuf::from(value)),
            #[cfg(feature = "library")]
            "--pairs" => self.work = Work::Pairs(number(word, value)?),
            #[cfg(not(feature = "library"))]
            "--pairs" => return Err(String::from("built without the feature library")),
            _ => return Err(format!("{word} is not known")),
        }
        Ok(())
    }
}

fn number(word: &str, value: &str) -> Result<u64, String> {
    value
        .parse()
        .map_err(|_| format!("{word} needs a number, not {value}"))
}

fn reading(value: &str) -> Result<Reading, String> {
    Reading::named(value).ok_or(format!("{value} is no reading"))
}

fn backend(value: &str) -> Result<Backend, String> {
    match value {
        "model" => Ok(Backend::Model),
        #[cfg(feature = "library")]
        "library" => Ok(Backend::Library),
        #[cfg(not(feature = "library"))]
        "library" => Err(String::from("built without the feature library")),
        _ => Err(format!("{value} is no backend")),
    }
}

#[cfg(test)]
mod tests {
    use super::*;

    fn parsed(line: &str) -> Result<Options, String> {
        Options::parse(line.split_whitespace().map(String::from))
    }

    #[test]
    fn words_are_understood() {
        let options = parsed("--texts 5 --seed 2 --files a --files b").expect("these are known");
        assert_eq!((options.texts, options.seed), (5, 2));
        assert_eq!(options.files, [PathBuf::from("a"), PathBuf::from("b")]);
        let options = parsed("--write-list f --count 7").expect("these are known");
        assert_eq!(options.work, Work::WriteList(PathBuf::from("f")));
        assert_eq!(options.count, 7);
    }

    #[test]
    fn the_mix_is_the_readings_own_if_none_is_named() {
        for (line, reading, mix) in [
            ("", Reading::First, Reading::First),
            ("--mix strict", Reading::First, Reading::Strict),
            ("--reading strict", Reading::Strict, Reading::Strict),
            (
                "--reading strict --mix first",
                Reading::Strict,
                Reading::First,
            ),
        ] {
            let options = parsed(line).expect("these are known");
            assert_eq!((options.reading, options.mix()), (reading, mix), "{line}");
        }
    }

    #[cfg(feature = "library")]
    #[test]
    fn the_library_has_both_readings() {
        for reading in ["first", "strict"] {
            let options = parsed(&format!("--backend library --reading {reading}"));
            let options = options.expect("these are known");
            assert_eq!(options.backend, Backend::Library);
            assert_eq!(Some(options.reading), Reading::named(reading));
        }
    }

    #[test]
    fn bad_words_are_refused() {
        for line in [
            "--texts",
            "--texts x",
            "--texts -1",
            "more 1",
            "--backend c",
            "--reading third",
            "--reading strict --check-list f",
            "--reading strict --write-list f",
        ] {
            assert!(parsed(line).is_err(), "{line}");
        }
    }
}
