//! What the command line asks for.

use std::time::Duration;

use crate::timing::Effort;

pub const HELP: &str = "\
bench/run [OPTION...] [FILE...]: times the library on made texts, and on the files

  --quick       a fifth of the time, for a first look
  --files-only  the files alone, no made texts
  --reading     only the tables of Read and Outline
  --stores      only the table of stores
  --names       only the table of name checks
  --growth      only the table of growth
  --changes     only the table of comparisons
  --help        this
";

/// What to time, and how long.
pub struct Options {
    pub effort: Effort,
    pub growth_effort: Effort,
    pub standard: bool,
    pub reading: bool,
    pub stores: bool,
    pub names: bool,
    pub growth: bool,
    pub changes: bool,
    pub files: Vec<String>,
}

/// What is wanted.
pub enum Wish {
    Help,
    Run(Options),
    Unclear(String),
}

fn effort(rounds: u32, milliseconds: u64) -> Effort {
    Effort {
        rounds,
        turn: Duration::from_millis(milliseconds),
    }
}

/// The wish that the words of a command line say.
pub fn wish(words: impl Iterator<Item = String>) -> Wish {
    let mut options = Options {
        effort: effort(3, 500),
        growth_effort: effort(3, 50),
        standard: true,
        reading: false,
        stores: false,
        names: false,
        growth: false,
        changes: false,
        files: Vec::new(),
    };
    for word in words {
        match word.as_str() {
            "--help" => return Wish::Help,
            "--quick" => (options.effort, options.growth_effort) = (effort(3, 100), effort(3, 10)),
            "--files-only" => options.standard = false,
            "--reading" => options.reading = true,
            "--stores" => options.stores = true,
            "--names" => options.names = true,
            "--growth" => options.growth = true,
            "--changes" => options.changes = true,
            unclear if unclear.starts_with('-') => return Wish::Unclear(word),
            _ => options.files.push(word),
        }
    }
    let chosen = [
        &mut options.reading,
        &mut options.stores,
        &mut options.names,
        &mut options.growth,
        &mut options.changes,
    ];
    if chosen.iter().all(|table| !**table) {
        chosen.into_iter().for_each(|table| *table = true);
    }
    Wish::Run(options)
}

#[cfg(test)]
mod tests {
    use super::*;

    fn said(words: &str) -> Wish {
        wish(words.split_whitespace().map(String::from))
    }

    #[test]
    fn nothing_said_is_all() {
        let Wish::Run(options) = said("") else {
            panic!("that is a run")
        };
        assert!(options.standard && options.reading && options.stores);
        assert!(options.names && options.growth && options.changes);
    }

    #[test]
    fn tables_and_files_are_chosen() {
        let Wish::Run(options) = said("--growth --files-only a.cif b.cif") else {
            panic!("that is a run")
        };
        assert!(options.growth && !options.reading && !options.stores);
        assert!(!options.names && !options.changes && !options.standard);
        assert_eq!(options.files, ["a.cif", "b.cif"]);
    }

    #[test]
    fn the_rest_is_unclear() {
        assert!(matches!(said("--fast"), Wish::Unclear(word) if word == "--fast"));
    }
}
