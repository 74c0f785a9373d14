//! The texts that are timed. Those that are made here are the same in every run.

mod atoms;
mod dice;
mod dictionary;
mod fields;
pub mod hard;
mod molecule;

use std::fs;

/// A text and its name in the tables.
pub struct Input {
    pub name: String,
    pub text: Vec<u8>,
}

/// The PDB's exchange dictionary, where Debian's libcifpp-data has it.
const DICTIONARY: &str = "/usr/share/libcifpp/mmcif_pdbx.dic";

/// One text of each sort, and the PDB's dictionary where it is installed.
pub fn standard() -> Vec<Input> {
    let mut inputs = vec![
        made("atom table", atoms::table(15_000_000)),
        made("small molecule", molecule::report(60)),
        made("dictionary, made", dictionary::frames(6_000)),
    ];
    inputs.extend(file(DICTIONARY).ok());
    inputs.push(made("field, lines of 28", fields::reflections(5_000_000)));
    inputs.push(made("field, lines of 75", fields::instructions(5_000_000)));
    inputs
}

fn made(name: &str, text: String) -> Input {
    Input {
        name: String::from(name),
        text: text.into_bytes(),
    }
}

/// The file of this path, under the last part of its name.
pub fn file(path: &str) -> Result<Input, String> {
    let name = String::from(path.rsplit('/').next().unwrap_or(path));
    match fs::read(path) {
        Ok(text) => Ok(Input { name, text }),
        Err(error) => Err(format!("{path}: {error}")),
    }
}

#[cfg(test)]
mod tests {
    use super::*;
    use crate::source;
    use chuntarek::Reading;

    #[test]
    fn library_and_source_read_each_text() {
        for input in standard() {
            let answer = chuntarek::read(Reading::First, &input.text, &mut [], &mut []);
            assert!(answer.needed().is_ok(), "{}: {answer:?}", input.name);
            let text = std::str::from_utf8(&input.text).expect("the library takes ASCII alone");
            assert!(source::reads(text), "{}", input.name);
        }
    }

    #[test]
    fn a_missing_file_is_told() {
        assert!(file("/nowhere/a.cif").is_err());
    }
}
