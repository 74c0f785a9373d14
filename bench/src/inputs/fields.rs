//! Files that are one long text field: what a refinement was given, kept with its result.

use std::fmt::Write;

use super::dice::Dice;

const HEAD: &str = "data_made\n_cell_length_a 10.123(2)\n_diffrn_ambient_temperature 150(2)\n";

/// A list of reflections of about so many bytes, in lines of 28 with the line end.
pub fn reflections(length: usize) -> String {
    let mut dice = Dice::new();
    let mut text = format!("{HEAD}_shelx_hkl_file\n;\n");
    while text.len() < length {
        let (h, k, l) = (dice.below(40), dice.below(30), dice.below(20));
        let (intensity, error) = (dice.decimal(9_000, 2), dice.decimal(20, 2));
        let _ = writeln!(text, "{h:4}{k:4}{l:4}{intensity:>8}{error:>7}");
    }
    text.push_str(";\n_shelx_hkl_checksum 12345\n");
    text
}

/// Instructions and remarks of about so many bytes, in lines of at most 75 with the line end.
pub fn instructions(length: usize) -> String {
    let mut dice = Dice::new();
    let mut text = format!("{HEAD}_shelx_res_file\n;\n");
    while text.len() < length {
        let _ = writeln!(text, "REM {}", dice.line(70));
    }
    text.push_str(";\n_shelx_res_checksum 12345\n");
    text
}
