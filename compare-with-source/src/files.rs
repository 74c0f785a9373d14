//! The CIF files below a folder.

use std::fs;
use std::path::{Path, PathBuf};

/// Every file below a folder whose name ends in .cif, in the order of their paths.
pub fn below(folder: &Path) -> Result<Vec<PathBuf>, String> {
    let mut found = Vec::new();
    collect(folder, &mut found)?;
    found.sort();
    Ok(found)
}

fn collect(folder: &Path, found: &mut Vec<PathBuf>) -> Result<(), String> {
    let fault = |error| format!("{}: {error}", folder.display());
    for entry in fs::read_dir(folder).map_err(fault)? {
        let entry = entry.map_err(fault)?;
        let kind = entry.file_type().map_err(fault)?;
        let path = entry.path();
        if kind.is_dir() {
            collect(&path, found)?;
        } else if kind.is_file() && is_cif(&path) {
            found.push(path);
        }
    }
    Ok(())
}

fn is_cif(path: &Path) -> bool {
    path.extension()
        .is_some_and(|ending| ending.eq_ignore_ascii_case("cif"))
}

/// The bytes of a file.
pub fn load(file: &Path) -> Result<Vec<u8>, String> {
    fs::read(file).map_err(|error| format!("{}: {error}", file.display()))
}
