//! Finds the archive libchuntarek.a and tells the linker: in the folder that CHUNTAREK_LIB_DIR names, or in the repository's
//! crates/chuntarek/out, where it is made by `rt lib` if it is missing.

use std::env;
use std::path::{Path, PathBuf};
use std::process::{self, Command};

const ARCHIVE: &str = "libchuntarek.a";

fn main() {
    println!("cargo::rerun-if-env-changed=CHUNTAREK_LIB_DIR");
    println!("cargo::rerun-if-changed=build.rs");
    match folder() {
        Ok(folder) => link(&folder),
        Err(message) => {
            println!("cargo::error={message}");
            process::exit(1);
        }
    }
}

/// The folder that holds the archive, or what to do about it.
fn folder() -> Result<PathBuf, String> {
    if env::var("CARGO_CFG_TARGET_ARCH").is_ok_and(|arch| arch != "x86_64") {
        return Err(format!(
            "{ARCHIVE} is made for x86-64 and links into no other program: build for x86_64-unknown-linux-gnu \
             (cargo's --target), and run what is built under an emulator"
        ));
    }
    match env::var_os("CHUNTAREK_LIB_DIR") {
        Some(named) => named_folder(PathBuf::from(named)),
        None => repository_folder(),
    }
}

fn named_folder(folder: PathBuf) -> Result<PathBuf, String> {
    if folder.join(ARCHIVE).is_file() {
        Ok(folder)
    } else {
        Err(format!(
            "CHUNTAREK_LIB_DIR is {}, and there is no {ARCHIVE} there",
            folder.display()
        ))
    }
}

fn repository_folder() -> Result<PathBuf, String> {
    let package = env::var_os("CARGO_MANIFEST_DIR").map(PathBuf::from);
    let root = package
        .as_deref()
        .and_then(|package| package.ancestors().nth(2));
    let Some(root) = root else {
        return Err(format!(
            "no repository above this crate: set CHUNTAREK_LIB_DIR to the folder of {ARCHIVE}"
        ));
    };
    let own = root.join("crates/chuntarek");
    let folder = own.join("out");
    if !folder.join(ARCHIVE).is_file() {
        make(&own, &folder)?;
    }
    if folder.join(ARCHIVE).is_file() {
        Ok(folder)
    } else {
        Err(format!(
            "`rt lib` ran and left no {ARCHIVE} in {}",
            folder.display()
        ))
    }
}

/// Proves the library and writes the archive. What `rt` says is shown by cargo if it fails.
fn make(own: &Path, folder: &Path) -> Result<(), String> {
    match Command::new("rt").arg("lib").current_dir(own).status() {
        Ok(status) if status.success() => Ok(()),
        Ok(status) => Err(format!("`rt lib` failed in {} ({status})", own.display())),
        Err(error) => Err(format!(
            "no {ARCHIVE} in {}, and `rt`, which makes it, cannot be run ({error}): \
             put rt on the path, or set CHUNTAREK_LIB_DIR to the folder of the archive",
            folder.display()
        )),
    }
}

fn link(folder: &Path) {
    println!("cargo::rerun-if-changed={}", folder.join(ARCHIVE).display());
    println!("cargo::rustc-link-search=native={}", folder.display());
    println!("cargo::rustc-link-lib=static=chuntarek");
}
