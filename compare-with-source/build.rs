//! Writes the modules that name the source's files where they stand, and finds the archive.
//! Nothing of the source is copied: the modules point at the files of PDBTBX_SRC, or of the
//! folder shared/docs/src beside the repository. Where neither is there, the source is left out.

use std::env;
use std::fs;
use std::path::{Path, PathBuf};

fn main() {
    for name in ["PDBTBX_SRC", "CHUNTAREK_LIB_DIR"] {
        println!("cargo:rerun-if-env-changed={name}");
    }
    println!("cargo:rerun-if-changed=build.rs");
    println!("cargo:rustc-check-cfg=cfg(has_source)");
    let package = folder("CARGO_MANIFEST_DIR");
    if let Some(root) = source_root(&package) {
        println!("cargo:rustc-cfg=has_source");
        fs::write(
            folder("OUT_DIR").join("source_modules.rs"),
            modules(&root, &package),
        )
        .expect("the build folder can be written");
    }
    if env::var_os("CARGO_FEATURE_LIBRARY").is_some() {
        link_library();
    }
}

/// A folder that cargo names.
fn folder(name: &str) -> PathBuf {
    PathBuf::from(env::var_os(name).expect("cargo sets its own variables"))
}

/// The folder of the source's files: the one named, or the nearest shared/docs/src above.
fn source_root(package: &Path) -> Option<PathBuf> {
    if let Some(named) = env::var_os("PDBTBX_SRC") {
        return Some(PathBuf::from(named));
    }
    let above = package.ancestors();
    above
        .map(|above| above.join("shared/docs/src"))
        .find(|folder| folder.is_dir())
}

/// One file of the source, under its own path or under the flat name of the document set.
fn source_file(root: &Path, path: &str) -> PathBuf {
    let plain = root.join(path);
    let flat = root.join(format!("src--{}.txt", path.replace('/', "--")));
    let found = [plain, flat].into_iter().find(|file| file.is_file());
    let file = found.unwrap_or_else(|| panic!("{path} is not in {}", root.display()));
    file.canonicalize().expect("a found file has a full path")
}

/// The text of the modules: the source's three files and the stand-ins for the two missing ones.
fn modules(root: &Path, package: &Path) -> String {
    let standin = |name: &str| package.join("src/standin").join(name);
    let context = source_file(root, "src/error/context.rs");
    let lexitem = source_file(root, "src/read/mmcif/lexitem.rs");
    let lexer = source_file(root, "src/read/mmcif/lexer.rs");
    let (level, error) = (standin("errorlevel.rs"), standin("pdberror.rs"));
    format!(
        "#[allow(dead_code)]\nmod error {{\n\
         #[path = {context:?}]\nmod context;\n\
         #[path = {level:?}]\nmod errorlevel;\n\
         #[path = {error:?}]\nmod pdberror;\n\
         pub use context::{{Context, Position}};\n\
         pub use errorlevel::ErrorLevel;\n\
         pub use pdberror::PDBError;\n}}\n\
         mod mmcif {{\n\
         #[path = {lexitem:?}]\npub mod lexitem;\n\
         #[path = {lexer:?}]\npub mod lexer;\n}}\n"
    )
}

/// Tells the linker where the proved library stands.
fn link_library() {
    if env::var("CARGO_CFG_TARGET_ARCH").is_ok_and(|arch| arch != "x86_64") {
        panic!("the feature library links for x86-64 alone: build for x86_64-unknown-linux-gnu (cargo's --target)");
    }
    let Some(folder) = env::var_os("CHUNTAREK_LIB_DIR") else {
        panic!("the feature library needs CHUNTAREK_LIB_DIR, the folder of libchuntarek.a");
    };
    let archive = Path::new(&folder).join("libchuntarek.a");
    println!("cargo:rerun-if-changed={}", archive.display());
    println!(
        "cargo:rustc-link-search=native={}",
        Path::new(&folder).display()
    );
    println!("cargo:rustc-link-lib=static=chuntarek");
}
