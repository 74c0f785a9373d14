//! Writes the modules that name the source's files where they stand, and builds the shim over gemmi
//! where its header is installed. Nothing of the source is copied: the modules point at the files of
//! PDBTBX_SRC, or of the folder shared/docs/src beside the repository.

use std::env;
use std::fs;
use std::path::{Path, PathBuf};
use std::process::Command;

fn main() {
    println!("cargo:rerun-if-env-changed=PDBTBX_SRC");
    println!("cargo:rerun-if-env-changed=CXX");
    println!("cargo:rerun-if-changed=build.rs");
    println!("cargo:rerun-if-changed=src/gemmi.cpp");
    println!("cargo:rerun-if-changed=/usr/include/gemmi/cif.hpp");
    println!("cargo:rustc-check-cfg=cfg(gemmi)");
    let package = folder("CARGO_MANIFEST_DIR");
    let out = folder("OUT_DIR");
    let modules = modules(&source_root(&package), &package);
    fs::write(out.join("source_modules.rs"), modules).expect("the build folder can be written");
    match shim(&package, &out) {
        Ok(()) => link_shim(&out),
        Err(reason) => println!("cargo:rustc-env=BENCH_WITHOUT_GEMMI={reason}"),
    }
}

/// A folder that cargo names.
fn folder(name: &str) -> PathBuf {
    PathBuf::from(env::var_os(name).expect("cargo sets its own variables"))
}

/// The folder of the source's files: the one named, or the nearest shared/docs/src above.
fn source_root(package: &Path) -> PathBuf {
    if let Some(named) = env::var_os("PDBTBX_SRC") {
        return PathBuf::from(named);
    }
    let found = package
        .ancestors()
        .map(|above| above.join("shared/docs/src"))
        .find(|folder| folder.is_dir());
    found.unwrap_or_else(|| {
        panic!("no folder shared/docs/src beside the repository: set PDBTBX_SRC to the source's folder")
    })
}

/// One file of the source, under its own path or under the flat name of the document set.
fn source_file(root: &Path, path: &str) -> PathBuf {
    let plain = root.join(path);
    let flat = root.join(format!("src--{}.txt", path.replace('/', "--")));
    let found = [plain, flat].into_iter().find(|file| file.is_file());
    let file = found.unwrap_or_else(|| panic!("{path} is not in {}", root.display()));
    file.canonicalize().expect("a found file has a full path")
}

/// The text of the modules: the source's three files, and the comparison's stand-ins for the two
/// that are missing.
fn modules(root: &Path, package: &Path) -> String {
    let standin = |name: &str| {
        package
            .join("../compare-with-source/src/standin")
            .join(name)
    };
    let context = source_file(root, "src/error/context.rs");
    let lexitem = source_file(root, "src/read/mmcif/lexitem.rs");
    let lexer = source_file(root, "src/read/mmcif/lexer.rs");
    let (level, error) = (standin("errorlevel.rs"), standin("pdberror.rs"));
    format!(
        "#[allow(dead_code)]\nmod error {{\n\
         #[path = {context:?}]\nmod context;\n\
         #[path = {level:?}]\nmod errorlevel;\n\
         #[path = {error:?}]\nmod pdberror;\n\
         pub use context::{{Context, Position}};\n\
         pub use errorlevel::ErrorLevel;\n\
         pub use pdberror::PDBError;\n}}\n\
         #[allow(dead_code)]\nmod mmcif {{\n\
         #[path = {lexitem:?}]\npub mod lexitem;\n\
         #[path = {lexer:?}]\npub mod lexer;\n}}\n"
    )
}

/// Compiles the shim over gemmi to an archive, or says why that cannot be done.
fn shim(package: &Path, out: &Path) -> Result<(), String> {
    let compiler = env::var("CXX").unwrap_or_else(|_| String::from("g++"));
    let object = out.join("gemmi.o");
    let mut compile = Command::new(&compiler);
    compile.args(["-std=c++17", "-O3", "-DNDEBUG", "-fPIC", "-c"]);
    run(compile
        .arg(package.join("src/gemmi.cpp"))
        .arg("-o")
        .arg(&object))?;
    let archive = out.join("libgemmishim.a");
    run(Command::new("ar").arg("crs").arg(archive).arg(&object))
}

fn run(command: &mut Command) -> Result<(), String> {
    let program = command.get_program().to_string_lossy().into_owned();
    match command.output() {
        Ok(output) if output.status.success() => Ok(()),
        Ok(output) => {
            let said = String::from_utf8_lossy(&output.stderr);
            Err(String::from(
                said.lines()
                    .find(|line| line.contains("error"))
                    .unwrap_or("it does not compile"),
            ))
        }
        Err(error) => Err(format!("{program}: {error}")),
    }
}

fn link_shim(out: &Path) {
    println!("cargo:rustc-cfg=gemmi");
    println!("cargo:rustc-link-search=native={}", out.display());
    println!("cargo:rustc-link-lib=static=gemmishim");
    println!("cargo:rustc-link-lib=dylib=stdc++");
}
