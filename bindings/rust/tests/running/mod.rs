//! Runs the command as a user does.
#![allow(dead_code)]

use std::env;
use std::fs;
use std::io::Write;
use std::path::{Path, PathBuf};
use std::process::{Command, Stdio};

/// What a run of the command leaves: exit status, standard output, standard error.
pub type Run = (i32, String, String);

/// The words before a program that cargo built, as cargo itself takes them: an emulator where the machine is not x86-64.
fn runner() -> Vec<String> {
    let words = env::var("CARGO_TARGET_X86_64_UNKNOWN_LINUX_GNU_RUNNER").unwrap_or_default();
    words.split_whitespace().map(String::from).collect()
}

/// The command, run where the examples stand below `examples`.
pub fn command(words: &[&str]) -> Command {
    let mut program = runner();
    program.push(env!("CARGO_BIN_EXE_chuntarek").into());
    let mut command = Command::new(&program[0]);
    command
        .args(&program[1..])
        .args(words)
        .current_dir(Path::new(env!("CARGO_MANIFEST_DIR")).join("../.."));
    command
}

pub fn run(words: &[&str]) -> Run {
    run_with(words, b"")
}

/// Runs the command with these bytes as standard input.
pub fn run_with(words: &[&str], input: &[u8]) -> Run {
    let mut child = command(words)
        .stdin(Stdio::piped())
        .stdout(Stdio::piped())
        .stderr(Stdio::piped())
        .spawn()
        .expect("the command starts");
    let mut stdin = child.stdin.take().expect("a pipe");
    let input = input.to_vec();
    // The command may end before it has taken everything.
    let feeding = std::thread::spawn(move || stdin.write_all(&input).is_ok());
    let output = child.wait_with_output().expect("the command ends");
    feeding.join().expect("feeding ends");
    (
        output.status.code().expect("the command exits"),
        String::from_utf8(output.stdout).expect("output is text"),
        String::from_utf8(output.stderr).expect("messages are text"),
    )
}

pub fn done(output: &str) -> Run {
    (0, output.into(), String::new())
}

pub fn refused(output: &str, message: &str) -> Run {
    (1, output.into(), message.into())
}

pub fn failed(message: &str) -> Run {
    (2, String::new(), message.into())
}

/// A file for one test, outside the repository's own files.
pub fn written(name: &str, bytes: &[u8]) -> PathBuf {
    let path = Path::new(env!("CARGO_TARGET_TMPDIR")).join(name);
    fs::write(&path, bytes).expect("the folder can be written");
    path
}
