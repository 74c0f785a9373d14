//! The command `compare`: its lines, its messages and its exit statuses.

mod running;

use std::fs;
use std::path::{Path, PathBuf};
use std::process::Stdio;

use chuntarek::{Document, Entry, Reading};
use running::{command, done, failed, run, run_with, written, Run};

/// What a comparison leaves that found differences.
fn differs(output: &str) -> Run {
    (1, output.into(), String::new())
}

/// Compares two texts, the new one from standard input. The name is the test's own.
fn compare(name: &str, options: &[&str], old: &[u8], new: &[u8]) -> Run {
    let file = written(name, old);
    let path = file.to_str().expect("a plain path");
    let result = run_with(&[&["compare", path, "-"], options].concat(), new);
    fs::remove_file(file).expect("the file is there");
    result
}

const UREA: &str = "examples/small-molecule.cif";
const REFINED: &str = "examples/refined/small-molecule.cif";

#[test]
fn a_line_tells_what_changed() {
    let lines = "\
_chemical_melting_point                   405.8(5)                 only in OLD
_cell_length_a                              5.661(2)    5.658(2)   smaller
_cell_length_b                              5.661(2)    5.658(2)   smaller
_cell_length_c                              4.712(1)    4.7120(8)  uncertainty
_exptl_crystal_density_diffrn               1.321       1.322      larger
_exptl_crystal_colour                     ?            colourless  changed
_exptl_special_details                    ...wn from ethanol.\\n  ...wn from methanol.\\n  changed
_atom_site_fract_z             row 1  C1    0.3260(4)   0.3262(3)  larger
_atom_site_fract_y             row 3  N1    0.6459(2)   0.6458(2)  smaller
_atom_site_U_iso_or_equiv      row 3  N1    0.0286(2)   0.0286(3)  uncertainty
_atom_site_fract_z             row 5  H2   -0.038(5)   -0.041(5)   smaller
_atom_site_calc_flag           row 5  H2  .            calc        changed
_refine_ls_R_factor_gt                                  0.0312     only in NEW
5 more numbers are only rewritten, their values are the same (--rewritten shows them)
";
    assert_eq!(run(&["compare", UREA, REFINED]), differs(lines));
}

#[test]
fn nothing_is_said_where_nothing_differs() {
    assert_eq!(run(&["compare", UREA, UREA]), done(""));
    assert_eq!(run(&["compare", "--json", UREA, UREA]), done(""));
    let (_, rendered, _) = run(&["render", REFINED]);
    for options in [&[][..], &["--rewritten"], &["--json"], &["--strict"]] {
        let words = [&["compare", REFINED, "-"], options].concat();
        assert_eq!(run_with(&words, rendered.as_bytes()), done(""));
    }
    // Another block name, letter case, order, marks and line ends make no difference.
    let old = b"data_x\n_a 1\n_b 'c'\nsave_f\nloop_ _d _e 1 2\nsave_\n";
    let new = b"data_y save_F loop_ _E _D 2 1 save_\r\n_B \"c\"\r\n_a 1 # b";
    assert_eq!(compare("same.cif", &[], old, new), done(""));
}

#[test]
fn certain_tags_are_compared_alone() {
    let cell = |options: &[&str]| run(&[&["compare", UREA, REFINED], options].concat());
    assert_eq!(
        cell(&["--tag", "cell_length_a", "_CELL_length_c"]),
        differs("_cell_length_a  5.661(2)  5.658(2)   smaller\n_cell_length_c  4.712(1)  4.7120(8)  uncertainty\n")
    );
    assert_eq!(cell(&["--tag", "chemical_formula_sum"]), done(""));
    // Rewritten values differ, so the status is that of a difference.
    assert_eq!(
        cell(&["--tag", "cell_angle_beta", "chemical_formula_sum"]),
        differs("1 number is only rewritten, its value is the same (--rewritten shows it)\n")
    );
    assert_eq!(
        cell(&["--tag", "cell_angle_beta", "--rewritten"]),
        differs("_cell_angle_beta  90  90.0  rewritten\n")
    );
    // One that neither file has is mistyped.
    assert_eq!(
        cell(&["--tag", "cell_lenght_a", "cell_length_a", "_z"]),
        failed("chuntarek: neither file has a tag _cell_lenght_a\nchuntarek: neither file has a tag _z\n")
    );
    assert_eq!(cell(&["--tag", "refine_ls_r_factor_gt"]).0, 1);
}

#[test]
fn programs_get_an_object_an_entry() {
    let words = ["compare", "--json", UREA, REFINED, "--tag"];
    let beta = run(&[&words[..], &["cell_angle_beta"]].concat());
    assert_eq!(
        beta,
        differs(
            "{\"case\":\"rewritten\",\"frame\":null,\"tag\":\"_cell_angle_beta\",\"row\":null,\
             \"old\":{\"record\":16,\"line\":10,\"column\":35,\"label\":null,\"kind\":\"number\",\"value\":\"90\"},\
             \"new\":{\"record\":14,\"line\":9,\"column\":35,\"label\":null,\"kind\":\"number\",\"value\":\"90.0\"}}\n"
        )
    );
    let flag = run(&[&words[..], &["atom_site_calc_flag"]].concat());
    assert_eq!(
        flag,
        differs(
            "{\"case\":\"changed\",\"frame\":null,\"tag\":\"_atom_site_calc_flag\",\"row\":5,\
             \"old\":{\"record\":63,\"line\":30,\"column\":49,\"label\":\"H2\",\"kind\":\"inapplicable\",\"value\":\".\"},\
             \"new\":{\"record\":59,\"line\":30,\"column\":5,\"label\":\"H2\",\"kind\":\"text\",\"value\":\"calc\"}}\n"
        )
    );
    // Every entry, those that are only rewritten too.
    let (status, output, _) = run(&["compare", "--json", UREA, REFINED]);
    assert_eq!((status, output.lines().count()), (1, 18));
}

#[test]
fn files_that_are_refused_are_said_with_status_2() {
    let bad = "examples/refused/08-no-names.cif";
    let (_, _, message) = run(&["check", bad]);
    assert_eq!(run(&["compare", bad, UREA]), failed(&message));
    assert_eq!(run(&["compare", UREA, bad]), failed(&message));
    let none = "chuntarek: none.cif: there is no such file\n";
    assert_eq!(run(&["compare", "none.cif", UREA]), failed(none));
    // Both are told of, the old one first.
    assert_eq!(
        run(&["compare", bad, "none.cif"]),
        failed(&format!("{message}{none}"))
    );
    assert_eq!(
        run(&["compare", "none.cif", bad]),
        failed(&format!("{none}{message}"))
    );
}

#[test]
fn a_name_that_stands_twice_is_shown_in_its_file() {
    let good = b"data_x\n_a 1\n";
    assert_eq!(
        compare("tags.cif", &[], good, b"data_x\n_b 1\n_B 2\n"),
        failed(
            "<stdin>:3:1: refused 13: the tag _B stands here again\n    _B 2\n    ^\n\
             <stdin>:2:1: it stands here before as _b: small and capital letters count as the same\n    _b 1\n    ^\n"
        )
    );
    assert_eq!(
        compare("frames.cif", &[], good, b"data_x\nsave_f _a 1 save_\nsave_f _a 1 save_\n"),
        failed(
            "<stdin>:3:1: refused 13: the frame save_f stands here again\n    save_f _a 1 save_\n    ^\n\
             <stdin>:2:1: it stands here before\n    save_f _a 1 save_\n    ^\n"
        )
    );
    let file = "examples/refused/13-name-twice.cif";
    let (_, _, message) = run(&["check", file]);
    assert_eq!(run(&["compare", file, UREA]), failed(&message));
    assert_eq!(run(&["compare", UREA, file]), failed(&message));
}

#[test]
fn several_blocks_are_not_compared() {
    let blocks = "examples/strict/blocks.cif";
    let message = format!(
        "{blocks}:4:1: refused 12: a second block begins here: only files of one block can be compared\n    \
         data_urea_123K\n    ^\n"
    );
    let words = "examples/strict/words.cif";
    for files in [[blocks, words], [words, blocks], [blocks, blocks]] {
        let words = [&["compare", "--strict"], &files[..]].concat();
        assert_eq!(run(&words), failed(&message));
    }
    assert_eq!(run(&["compare", blocks, UREA]).0, 2);
}

#[test]
fn the_strict_reading_is_for_both_files() {
    let (old, new) = (b"data_x _a 'O'Neill'", b"data_x _a \"O'Neill\"");
    assert_eq!(compare("strict.cif", &["--strict"], old, new), done(""));
    let (status, output, message) = compare("strict.cif", &[], old, new);
    assert_eq!((status, output.as_str()), (2, ""));
    assert!(message.contains(": refused 7: "), "{message}");
}

#[test]
fn what_is_not_understood_is_said_with_status_2() {
    let lines: [(&[&str], &str); 3] = [
        (
            &["compare", UREA],
            "`compare` takes two files, OLD and NEW, not 1",
        ),
        (
            &["compare", "-", "-"],
            "standard input can be only one of the two files",
        ),
        (
            &["compare", UREA, REFINED, "--tag"],
            "--tag needs a tag behind it",
        ),
    ];
    for (words, line) in lines {
        let message = format!("chuntarek: {line}\nTry `chuntarek --help`.\n");
        assert_eq!(run(words), failed(&message));
    }
}

/// Enough to fill every buffer between the command and a reader that has gone: they differ all the same.
#[test]
fn a_closed_pipe_ends_quietly() {
    let text = |value: u64| {
        let rows = (0..1500).map(|row| format!("'a label that is long enough, {row}' {value}\n"));
        format!("data_x loop_ _l _a\n{}", rows.collect::<String>())
    };
    let files = [1, 2].map(|value| written(&format!("pipe{value}.cif"), text(value).as_bytes()));
    let [old, new] = files
        .each_ref()
        .map(|file| file.to_str().expect("a plain path"));
    let mut child = command(&["compare", old, new])
        .stdout(Stdio::piped())
        .stderr(Stdio::piped())
        .spawn()
        .expect("the command starts");
    drop(child.stdout.take());
    let output = child.wait_with_output().expect("the command ends");
    assert_eq!((output.status.code(), output.stderr), (Some(1), Vec::new()));
    for file in files {
        fs::remove_file(file).expect("the file is there");
    }
}

/// Files that were changed in known ways, each beside the lists of what differs: on each line the case and
/// both record numbers, then the command's line. All were written by hand.
#[test]
fn examples_have_the_changes_beside_them() {
    let examples = Path::new(env!("CARGO_MANIFEST_DIR")).join("../../examples");
    let (first, strict) = (
        pairs(&examples, Reading::First),
        pairs(&examples.join("strict"), Reading::Strict),
    );
    assert_eq!((first.len(), strict.len()), (2, 1));
    for pair in first.iter().chain(&strict) {
        pair.holds();
    }
}

/// A file, the same one refined, and what changed.
struct Pair {
    reading: Reading,
    old: PathBuf,
    new: PathBuf,
    changes: String,
}

fn pairs(folder: &Path, reading: Reading) -> Vec<Pair> {
    let refined = folder.join("refined");
    let files = fs::read_dir(&refined).expect("the folder is there");
    let names = files.map(|file| file.expect("a file").path());
    let lists = names.filter(|path| path.extension().is_some_and(|end| end == "changes"));
    let pair = |list: PathBuf| {
        let name = list.with_extension("cif");
        let name = name.file_name().expect("a file has a name").to_owned();
        Pair {
            reading,
            old: folder.join(&name),
            new: refined.join(&name),
            changes: fs::read_to_string(list).expect("the list is text"),
        }
    };
    lists.map(pair).collect()
}

/// Words with one space between them.
fn spaced_once<'a>(words: impl Iterator<Item = &'a str>) -> String {
    words.collect::<Vec<&str>>().join(" ")
}

impl Pair {
    fn holds(&self) {
        let read = |path: &Path| {
            let text = fs::read(path).expect("the file is there");
            Document::read_as(self.reading, &text).expect("the file is read")
        };
        let (old, new) = (read(&self.old), read(&self.new));
        let number = |value: Option<chuntarek::Value>| value.map_or(0, |value| value.number);
        let told = |entry: Entry| {
            let (old, new) = (number(entry.old), number(entry.new));
            format!("{} {old} {new}", entry.case.number())
        };
        let entries = old.compare(&new).expect("they can be compared");
        let lines = self.changes.lines();
        let expected = lines.map(|line| spaced_once(line.split_whitespace().take(3)));
        assert!(entries.map(told).eq(expected), "{}", self.new.display());
        let mut words = vec!["compare", "--rewritten"];
        words.extend((self.reading == Reading::Strict).then_some("--strict"));
        let paths = [&self.old, &self.new].map(|path| path.to_str().expect("a plain path"));
        let (status, output, message) = run(&[&words[..], &paths].concat());
        assert_eq!((status, message.as_str()), (1, ""));
        let printed = output
            .lines()
            .map(|line| spaced_once(line.split_whitespace()));
        let lines = self.changes.lines();
        let expected = lines.map(|line| spaced_once(line.split_whitespace().skip(3)));
        assert_eq!(printed.collect::<Vec<_>>(), expected.collect::<Vec<_>>());
    }
}
