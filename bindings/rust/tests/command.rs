//! The command: its output, its messages and its exit statuses.

mod running;

use std::fs;
use std::io::Read;
use std::path::Path;
use std::process::Stdio;

use running::{command, done, failed, refused, run, run_with, written};

const SAMPLE_OUTLINE: &str = "1 0 6 1 1\n4 7 2 2 1\n15 10 7 2 4\n5 18 5 3 1\n6 24 2 3 7\n6 27 2 3 10\n10 30 1 4 1\n9 32 1 4 3\n7\nend\n";

#[test]
fn outline_prints_document_01s_outline() {
    let expected = done(SAMPLE_OUTLINE);
    assert_eq!(run(&["outline", "examples/sample.cif"]), expected);
    let text = b"data_t\n_a 1.50(2)\nloop_ _b _c\nx ?\n";
    assert_eq!(run_with(&["outline", "-"], text), expected);
    assert_eq!(run_with(&["outline", "/dev/stdin"], text), expected);
}

/// The README shows commands with what they print, messages included.
#[test]
fn the_readme_shows_what_the_command_prints() {
    let path = Path::new(env!("CARGO_MANIFEST_DIR")).join("../../README.md");
    let readme = fs::read_to_string(path).expect("the README is there");
    let mut shown = 0;
    for start in readme.split("$ ./chuntarek ").skip(1) {
        let (line, printed) = start.split_once('\n').expect("a command has a line");
        let words: Vec<&str> = line.split(' ').collect();
        let (_, output, message) = run(&words);
        assert!(printed.starts_with(&(output + &message)), "{line}");
        shown += 1;
    }
    assert_eq!(shown, 5);
}

#[test]
fn outline_names_its_files_if_there_are_several() {
    let (status, output, message) = run(&[
        "outline",
        "examples/refused/08-no-names.cif",
        "examples/sample.cif",
    ]);
    let names = [
        "==> examples/refused/08-no-names.cif <==\nrefused 8 7 2 1\n",
        "==> examples/sample.cif <==\n",
    ];
    assert_eq!(output, names.concat() + SAMPLE_OUTLINE);
    assert_eq!(status, 1);
    assert!(message.starts_with("examples/refused/08-no-names.cif:2:1: refused 8: "));
}

#[test]
fn check_says_nothing_of_good_files() {
    let files = [
        "check",
        "examples/sample.cif",
        "examples/small-molecule.cif",
        "examples/frames.cif",
    ];
    assert_eq!(run(&files), done(""));
    assert_eq!(run_with(&["check", "-"], b"data_"), done(""));
}

#[test]
fn check_says_what_is_wrong_and_shows_where() {
    let messages = [
        (
            "02-not-ascii",
            "2:11: refused 2: the character U+00FC is not plain ASCII, as every byte of a CIF file is\n    _author 'Müller'\n              ^\n",
        ),
        (
            "03-no-data",
            "2:1: refused 3: a CIF file begins with `data_` and a name, and here stands `_cell_length_a 5.661`\n",
        ),
        (
            "04-open-frame",
            "2:1: refused 4: this save frame is not closed: where its items end, no closing `save_` stands\n    save_length\n    ^\n",
        ),
        (
            "05-ragged",
            "2:1: refused 5: the values of this loop do not fill whole rows: 2 are left over, \
             as it has 3 tags and 5 values (last: `0.1` `0.2` `O1` `0.3`)\n    loop_ _label _x _y\n    ^\n\
             examples/refused/05-ragged.cif:4:1: the row that begins here is not whole\n    O1 0.3\n    ^\n",
        ),
        (
            "05-unquoted",
            "2:1: refused 5: the values of this loop do not fill whole rows: 1 is left over, \
             as it has 2 tags and 1 value (last: `1`)\n    loop_ _id _formula\n    ^\n\
             examples/refused/05-unquoted.cif:3:3: this value begins with `[`: put quote marks around it\n    1 [Fe(CN)6]4-\n      ^\n",
        ),
        (
            "05-quote-in-quotes",
            "2:1: refused 5: the values of this loop do not fill whole rows: 1 is left over, \
             as it has 2 tags and 3 values (last: `GMP` `'GUANOSINE-5'` `-MONOPHOSPHATE'`)\n    loop_ _id _name\n    ^\n\
             examples/refused/05-quote-in-quotes.cif:3:18: the mark before this closes its quote: \
             a text that holds this mark stands between marks of the other kind\n    \
             GMP 'GUANOSINE-5'-MONOPHOSPHATE'\n                     ^\n",
        ),
        (
            "06-text-ends",
            "2:15: refused 6: the file ends where the value of _cell_length_a should stand (write `?` for an unknown value)\n    _cell_length_a\n                  ^\n",
        ),
        (
            "06-reserved-word",
            "2:7: refused 6: `stop_watch` begins with a reserved word: put quote marks around it\n    _tool stop_watch\n          ^\n",
        ),
        (
            "06-starts-no-value",
            "2:10: refused 6: this value begins with `[`: put quote marks around it\n    _formula [Fe(CN)6]4-\n             ^\n",
        ),
        (
            "06-missing",
            "3:1: refused 6: the value of _cell_length_a is missing: the tag _cell_length_b stands in its place \
             (write `?` for an unknown value; one that begins with `_` needs quote marks)\n    _cell_length_b 5.661\n    ^\n",
        ),
        (
            "06-open-quote",
            "2:7: refused 6: the quote that opens here is not closed on its line\n    _name 'urea\n          ^\n",
        ),
        (
            "06-open-field",
            "3:1: refused 6: the text field that opens here has no closing `;` at the start of a line\n    ;urea\n    ^\n",
        ),
        (
            "07-open-quote",
            "4:1: refused 7: the quote that opens here is not closed on its line\n    'oxygen\n    ^\n",
        ),
        (
            "07-open-field",
            "4:1: refused 7: the text field that opens here has no closing `;` at the start of a line\n    ;oxygen\n    ^\n",
        ),
        (
            "07-starts-no-value",
            "4:1: refused 7: this value begins with `[`: put quote marks around it\n    [Fe(CN)6]4-\n    ^\n",
        ),
        (
            "07-second-block",
            "4:1: refused 7: a second block begins here: use --strict, which reads several, or put each block into a file of its own\n    data_y\n    ^\n",
        ),
        (
            "07-no-item",
            "2:16: refused 7: a value stands here that belongs to no tag (a text with spaces needs quote marks)\n    _name carbonic diamide\n                   ^\n",
        ),
        (
            "08-no-names",
            "2:1: refused 8: no tags follow this `loop_`\n    loop_\n    ^\n",
        ),
        (
            "09-over-limit",
            "2:18: refused 9: this number has too many digits: at most 9 before the point, 18 behind it, 9 in the exponent and 9 in the brackets are kept exactly\n    _detector_counts 1234567890\n                     ^\n",
        ),
    ];
    for (name, message) in messages {
        let file = format!("examples/refused/{name}.cif");
        let expected = refused("", &format!("{file}:{message}"));
        assert_eq!(run(&["check", &file]), expected);
    }
}

#[test]
fn check_says_what_the_strict_reading_refuses() {
    let long_line = format!(
        "    ...{}\n{}^\n",
        &include_str!("../../../examples/strict/refused/16-long-line.cif")[2055 - 64..2055 + 13],
        " ".repeat(4 + 3 + 64)
    );
    let long_tag = format!("    _{}\n    ^\n", "n".repeat(75) + " 1");
    let messages = [
        (
            "04-open-frame",
            "4:1: refused 4: `data_y` stands here, and the save frame before it is not closed: \
             put `save_` on a line of its own before it\n    data_y\n    ^\n\
             examples/strict/refused/04-open-frame.cif:2:1: the frame opens here\n    save_f\n    ^\n".into(),
        ),
        (
            "06-empty-loop",
            "3:1: refused 6: this loop has no values: `loop_` stands in their place \
             (remove the loop, or give it a row of `?`)\n    loop_ _y 1\n    ^\n".into(),
        ),
        (
            "06-open-quote",
            "2:7: refused 6: the quote that opens here is not closed on its line: \
             the mark that closes it stands before space or the line's end\n    _name 'urea'#c\n          ^\n".into(),
        ),
        (
            "07-no-space",
            "2:1: refused 7: a space is missing behind `loop_`\n    loop__label C1\n    ^\n".into(),
        ),
        (
            "15-no-space",
            "4:2: refused 15: the `;` before this closes a text field: put space or a line end behind it \
             (no line of such a field may begin with `;`)\n    ;_name urea\n     ^\n".into(),
        ),
        (
            "16-long-line",
            "2:2049: refused 16: this line has more than 2,048 bytes, the most that CIF allows: break it between \
             two values (a long text goes into a text field of several lines, a long comment into several)\n"
                .to_string() + &long_line,
        ),
        (
            "17-empty-name",
            "1:1: refused 17: this block has no name: write one directly behind `data_`\n    data_\n    ^\n".into(),
        ),
        (
            "17-long-name",
            "2:1: refused 17: this tag, its `_` included, has 76 bytes, and CIF allows 75: shorten it\n".to_string()
                + &long_tag,
        ),
        (
            "18-control-byte",
            "2:11: refused 18: the control character 0C (form feed) stands here: remove it\n    \
             _name 'ure\u{fffd}a'\n              ^\n".into(),
        ),
    ];
    for (name, message) in messages {
        let file = format!("examples/strict/refused/{name}.cif");
        let expected = refused("", &format!("{file}:{message}"));
        assert_eq!(run(&["check", "--strict", &file]), expected);
    }
}

/// Two blocks, and a quote that holds its own mark: what the one reading refuses the other reads.
#[test]
fn every_command_takes_the_strict_reading() {
    let file = "examples/strict/blocks.cif";
    let message = format!(
        "{file}:2:23: refused 7: the mark before this closes its quote: a text that holds this mark \
         stands between marks of the other kind\n    _audit_author_name 'O'Neill H St C'\n{}^\n",
        " ".repeat(26)
    );
    assert_eq!(run(&["check", file]), refused("", &message));
    assert_eq!(run(&["check", "--strict", file]), done(""));
    let outline = include_str!("../../../examples/strict/blocks.outline");
    assert_eq!(run(&["outline", "--strict", file]), done(outline));
    assert_eq!(
        run(&["values", "--strict", file]),
        done(
            "data_urea_12K\n_audit_author_name  O'Neill H St C\n_cell_length_a      5.565(1)\n\n\
             data_urea_123K\n_audit_author_name  O'Neill H St C\n_cell_length_a      5.584(1)\n"
        )
    );
    assert_eq!(
        run(&["values", "--strict", "--tabs", file, "cell_length_a"]),
        done(
            "data_urea_12K\n_cell_length_a\t5.565(1)\n\ndata_urea_123K\n_cell_length_a\t5.584(1)\n"
        )
    );
    let (status, rendered, _) = run(&["render", "--strict", file]);
    assert_eq!(status, 0);
    assert!(rendered.contains("\n'O'Neill H St C'\n"));
    assert_eq!(
        run_with(&["render", "--strict", "-"], rendered.as_bytes()),
        done(&rendered)
    );
}

#[test]
fn the_strict_rendering_has_a_space_before_a_semicolon() {
    assert_eq!(
        run(&["render", "--strict", "examples/strict/words.cif"]),
        done(
            "data_words\nloop_\n_word\nx\n ;b\n.x\n?y\n1e+\n1()\nloop_x\n'it's'\n\"a\"b\"\n.\n?\n\
             _note\n;field; and\n;\n"
        )
    );
}

/// In each block, and only there, a tag stands once.
#[test]
fn check_names_block_by_block() {
    let check = |text: &[u8]| run_with(&["check", "--strict", "-"], text);
    assert_eq!(check(b"data_x\n_a 1\ndata_y\n_a 2\n"), done(""));
    assert_eq!(
        check(b"data_x\n_a 1\ndata_y\n_b 2\n_B 3\n"),
        refused(
            "",
            "<stdin>:5:1: refused 13: the tag _B stands here again\n    _B 3\n    ^\n\
             <stdin>:4:1: it stands here before as _b: small and capital letters count as the same\n    _b 2\n    ^\n"
        )
    );
}

#[test]
fn files_that_are_no_cif_get_one_line_in_the_strict_reading_too() {
    for (text, line) in [
        (
            &b"\x7fELF\x02\0"[..],
            "<stdin>:1:1: refused 18: this is no text file\n",
        ),
        (
            b"\x1f\x8b\x08\0\0",
            "<stdin>:1:2: refused 2: the file is compressed: unpack it first\n",
        ),
        (b"", "<stdin>:1:1: refused 3: the file is empty\n"),
    ] {
        let expected = refused("", line);
        assert_eq!(run_with(&["check", "--strict", "-"], text), expected);
    }
}

/// Two messages: what is refused, and what led to it.
#[test]
fn a_field_in_mid_line_is_said_in_the_strict_reading() {
    let text = b"data_x\n_a ;b\n;\n";
    assert_eq!(run_with(&["check", "-"], text), done(""));
    assert_eq!(
        run_with(&["check", "--strict", "-"], text),
        refused(
            "",
            "<stdin>:3:1: refused 7: a value stands here that belongs to no tag\n    ;\n    ^\n\
             <stdin>:2:4: a text field opens only at the start of a line: put this `;` there\n    _a ;b\n       ^\n"
        )
    );
}

/// The outline has the place of the frame, as the library answers; the message has what stops it.
#[test]
fn a_frame_that_is_open_at_the_end_is_said() {
    let (status, output, message) =
        run_with(&["outline", "--strict", "-"], b"data_x\nsave_f\n_a 1\n");
    assert_eq!((status, output.as_str()), (1, "refused 4 7 2 1\n"));
    assert_eq!(
        message,
        "<stdin>:4:1: refused 4: the file ends here, and its last save frame is not closed: \
         put `save_` on a line of its own here\n    \n    ^\n\
         <stdin>:2:1: the frame opens here\n    save_f\n    ^\n"
    );
}

/// The outline has the tag's place, as the library answers; the message has the value's.
#[test]
fn a_message_stands_where_the_value_fails() {
    let (status, output, message) = run_with(&["outline", "-"], b"data_x\n_a # b\r\n\t'c\n");
    assert_eq!((status, output.as_str()), (1, "refused 6 7 2 1\n"));
    assert_eq!(
        message,
        "<stdin>:3:2: refused 6: the quote that opens here is not closed on its line\n     'c\n     ^\n"
    );
}

#[test]
fn what_stands_for_a_value_is_said() {
    let missing = "the value of _a is missing:";
    let sentences: [(&[u8], &str); 9] = [
        (b"", "the file ends where the value of _a should stand "),
        (
            b" loop_ _b 1",
            &format!("{missing} `loop_` stands in its place "),
        ),
        (
            b" data_y",
            &format!("{missing} `data_y` stands in its place "),
        ),
        (
            b" save_",
            &format!("{missing} `save_` stands in its place "),
        ),
        (
            b" _b 1",
            &format!("{missing} the tag _b stands in its place "),
        ),
        (
            b" stop_x",
            "`stop_x` begins with a reserved word: put quote marks around it\n",
        ),
        (
            b" $b",
            "this value begins with `$`: put quote marks around it\n",
        ),
        (
            b" \x0c",
            "the control character 0C (form feed) stands here: remove it\n",
        ),
        (
            b" ;b",
            "the text field that opens here has no closing `;` at the start of a line\n",
        ),
    ];
    for (behind, sentence) in sentences {
        let text = [b"data_x _a", behind].concat();
        let (status, _, message) = run_with(&["check", "-"], &text);
        let place = if behind.is_empty() { 10 } else { 11 };
        let start = format!("<stdin>:1:{place}: refused 6: {sentence}");
        assert_eq!(status, 1);
        assert!(message.starts_with(&start), "{message}");
    }
}

/// The loop is read twice more, to find its values; that takes no other room than reading does.
#[test]
fn a_large_ragged_loop_is_said() {
    let mut text = b"data_x\nloop_ _a _b _c\n".to_vec();
    for _ in 0..100_000 {
        text.extend(b"1 . ?\n");
    }
    text.extend(b"2 [\n");
    let (status, _, message) = run_with(&["check", "-"], &text);
    assert_eq!(status, 1);
    assert_eq!(
        message,
        "<stdin>:2:1: refused 5: the values of this loop do not fill whole rows: 1 is left over, \
         as it has 3 tags and 300001 values (last: `1` `.` `?` `2`)\n    loop_ _a _b _c\n    ^\n\
         <stdin>:100003:3: this value begins with `[`: put quote marks around it\n    2 [\n      ^\n"
    );
}

#[test]
fn check_shows_both_places_of_a_repeated_tag() {
    let file = "examples/refused/13-name-twice.cif";
    let message = format!(
        "{file}:4:1: refused 13: the tag _cell_length_a stands here again\n    _cell_length_a 5.662\n    ^\n\
         {file}:2:1: it stands here before\n    _cell_length_a 5.661\n    ^\n"
    );
    assert_eq!(run(&["check", file]), refused("", &message));
}

#[test]
fn check_says_that_a_repeated_tag_is_spelt_otherwise() {
    let file = "examples/refused/13-letter-case.cif";
    let message = format!(
        "{file}:5:3: refused 13: the tag _cell.length_a stands here again\n      _cell.length_a\n      ^\n\
         {file}:2:1: it stands here before as _Cell.length_a: small and capital letters count as the same\n    \
         _Cell.length_a 5.661\n    ^\n"
    );
    assert_eq!(run(&["check", file]), refused("", &message));
}

#[test]
fn values_are_shown_as_tables() {
    let table = "\
data_words
_dictionary.title  A very small dictionary

save_length
_definition.id  _cell.length

_example.case
5.661(2)
.
";
    assert_eq!(run(&["values", "examples/frames.cif"]), done(table));
    let row = "data_t\n_a\t1.50(2)\n\n_b\t_c\nx\t?\n";
    assert_eq!(run(&["values", "--tabs", "examples/sample.cif"]), done(row));
}

#[test]
fn values_of_certain_tags_are_shown_alone() {
    let molecule = "examples/small-molecule.cif";
    assert_eq!(
        run(&["values", molecule, "cell_length_a", "_CELL_ANGLE_BETA"]),
        done("_cell_length_a    5.661(2)\n_cell_angle_beta  90\n")
    );
    let atoms = "\
_atom_site_label  _atom_site_U_iso_or_equiv
C1                0.0147(3)
O1                0.0197(2)
N1                0.0286(2)
H1                3.5e-2
H2                3.5e-2
";
    assert_eq!(
        run(&[
            "values",
            molecule,
            "atom_site_U_iso_or_equiv",
            "_atom_site_label"
        ]),
        done(atoms)
    );
}

#[test]
fn a_tag_that_is_not_there_is_said() {
    assert_eq!(
        run(&["values", "examples/sample.cif", "z", "a"]),
        refused(
            "_a  1.50(2)\n",
            "chuntarek: examples/sample.cif: there is no tag _z\n"
        )
    );
}

#[test]
fn render_writes_one_token_to_a_line() {
    assert_eq!(
        run(&["render", "examples/sample.cif"]),
        done("data_t\n_a\n1.50(2)\nloop_\n_b\n_c\nx\n?\n")
    );
    let (_, rendered, _) = run(&["render", "examples/small-molecule.cif"]);
    assert_eq!(
        run_with(&["render", "-"], rendered.as_bytes()),
        done(&rendered)
    );
}

/// The line end behind the field makes the rendering one byte longer than the text.
#[test]
fn a_rendering_over_the_limit_is_refused() {
    let mut text = b"data_x _a ;".to_vec();
    text.resize(16_777_214, b'x');
    text.extend(b"\n;");
    assert_eq!(run_with(&["check", "-"], &text), done(""));
    assert_eq!(
        run_with(&["render", "-"], &text),
        refused(
            "",
            "<stdin>: refused 1: its rendering would be longer than 16,777,216 bytes\n"
        )
    );
}

#[test]
fn values_and_render_refuse_what_check_refuses() {
    let file = "examples/refused/08-no-names.cif";
    let checked = run(&["check", file]);
    assert_eq!(run(&["values", file]), checked);
    assert_eq!(run(&["render", file]), checked);
}

#[test]
fn files_that_are_no_cif_get_one_line() {
    let zeros = vec![0; 20_000_000];
    let lines: [(&[u8], &str); 6] = [
        (b"", "<stdin>:1:1: refused 3: the file is empty\n"),
        (
            b"# nothing\n",
            "<stdin>:2:1: refused 3: the file holds only space and comments\n",
        ),
        (
            b"<html>\n",
            "<stdin>:1:1: refused 3: a CIF file begins with `data_` and a name, and here stands `<html>`\n",
        ),
        (
            b"\x89PNG\r\n\x1a\n\0\0\0",
            "<stdin>:1:1: refused 2: this is no text file\n",
        ),
        (
            b"\x1f\x8b\x08\0\0",
            "<stdin>:1:2: refused 2: the file is compressed: unpack it first\n",
        ),
        (
            &zeros,
            "<stdin>: refused 1: the text is longer than 16,777,216 bytes, the most that is handled\n",
        ),
    ];
    for (text, line) in lines {
        assert_eq!(run_with(&["check", "-"], text), refused("", line));
    }
}

#[test]
fn a_file_of_exactly_the_limit_is_read() {
    let mut text = b"data_x _a 1 #".to_vec();
    text.resize(16_777_216, b'#');
    assert_eq!(run_with(&["check", "-"], &text), done(""));
    let file = written("limit.cif", &text);
    let name = file.to_str().expect("a plain path");
    assert_eq!(run(&["values", name]), done("data_x\n_a  1\n"));
    text.push(b'#');
    fs::write(&file, &text).expect("the file can be written");
    assert_eq!(
        run(&["outline", name]),
        refused(
            "refused 1 0 0 0\n",
            &format!("{name}: refused 1: the text is longer than 16,777,216 bytes, the most that is handled\n")
        )
    );
    fs::remove_file(file).expect("the file is there");
}

#[test]
fn files_that_cannot_be_read_get_one_line() {
    let cases = [
        ("examples/none.cif", "there is no such file"),
        ("examples", "this is a directory, not a file"),
    ];
    for (file, reason) in cases {
        let line = format!("chuntarek: {file}: {reason}\n");
        for name in ["outline", "check", "values", "render"] {
            assert_eq!(run(&[name, file]), failed(&line));
        }
    }
    let (status, _, message) = run(&["check", "examples/sample.cif/x"]);
    assert_eq!((status, message.lines().count()), (2, 1));
}

#[test]
fn the_worst_status_of_several_files_counts() {
    let (good, bad) = ("examples/sample.cif", "examples/refused/08-no-names.cif");
    for files in [["none.cif", bad, good], [good, bad, "none.cif"]] {
        let (status, _, message) = run(&[&["check"], &files[..]].concat());
        assert_eq!(status, 2);
        assert!(message.contains("chuntarek: none.cif: there is no such file\n"));
        assert!(message.contains("refused 8"));
    }
    assert_eq!(run(&["check", bad, good]).0, 1);
}

#[test]
fn what_is_not_understood_is_said_with_status_2() {
    let lines: [(&[&str], &str); 5] = [
        (&[], "nothing is asked for"),
        (&["check"], "`check` needs a file"),
        (&["render", "a", "b"], "`render` takes one file, not 2"),
        (&["read", "a"], "there is no command \"read\""),
        (&["check", "--quiet", "a"], "there is no option \"--quiet\""),
    ];
    for (words, line) in lines {
        let message = format!("chuntarek: {line}\nTry `chuntarek --help`.\n");
        assert_eq!(run(words), failed(&message));
    }
}

#[test]
fn help_and_version_are_output() {
    assert_eq!(run(&["--version"]), done("chuntarek 0.1.0\n"));
    let (status, output, message) = run(&["--help"]);
    assert_eq!((status, message.as_str()), (0, ""));
    for word in [
        "outline [--strict] FILE",
        "check [--strict] FILE",
        "values [--strict] [--tabs] FILE",
        "render [--strict] FILE",
        "compare [--strict] [--rewritten] [--json] OLD NEW [--tag TAG...]",
        "Examples:",
    ] {
        assert!(output.contains(word), "{word}");
    }
    assert!(output.lines().all(|line| line.len() <= 100));
}

/// What each page says of the strict reading's blocks, and what the command does without any.
#[test]
fn a_file_without_a_block_is_promised_nowhere() {
    let pages = [
        run(&["--help"]).1,
        include_str!("../../../README.md").into(),
        include_str!("../../c/chuntarek.h").into(),
        include_str!("../src/reading.rs").into(),
    ];
    for page in pages {
        assert!(page.contains("one block or more"), "{page}");
        assert!(!page.contains("any number of blocks"), "{page}");
    }
    let (status, _, message) = run_with(&["check", "--strict", "-"], b"# no block\n");
    assert_eq!(status, 1);
    assert!(message.starts_with("<stdin>:2:1: refused 3: "), "{message}");
}

#[test]
fn a_name_that_looks_like_an_option_is_a_file_after_two_dashes() {
    assert_eq!(
        run(&["check", "--", "--version"]),
        failed("chuntarek: --version: there is no such file\n")
    );
}

#[test]
fn escapes_keep_a_value_on_its_line() {
    let text = b"data_x _a\n;b\n\x1b[2J\n;";
    assert_eq!(
        run_with(&["values", "-", "a"], text),
        done("_a  b\\n\\x1b[2J\\n\n")
    );
}

/// Enough tags to fill every buffer between the command and a reader that has gone.
#[test]
fn a_closed_pipe_ends_quietly() {
    let mut text = b"data_x\n".to_vec();
    for number in 0..100_000 {
        text.extend(format!("_tag_{number} {number}\n").bytes());
    }
    let file = written("many.cif", &text);
    let name = file.to_str().expect("a plain path");
    for words in [["outline", name], ["values", name], ["render", name]] {
        let mut child = command(&words)
            .stdout(Stdio::piped())
            .stderr(Stdio::piped())
            .spawn()
            .expect("the command starts");
        drop(child.stdout.take());
        let mut message = String::new();
        let mut stderr = child.stderr.take().expect("a pipe");
        stderr
            .read_to_string(&mut message)
            .expect("messages are text");
        assert_eq!(message, "");
        assert_eq!(child.wait().expect("the command ends").code(), Some(0));
    }
    fs::remove_file(file).expect("the file is there");
}

#[test]
fn output_that_cannot_be_written_is_said() {
    let full = fs::OpenOptions::new()
        .write(true)
        .open("/dev/full")
        .expect("the system has a full device");
    let output = command(&["render", "examples/sample.cif"])
        .stdout(full)
        .output()
        .expect("the command ends");
    let message = String::from_utf8_lossy(&output.stderr);
    assert_eq!(output.status.code(), Some(2));
    assert!(message.starts_with("chuntarek: the output cannot be written: "));
}
