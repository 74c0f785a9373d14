//! The command line, taken apart.

use std::ffi::{OsStr, OsString};

use chuntarek::Reading;

use super::table::Layout;

/// What is asked for.
#[derive(Debug, PartialEq, Eq)]
pub enum Request {
    Help,
    Version,
    Outline {
        reading: Reading,
        files: Vec<OsString>,
    },
    Check {
        reading: Reading,
        files: Vec<OsString>,
    },
    Values {
        reading: Reading,
        file: OsString,
        wish: Wish,
    },
    Render {
        reading: Reading,
        file: OsString,
    },
    Compare {
        reading: Reading,
        old: OsString,
        new: OsString,
        wish: CompareWish,
    },
}

/// Which values are shown, all if no tags are named, and how.
#[derive(Debug, PartialEq, Eq)]
pub struct Wish {
    pub tags: Vec<OsString>,
    pub layout: Layout,
}

/// Which differences are shown, those of all tags if none are named, and how.
#[derive(Debug, Default, PartialEq, Eq)]
pub struct CompareWish {
    pub tags: Vec<OsString>,
    pub rewritten: bool,
    pub json: bool,
}

/// The words behind the command's name: options, and what they are about.
#[derive(Default)]
struct Words {
    help: bool,
    version: bool,
    strict: bool,
    tabs: bool,
    rewritten: bool,
    json: bool,
    /// Those behind `--tag`.
    tags: Vec<OsString>,
    plain: Vec<OsString>,
}

impl Words {
    /// An option that belongs to one command, and this command, if such an option stands there.
    fn of_one_command(&self) -> Option<(&'static str, &'static str)> {
        [
            (self.tabs, "--tabs", "values"),
            (self.rewritten, "--rewritten", "compare"),
            (self.json, "--json", "compare"),
            (!self.tags.is_empty(), "--tag", "compare"),
        ]
        .into_iter()
        .find_map(|(stands, option, command)| stands.then_some((option, command)))
    }
}

/// The request of a command line, or what is wrong with it.
pub fn parse(arguments: impl Iterator<Item = OsString>) -> Result<Request, String> {
    let words = sort(arguments)?;
    if words.help {
        return Ok(Request::Help);
    }
    if words.version {
        return Ok(Request::Version);
    }
    let reading = match words.strict {
        true => Reading::Strict,
        false => Reading::First,
    };
    let owned = words.of_one_command();
    let mut plain = words.plain.into_iter();
    let Some(name) = plain.next() else {
        return Err(String::from("nothing is asked for"));
    };
    let rest: Vec<OsString> = plain.collect();
    if let Some((option, command)) = owned.filter(|(_, command)| name != *command) {
        return Err(format!("{option} belongs to `{command}`"));
    }
    let wish = CompareWish {
        tags: words.tags,
        rewritten: words.rewritten,
        json: words.json,
    };
    match name.to_str() {
        Some("outline") => {
            some_files("outline", rest).map(|files| Request::Outline { reading, files })
        }
        Some("check") => some_files("check", rest).map(|files| Request::Check { reading, files }),
        Some("values") => values(reading, rest, words.tabs),
        Some("render") => one_file(rest).map(|file| Request::Render { reading, file }),
        Some("compare") => compare(reading, rest, wish),
        _ => Err(format!("there is no command {name:?}")),
    }
}

/// Tells options from other words; `-` is standard input, and after `--` nothing is an option. The words
/// behind `--tag` are tags, up to the next option.
fn sort(arguments: impl Iterator<Item = OsString>) -> Result<Words, String> {
    let mut words = Words::default();
    let (mut options_end, mut tags_follow) = (false, false);
    let mut arguments = arguments.peekable();
    while let Some(word) = arguments.next() {
        if options_end || !is_option(&word) {
            match tags_follow {
                true => words.tags.push(word),
                false => words.plain.push(word),
            }
            continue;
        }
        tags_follow = word == "--tag";
        match word.to_str() {
            Some("--") => options_end = true,
            Some("--tag") if arguments.peek().is_none_or(|next| is_option(next)) => {
                return Err(String::from("--tag needs a tag behind it"));
            }
            Some("--tag") => {}
            Some("--rewritten") => words.rewritten = true,
            Some("--json") => words.json = true,
            Some("--help" | "-h") => words.help = true,
            Some("--version" | "-V") => words.version = true,
            Some("--strict") => words.strict = true,
            Some("--tabs") => words.tabs = true,
            _ => return Err(format!("there is no option {word:?}")),
        }
    }
    Ok(words)
}

fn is_option(word: &OsStr) -> bool {
    word != "-" && word.as_encoded_bytes().starts_with(b"-")
}

fn some_files(name: &str, files: Vec<OsString>) -> Result<Vec<OsString>, String> {
    if files.is_empty() {
        return Err(format!("`{name}` needs a file"));
    }
    Ok(files)
}

fn one_file(files: Vec<OsString>) -> Result<OsString, String> {
    match <[OsString; 1]>::try_from(files) {
        Ok([file]) => Ok(file),
        Err(files) => Err(format!("`render` takes one file, not {}", files.len())),
    }
}

fn compare(reading: Reading, files: Vec<OsString>, wish: CompareWish) -> Result<Request, String> {
    match <[OsString; 2]>::try_from(files) {
        Ok([old, new]) if old == "-" && new == "-" => Err(String::from(
            "standard input can be only one of the two files",
        )),
        Ok([old, new]) => Ok(Request::Compare {
            reading,
            old,
            new,
            wish,
        }),
        Err(files) => Err(format!(
            "`compare` takes two files, OLD and NEW, not {}{}",
            files.len(),
            match (files.len(), wish.tags.is_empty()) {
                (0 | 1, false) => " (what stands behind --tag are tags)",
                _ => "",
            }
        )),
    }
}

fn values(reading: Reading, words: Vec<OsString>, tabs: bool) -> Result<Request, String> {
    let mut words = words.into_iter();
    let Some(file) = words.next() else {
        return Err(String::from("`values` needs a file"));
    };
    Ok(Request::Values {
        reading,
        file,
        wish: Wish {
            tags: words.collect(),
            layout: if tabs { Layout::Tabs } else { Layout::Aligned },
        },
    })
}

#[cfg(test)]
mod tests {
    use super::*;

    fn parsed(line: &str) -> Result<Request, String> {
        parse(line.split_whitespace().map(OsString::from))
    }

    #[test]
    fn files_and_tags_are_told_apart() {
        assert_eq!(
            parsed("outline a.cif -"),
            Ok(Request::Outline {
                reading: Reading::First,
                files: vec!["a.cif".into(), "-".into()]
            })
        );
        assert_eq!(
            parsed("values a.cif _b c --tabs"),
            Ok(Request::Values {
                reading: Reading::First,
                file: "a.cif".into(),
                wish: Wish {
                    tags: vec!["_b".into(), "c".into()],
                    layout: Layout::Tabs
                }
            })
        );
    }

    #[test]
    fn each_command_takes_the_strict_reading() {
        let reading = Reading::Strict;
        let (file, files) = (OsString::from("a.cif"), vec![OsString::from("a.cif")]);
        for line in ["outline --strict a.cif", "--strict outline a.cif"] {
            let files = files.clone();
            assert_eq!(parsed(line), Ok(Request::Outline { reading, files }));
        }
        assert_eq!(
            parsed("check a.cif --strict"),
            Ok(Request::Check { reading, files })
        );
        let wish = Wish {
            tags: vec!["b".into()],
            layout: Layout::Aligned,
        };
        assert_eq!(
            parsed("values --strict a.cif b"),
            Ok(Request::Values {
                reading,
                file: file.clone(),
                wish
            })
        );
        assert_eq!(
            parsed("render --strict a.cif"),
            Ok(Request::Render { reading, file })
        );
    }

    #[test]
    fn two_files_are_compared() {
        let request = |reading, wish| {
            let (old, new) = ("a".into(), "-".into());
            Ok(Request::Compare {
                reading,
                old,
                new,
                wish,
            })
        };
        let wish = CompareWish::default;
        assert_eq!(parsed("compare a -"), request(Reading::First, wish()));
        assert_eq!(
            parsed("compare --strict a - --rewritten"),
            request(
                Reading::Strict,
                CompareWish {
                    rewritten: true,
                    ..wish()
                }
            )
        );
        let tagged = CompareWish {
            tags: vec!["_b".into(), "c".into(), "d".into()],
            json: true,
            ..wish()
        };
        for line in [
            "compare a - --tag _b c --json --tag d",
            "compare --tag _b c d --json a -",
            "compare --json --tag _b c d -- a -",
        ] {
            let wish = CompareWish {
                tags: tagged.tags.clone(),
                ..tagged
            };
            assert_eq!(parsed(line), request(Reading::First, wish), "{line}");
        }
    }

    #[test]
    fn help_and_version_go_before_all_else() {
        for line in ["--help", "-h", "check --help", "nonsense --help"] {
            assert_eq!(parsed(line), Ok(Request::Help));
        }
        assert_eq!(parsed("--version"), Ok(Request::Version));
    }

    #[test]
    fn after_two_dashes_nothing_is_an_option() {
        assert_eq!(
            parsed("render -- --help"),
            Ok(Request::Render {
                reading: Reading::First,
                file: "--help".into()
            })
        );
    }

    #[test]
    fn what_is_not_understood_is_said() {
        let said = [
            ("", "nothing is asked for"),
            ("outline", "`outline` needs a file"),
            ("check", "`check` needs a file"),
            ("values", "`values` needs a file"),
            ("render", "`render` takes one file, not 0"),
            ("render a b", "`render` takes one file, not 2"),
            ("outlien a", "there is no command \"outlien\""),
            ("check -x a", "there is no option \"-x\""),
            ("check --tabs a", "--tabs belongs to `values`"),
            ("compare a b --tabs", "--tabs belongs to `values`"),
            ("check --json a", "--json belongs to `compare`"),
            ("values --rewritten a", "--rewritten belongs to `compare`"),
            ("values a --tag b", "--tag belongs to `compare`"),
            ("compare a b --tag", "--tag needs a tag behind it"),
            ("compare --tag --json a b", "--tag needs a tag behind it"),
            ("compare", "`compare` takes two files, OLD and NEW, not 0"),
            (
                "compare a b c",
                "`compare` takes two files, OLD and NEW, not 3",
            ),
            (
                "compare --tag c a b",
                "`compare` takes two files, OLD and NEW, not 0 (what stands behind --tag are tags)",
            ),
            (
                "compare - -",
                "standard input can be only one of the two files",
            ),
        ];
        for (line, message) in said {
            assert_eq!(parsed(line), Err(String::from(message)), "{line}");
        }
    }
}
