//! Texts that are made to be slow.

use std::fmt::Write;

/// A sort of text: its name, how many of its things are n for the library and for the source, which
/// gets fewer if it is asked at all, and the text of so many.
pub struct Sort {
    pub name: &'static str,
    pub count: usize,
    pub source_count: Option<usize>,
    pub text: fn(usize) -> String,
}

/// For the first reading.
pub const SORTS: [Sort; 11] = [
    Sort {
        name: "dots",
        count: 250_000,
        source_count: Some(4_000),
        text: |n| format!("data_x loop_ _a {}", ".".repeat(n)),
    },
    Sort {
        name: ".? pairs",
        count: 250_000,
        source_count: Some(4_000),
        text: |n| format!("data_x loop_ _a {}", ".?".repeat(n)),
    },
    Sort {
        name: "loops in one line",
        count: 100_000,
        source_count: Some(2_000),
        text: |n| format!("data_x{}", " loop_ _a 1".repeat(n)),
    },
    Sort {
        name: "quotes",
        count: 100_000,
        source_count: Some(2_000),
        text: |n| format!("data_x loop_ _a {}", "'\"'\"'\"".repeat(n)),
    },
    Sort {
        name: "comments",
        count: 500_000,
        source_count: Some(20_000),
        text: |n| format!("data_x{}\n_a 1", "\n#".repeat(n)),
    },
    Sort {
        name: "lines of a field",
        count: 250_000,
        source_count: Some(20_000),
        text: |n| format!("data_x _a\n;{}\n;", "\n ;".repeat(n)),
    },
    Sort {
        name: "frames",
        count: 50_000,
        source_count: Some(2_000),
        text: |n| format!("data_x{}", "\nsave_f _a 1 save_".repeat(n)),
    },
    Sort {
        name: "frames, items dropped",
        count: 50_000,
        source_count: Some(2_000),
        text: |n| format!("data_x{}", "\nsave_f loop_ _a _b 1 2 3 save_".repeat(n)),
    },
    Sort {
        name: "names",
        count: 50_000,
        source_count: Some(2_000),
        text: plain_tags,
    },
    Sort {
        name: "names of one loop",
        count: 50_000,
        source_count: Some(2_000),
        text: |n| {
            let names: String = (0..n).map(|number| format!(" _t{number}")).collect();
            format!("data_x loop_{names}{}", " .".repeat(n))
        },
    },
    Sort {
        name: "names of one place",
        count: 2_000,
        source_count: Some(2_000),
        text: crowded_tags,
    },
];

/// For the strict reading, which the source does not know: what only it reads, and what its rules on lines
/// make it look at.
pub const STRICT_SORTS: [Sort; 5] = [
    Sort {
        name: "strict: blocks",
        count: 50_000,
        source_count: None,
        text: |n| "data_x\n_a 1\n".repeat(n),
    },
    Sort {
        name: "strict: marks in quotes",
        count: 500,
        source_count: None,
        text: |n| loop_of(&format!("'{}'", "'b".repeat(1_000)), n),
    },
    Sort {
        name: "strict: words with ;",
        count: 100_000,
        source_count: None,
        text: |n| loop_of(" ;b;", n),
    },
    Sort {
        name: "strict: full lines",
        count: 200,
        source_count: None,
        text: |n| loop_of(&format!("{}bb", "b ".repeat(LONGEST_LINE / 2 - 1)), n),
    },
    Sort {
        name: "strict: short lines",
        count: 200_000,
        source_count: None,
        text: |n| loop_of("1", n),
    },
];

/// The most bytes of a line in the strict reading.
const LONGEST_LINE: usize = 2_048;

/// A loop of one tag whose values stand on so many lines like this one.
fn loop_of(line: &str, n: usize) -> String {
    format!("data_x\nloop_ _a\n{}", format!("{line}\n").repeat(n))
}

/// A block of so many tags, each another.
pub fn plain_tags(n: usize) -> String {
    tags((0..n).map(|number| format!("t{number}")))
}

/// A block of so many tags, each another in any letter case and as short as can be: two millions are a
/// text of 16 MB.
pub fn short_tags(n: usize) -> String {
    const DIGITS: &[u8; 62] = b"0123456789abcdefghijklmnopqrstuvwxyz!$%&()*+,-./:;<=>?@[]^_{|}";
    tags((0..n).map(|number| {
        let mut name = String::new();
        let mut left = number;
        loop {
            name.push(char::from(DIGITS[left % 62]));
            left /= 62;
            if left == 0 {
                return name;
            }
        }
    }))
}

/// A block of so many tags, each another, that the name check's table puts at one place.
pub fn crowded_tags(n: usize) -> String {
    let names = (0..).map(|number| format!("t{number}"));
    tags(names.filter(|name| is_crowded(name)).take(n))
}

/// So many frames, each with so many tags.
pub fn framed_tags(frames: usize, each: usize) -> String {
    let mut text = String::from("data_x\n");
    for frame in 0..frames {
        let _ = writeln!(text, "save_f{frame}");
        for number in 0..each {
            let _ = writeln!(text, "_t{number} .");
        }
        text.push_str("save_\n");
    }
    text
}

/// A block of these tags, each with a value.
fn tags(names: impl Iterator<Item = String>) -> String {
    let mut text = String::from("data_x\n");
    for name in names {
        let _ = writeln!(text, "_{name} .");
    }
    text
}

/// Whether the name check's table puts a name of the block among its first 64 places, where soon no
/// place is free: such names it must sort.
fn is_crowded(name: &str) -> bool {
    let mix =
        |hash: u64, byte: u8| hash % (1 << 32) * 698_769_069 + ((hash >> 32) + u64::from(byte));
    let hash = name.bytes().chain([0, 0]).fold(0, mix);
    hash % 12_272 < 64
}
