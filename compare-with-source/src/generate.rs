//! Random texts: files from a grammar, damaged copies of such files, and rows of fragments. Each reading
//! has its own mix of them; that of the first stays as it is, so that its seeds keep their texts.

#[cfg(any(test, feature = "library"))]
pub mod pairs;
mod strict;

use crate::exhaustive::fragments;
use crate::random::Random;
use crate::reading::Reading;

/// The random text of this seed and number, out of the mix that is made for a reading.
pub fn text(mix: Reading, seed: u64, number: u64) -> Vec<u8> {
    let mut random = Random::new(seed, number);
    match random.below(10) {
        0..=3 => file(mix, &mut random),
        4..=6 => damaged(mix, &mut random),
        _ => soup(mix, &mut random),
    }
}

/// Fragments in a row, half of the time with a space between.
fn soup(mix: Reading, random: &mut Random) -> Vec<u8> {
    let mut text = Vec::new();
    if !random.once_in(8) {
        text.extend(b"data_x ");
    }
    for _ in 0..random.below(24) {
        text.extend(random.pick(fragments(mix)).as_bytes());
        if random.once_in(2) {
            text.push(b' ');
        }
    }
    text
}

/// A file that is well formed but for rare slips.
fn file(mix: Reading, random: &mut Random) -> Vec<u8> {
    let mut file = File {
        text: Vec::new(),
        random,
    };
    match mix {
        Reading::First => file.block(),
        Reading::Strict => file.strict_blocks(),
    }
    file.text
}

/// A file in the making.
struct File<'a> {
    text: Vec<u8>,
    random: &'a mut Random,
}

impl File<'_> {
    fn put(&mut self, words: &str) {
        self.text.extend(words.as_bytes());
    }

    /// A keyword, in any letter case now and then.
    fn keyword(&mut self, keyword: &str) {
        let mixed = self.random.once_in(6);
        for byte in keyword.bytes() {
            let upper = mixed && self.random.once_in(2);
            self.text.push(if upper {
                byte.to_ascii_uppercase()
            } else {
                byte
            });
        }
    }

    fn block(&mut self) {
        if self.random.once_in(3) {
            self.gap();
        }
        self.keyword("data_");
        self.name();
        for _ in 0..self.random.below(5) {
            self.gap();
            if self.random.once_in(4) {
                self.frame();
            } else {
                self.item();
            }
        }
        if self.random.once_in(2) {
            self.gap();
        }
    }

    fn frame(&mut self) {
        self.keyword("save_");
        self.name();
        for _ in 0..self.random.below(4) {
            self.gap();
            self.item();
        }
        if self.random.once_in(12) {
            self.gap();
            self.slip();
        }
        self.gap();
        if !self.random.once_in(12) {
            self.keyword("save_");
        }
    }

    /// Something that is no item.
    fn slip(&mut self) {
        const SLIPS: [&str; 8] = [
            "_a",
            "loop_ _a _b 1",
            "x",
            "'",
            ";",
            "loop_",
            "_a $",
            "stop_",
        ];
        let slip = self.random.pick(&SLIPS);
        self.put(slip);
    }

    fn item(&mut self) {
        if self.random.once_in(3) {
            self.whole_loop();
        } else {
            self.tag();
            self.gap();
            self.value();
        }
    }

    fn whole_loop(&mut self) {
        self.keyword("loop_");
        let tags = 1 + self.random.below(3);
        for number in 0..tags {
            if number > 0 || !self.random.once_in(6) {
                self.gap();
            }
            self.tag();
        }
        let mut values = tags * self.random.below(4);
        if self.random.once_in(10) {
            values += 1;
        }
        for _ in 0..values {
            self.gap();
            self.value();
        }
    }

    fn tag(&mut self) {
        self.put("_");
        self.name();
    }

    /// A name: any bytes that end no word, perhaps none.
    fn name(&mut self) {
        const NAMES: [&str; 12] = [
            "a",
            "b",
            "cell.length_a",
            "atom_site.id",
            "",
            "#",
            "'x'",
            ";",
            "Save_",
            "\x01~",
            "1",
            "_",
        ];
        let name = self.random.pick(&NAMES);
        self.put(name);
    }

    /// Space and comments, at least one byte but for a rare slip.
    fn gap(&mut self) {
        const GAPS: [&str; 16] = [
            " ",
            " ",
            " ",
            " ",
            "\n",
            "\n",
            "\n",
            "\t",
            "\r\n",
            "\r",
            "\n\r",
            "  \n",
            " # note\n",
            "\n#'quote;\r\n",
            "\n\n",
            "\r\r\n\n\r",
        ];
        if self.random.once_in(40) {
            return;
        }
        for _ in 0..1 + self.random.below(2) {
            let gap = self.random.pick(&GAPS);
            self.put(gap);
        }
    }

    fn value(&mut self) {
        match self.random.below(12) {
            0 => self.put("."),
            1 => self.put("?"),
            2..=5 => self.number(),
            6 => self.quoted("'"),
            7 => self.quoted("\""),
            8 => self.field(),
            _ => self.bare(),
        }
    }

    fn quoted(&mut self, mark: &str) {
        const INSIDE: [&str; 8] = ["", "a b", "#", ";", "_x", "\x0c\t", "loop_", "\x7f"];
        self.put(mark);
        for _ in 0..self.random.below(3) {
            let inside = self.random.pick(&INSIDE);
            self.put(inside);
        }
        let other = if mark == "'" { "\"" } else { "'" };
        if self.random.once_in(4) {
            self.put(other);
        }
        self.put(mark);
    }

    /// A text field, mostly opened at the start of a line.
    fn field(&mut self) {
        const PARTS: [&str; 9] = ["line", "\n", "\r", "\r\n", "\n\r", " ;", "'", "#", ";"];
        if !self.random.once_in(4) {
            self.put("\n");
        }
        self.put(";");
        for _ in 0..self.random.below(6) {
            let part = self.random.pick(&PARTS);
            self.put(part);
        }
        let end = self.random.pick(&["\n;", "\n;", "\r\n;", "\r;"]);
        self.put(end);
    }

    fn bare(&mut self) {
        const WORDS: [&str; 16] = [
            "C", "water", "a'b", "x#y", "P21/c", "1e", "1.2.3", "+", "-x", "(1)", "dat_", "{x}",
            ".a", "?b", "loo", "1(2",
        ];
        let word = self.random.pick(&WORDS);
        self.put(word);
    }

    fn number(&mut self) {
        let sign = self.random.pick(&["", "", "", "-", "+"]);
        self.put(sign);
        self.digits(9);
        if self.random.once_in(2) {
            self.put(".");
            self.digits(18);
        }
        if self.random.once_in(4) {
            let mark = self.random.pick(&["e", "E", "e-", "E+", "e+"]);
            self.put(mark);
            self.exponent();
        }
        if self.random.once_in(4) {
            self.put("(");
            self.digits(9);
            self.put(")");
        }
    }

    /// An exponent near one of the edges of what a float holds, or of the limits.
    fn exponent(&mut self) {
        match self.random.below(8) {
            0 => self.digits(9),
            1 => {
                let size = 290 + self.random.below(50);
                self.put(&size.to_string());
            }
            _ => {
                let size = self.random.below(40);
                self.put(&size.to_string());
            }
        }
    }

    /// A run of digits, mostly short, at times close to its limit.
    fn digits(&mut self, limit: usize) {
        let length = match self.random.below(24) {
            0 => limit + 1 + self.random.below(3),
            1..=3 => limit - self.random.below(2),
            4 => 0,
            _ => 1 + self.random.below(4),
        };
        let zeros = self.random.once_in(5);
        for _ in 0..length {
            let digit = if zeros && !self.random.once_in(3) {
                0
            } else {
                self.random.below(10)
            };
            self.text.push(b'0' + digit as u8);
        }
    }
}

/// A file with one to four places damaged.
fn damaged(mix: Reading, random: &mut Random) -> Vec<u8> {
    let mut text = file(mix, random);
    for _ in 0..1 + random.below(4) {
        damage(mix, &mut text, random);
    }
    text
}

/// Changes one place of a text.
fn damage(mix: Reading, text: &mut Vec<u8>, random: &mut Random) {
    if text.is_empty() {
        text.push(telling_byte(random));
        return;
    }
    let at = random.below(text.len());
    let some = (1 + random.below(8)).min(text.len() - at);
    match random.below(8) {
        0 => text[at] ^= 1 << random.below(7),
        1 => text[at] = telling_byte(random),
        2 => drop(text.drain(at..at + some)),
        3 => text.insert(at, telling_byte(random)),
        4 => insert(text, at, random.pick(fragments(mix)).as_bytes()),
        5 => {
            let copy = text[at..at + some].to_vec();
            insert(text, at, &copy);
        }
        6 => drop(text.remove(at)),
        _ if random.once_in(20) => text[at] |= 128,
        _ if random.once_in(20) => insert(text, at, "\u{e9}".as_bytes()),
        _ if random.once_in(3) => text.truncate(at),
        _ => text.swap(at, at + some - 1),
    }
}

fn insert(text: &mut Vec<u8>, at: usize, piece: &[u8]) {
    let tail = text.split_off(at);
    text.extend(piece);
    text.extend(tail);
}

fn telling_byte(random: &mut Random) -> u8 {
    const BYTES: &[u8] = b" \t\n\r\x0c#'\";_.?$[]()+-eE019adlst\x00\x0b\x7f";
    BYTES[random.below(BYTES.len())]
}

#[cfg(test)]
mod tests {
    use super::*;
    use crate::model;

    const MIXES: [Reading; 2] = [Reading::First, Reading::Strict];

    #[test]
    fn a_text_depends_on_mix_seed_and_number_only() {
        for mix in MIXES {
            assert_eq!(text(mix, 3, 99), text(mix, 3, 99));
            assert!((0..20).any(|number| text(mix, 3, number) != text(mix, 4, number)));
        }
    }

    #[test]
    fn most_files_are_read() {
        for mix in MIXES {
            let read = (0..400)
                .filter(|number| {
                    let file = file(mix, &mut Random::new(5, *number));
                    model::read(mix, &file).is_ok()
                })
                .count();
            assert!(read > 150, "only {read} of 400 files are read: {mix:?}");
        }
    }
}
