//! Files for the strict reading: several blocks, marks inside quotes, fields in column 1 and out of it,
//! names and lines at their limits, and now and then a slip that the reading refuses.

use super::File;
use crate::model::{is_line_end, LONGEST_LINE};

/// Something that should not stand where an item may.
const SLIPS: [&str; 20] = [
    "loop_x _a 1",
    "loop__a 1",
    "loop_#c",
    "stop_",
    "global_",
    "save_",
    "save_g _a 1",
    "data_",
    "_",
    "_a",
    "_a data_y",
    "_a stop_",
    "_a _",
    "loop_",
    "loop_ _",
    "loop_ _a _b 1",
    "loop_ _a [",
    "'b",
    "\n;b",
    "\n;b\n;c",
];

impl File<'_> {
    pub(super) fn strict_blocks(&mut self) {
        if self.random.once_in(3) {
            self.strict_gap();
        }
        for _ in 0..1 + self.random.below(6) / 4 {
            self.strict_block();
        }
        if self.random.once_in(40) {
            let byte = self.random.pick(&["\x00", "\x0b", "\x0c", "\x1f", "\x7f"]);
            self.put(byte);
        }
        if self.random.once_in(2) {
            self.strict_gap();
        }
    }

    /// A heading with its items and frames; the space before what follows belongs to it.
    fn strict_block(&mut self) {
        self.keyword("data_");
        self.strict_name(75);
        self.strict_gap();
        for _ in 0..self.random.below(5) {
            match self.random.below(40) {
                0..=8 => self.strict_frame(),
                9 => self.strict_slip(),
                _ => self.strict_item(),
            }
            self.strict_gap();
        }
    }

    fn strict_frame(&mut self) {
        self.keyword("save_");
        self.strict_name(75);
        self.strict_gap();
        for _ in 0..self.random.below(4) {
            self.strict_item();
            self.strict_gap();
        }
        if self.random.once_in(20) {
            self.strict_slip();
            self.strict_gap();
        }
        if !self.random.once_in(20) {
            self.keyword("save_");
        }
    }

    fn strict_slip(&mut self) {
        let slip = self.random.pick(&SLIPS);
        self.put(slip);
    }

    fn strict_item(&mut self) {
        if !self.random.once_in(3) {
            self.strict_tag();
            self.strict_gap();
            self.strict_value();
            return;
        }
        self.keyword("loop_");
        let tags = 1 + self.random.below(3);
        for _ in 0..tags {
            self.strict_gap();
            self.strict_tag();
        }
        let rows = match self.random.below(20) {
            0 => 0,
            _ => 1 + self.random.below(3),
        };
        let surplus = usize::from(self.random.once_in(20));
        for _ in 0..tags * rows + surplus {
            self.strict_gap();
            self.strict_value();
        }
    }

    fn strict_tag(&mut self) {
        self.put("_");
        self.strict_name(74);
    }

    /// A name that is seldom empty, and now and then about as long as is allowed.
    fn strict_name(&mut self, longest: usize) {
        const NAMES: [&str; 12] = [
            "a", "A", "b", "[", "{", "cell.a", "Cell.A", "#", "'x'", ";", "loop_", "1",
        ];
        match self.random.below(80) {
            0 => {}
            1..=3 => {
                let length = longest - 1 + self.random.below(3);
                self.put(&"n".repeat(length));
            }
            _ => {
                let name = self.random.pick(&NAMES);
                self.put(name);
            }
        }
    }

    /// Space and comments, seldom none.
    fn strict_gap(&mut self) {
        const GAPS: [&str; 14] = [
            " ",
            " ",
            " ",
            "\n",
            "\n",
            "\n",
            "\t",
            "\r\n",
            "\r",
            "\n\r",
            " # it's;\n",
            "\n#\"c\r",
            "\n\n",
            " \n \t",
        ];
        match self.random.below(600) {
            0..=5 => {}
            6 => {
                let ending = self.random.pick(&["\n", "\n", "\r\n", "\x0c\n"]);
                self.put(" #");
                self.fill_line(ending);
            }
            _ => {
                let gap = self.random.pick(&GAPS);
                self.put(gap);
            }
        }
    }

    /// Letters and this ending, so that the line becomes about as long as is allowed.
    fn fill_line(&mut self, ending: &str) {
        let back = self.text.iter().rev();
        let on_line = back.take_while(|byte| !is_line_end(**byte)).count();
        let visible = ending.trim_end_matches(['\n', '\r']).len();
        let full = LONGEST_LINE - 1 + self.random.below(7) / 2;
        let letters = full.saturating_sub(on_line + visible);
        self.put(&"w".repeat(letters));
        self.put(ending);
    }

    fn strict_value(&mut self) {
        match self.random.below(240) {
            0..=19 => self.put("."),
            20..=39 => self.put("?"),
            40..=99 => self.number(),
            100..=139 => self.strict_quoted(),
            140..=169 => self.strict_field(),
            170 => self.strict_long_value(),
            _ => self.strict_bare(),
        }
    }

    /// Marks inside, most of them not before space, so that they don't close.
    fn strict_quoted(&mut self) {
        const INSIDE: [&str; 14] = [
            "", "a", " ", "'s", "\"x", "'", "\"", "''", "#", ";", "\t", "loop_", "_x ", "1",
        ];
        let mark = self.random.pick(&["'", "\""]);
        self.put(mark);
        for _ in 0..self.random.below(5) {
            let inside = self.random.pick(&INSIDE);
            self.put(inside);
        }
        self.put(mark);
    }

    /// A text field, mostly opened at the start of a line, and seldom glued to what follows.
    fn strict_field(&mut self) {
        const PARTS: [&str; 10] = [
            "line", "\n", "\r", "\r\n", "\n\r", " ;", "'", "#", ";", "\t",
        ];
        if !self.random.once_in(8) {
            self.put("\n");
        }
        self.put(";");
        for _ in 0..self.random.below(6) {
            let part = self.random.pick(&PARTS);
            self.put(part);
        }
        let end = self
            .random
            .pick(&["\n;", "\n;", "\n;", "\r\n;", "\r;", "\n;#", "\n;x"]);
        self.put(end);
    }

    /// A word, a quote or a field with a line about as long as is allowed.
    fn strict_long_value(&mut self) {
        match self.random.below(5) {
            0 => self.fill_line("\n"),
            1 => {
                self.put(" ;");
                self.fill_line("\n");
            }
            2 => {
                self.put("'");
                self.fill_line("'\n");
            }
            3 => {
                self.put("\n;");
                self.fill_line("\n;");
            }
            _ => {
                self.put("\n;\n");
                self.fill_line("\r\n;");
            }
        }
    }

    fn strict_bare(&mut self) {
        const WORDS: [&str; 28] = [
            "C",
            "a'b",
            "a' ",
            "x#y",
            "P21/c",
            "1e",
            "1e+",
            "1E-(2)",
            "1()",
            "1.2.3",
            "+",
            "(1)",
            "1(2",
            ".x",
            "?x",
            "..",
            "??",
            ".5.",
            ";b",
            ";",
            "loop_x",
            "STOP_x",
            "global_1",
            "loo",
            "dat_",
            "{x}",
            "a;",
            "1234567890e+",
        ];
        let word = self.random.pick(&WORDS);
        self.put(word);
    }
}
