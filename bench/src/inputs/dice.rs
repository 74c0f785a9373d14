//! Numbers and words that look random and are the same in every run.

/// A xorshift generator.
pub struct Dice(u64);

const WORDS: [&str; 24] = [
    "the",
    "of",
    "a",
    "in",
    "value",
    "atom",
    "site",
    "this",
    "data",
    "item",
    "element",
    "and",
    "compound",
    "is",
    "crystal",
    "factor",
    "symmetry",
    "which",
    "names",
    "category",
    "record",
    "parameter",
    "pointer",
    "angstroms",
];

impl Dice {
    pub fn new() -> Self {
        Dice(0x9E37_79B9_7F4A_7C15)
    }

    /// A number below `bound`.
    pub fn below(&mut self, bound: usize) -> usize {
        self.0 ^= self.0 << 13;
        self.0 ^= self.0 >> 7;
        self.0 ^= self.0 << 17;
        (self.0 >> 11) as usize % bound
    }

    pub fn one_of<'a>(&mut self, choices: &[&'a str]) -> &'a str {
        choices[self.below(choices.len())]
    }

    pub fn word(&mut self) -> &'static str {
        self.one_of(&WORDS)
    }

    /// Words in one line of at most so many bytes.
    pub fn line(&mut self, most: usize) -> String {
        let mut line = String::from(self.word());
        loop {
            let word = self.word();
            if line.len() + 1 + word.len() > most {
                return line;
            }
            line.push(' ');
            line.push_str(word);
        }
    }

    /// A decimal from 0 to below `range`, with so many digits behind the point.
    pub fn decimal(&mut self, range: usize, digits: usize) -> String {
        let scale = 10usize.pow(digits as u32);
        let (whole, part) = (self.below(range), self.below(scale));
        format!("{whole}.{part:0digits$}")
    }

    /// The same with a sign at times.
    pub fn signed(&mut self, range: usize, digits: usize) -> String {
        let sign = self.one_of(&["", "-"]);
        format!("{sign}{}", self.decimal(range, digits))
    }

    /// The same with an uncertainty in brackets.
    pub fn uncertain(&mut self, range: usize, digits: usize) -> String {
        let number = self.signed(range, digits);
        format!("{number}({})", 1 + self.below(20))
    }
}

#[cfg(test)]
mod tests {
    use super::*;

    #[test]
    fn runs_are_alike() {
        let (mut one, mut two) = (Dice::new(), Dice::new());
        assert_eq!(one.line(60), two.line(60));
        assert_eq!(one.uncertain(9, 4), two.uncertain(9, 4));
    }

    #[test]
    fn lines_keep_their_limit() {
        let mut dice = Dice::new();
        assert!((0..100).all(|_| dice.line(40).len() <= 40));
    }
}
