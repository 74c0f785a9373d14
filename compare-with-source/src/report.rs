//! Counts what came of the texts and keeps the smallest input of each kind.

use std::collections::BTreeMap;
use std::fmt::Write;

use crate::compare::Verdict;
use crate::shrink::shrink;

/// How often a kind was met, and its smallest input so far.
struct Found {
    count: u64,
    smallest: Vec<u8>,
}

/// The counts of a run.
#[derive(Default)]
pub struct Report {
    texts: u64,
    same: BTreeMap<u8, u64>,
    set_apart: BTreeMap<String, Found>,
    different: BTreeMap<String, Found>,
}

impl Report {
    /// Takes up what came of one text. `judge` answers for smaller texts.
    pub fn add(&mut self, text: &[u8], verdict: Verdict, judge: impl Fn(&[u8]) -> Verdict) {
        self.texts += 1;
        match &verdict {
            Verdict::Same(number) => *self.same.entry(*number).or_default() += 1,
            Verdict::SetApart(reason) => {
                let keeps = |text: &[u8]| judge(text) == verdict;
                note(&mut self.set_apart, reason, text, keeps);
            }
            Verdict::Different(what) => {
                let keeps = |text: &[u8]| judge(text) == verdict;
                note(&mut self.different, what, text, keeps);
            }
        }
    }

    /// How many texts were taken up.
    pub fn texts(&self) -> u64 {
        self.texts
    }

    /// Whether nothing differed that should not.
    pub fn is_clean(&self) -> bool {
        self.different.is_empty()
    }

    /// The counts in lines, and the smallest inputs. `by_both` says that the source answered too.
    pub fn lines(&self, by_both: bool) -> String {
        let mut out = String::new();
        put_count(&mut out, "texts", self.texts);
        let both = if by_both { " by both" } else { "" };
        for (number, count) in &self.same {
            match number {
                0 => put_count(&mut out, &format!("read{both}"), *count),
                _ => put_count(&mut out, &format!("refused{both}: {number}"), *count),
            }
        }
        put_found(&mut out, "set apart", &self.set_apart);
        put_found(&mut out, "DIFFERENT", &self.different);
        if self.is_clean() {
            out.push_str("no difference\n");
        }
        out
    }
}

fn put_count(out: &mut String, what: &str, count: u64) {
    let _ = writeln!(out, "{count:>10}  {what}");
}

fn put_found(out: &mut String, heading: &str, found: &BTreeMap<String, Found>) {
    for (kind, found) in found {
        put_count(out, &format!("{heading}: {kind}"), found.count);
        let _ = writeln!(out, "{:12}as {}", "", escaped(&found.smallest));
    }
}

/// Counts a kind; an input is made smaller when it is the first or shorter than those before.
fn note(
    found: &mut BTreeMap<String, Found>,
    kind: &str,
    text: &[u8],
    keeps: impl Fn(&[u8]) -> bool,
) {
    if let Some(known) = found.get_mut(kind) {
        known.count += 1;
        if text.len() < known.smallest.len() {
            known.smallest = shrink(text, keeps);
        }
        return;
    }
    let smallest = shrink(text, keeps);
    found.insert(kind.to_string(), Found { count: 1, smallest });
}

/// A text in one line of printable letters, cut where it is very long.
pub fn escaped(text: &[u8]) -> String {
    const MOST: usize = 200;
    let mut out = String::from("`");
    for byte in text.iter().take(MOST) {
        match byte {
            b'\n' => out.push_str("\\n"),
            b'\r' => out.push_str("\\r"),
            b'\t' => out.push_str("\\t"),
            b'\\' => out.push_str("\\\\"),
            32..=126 => out.push(char::from(*byte)),
            _ => drop(write!(out, "\\x{byte:02x}")),
        }
    }
    out.push('`');
    if text.len() > MOST {
        let _ = write!(out, " and {} bytes more", text.len() - MOST);
    }
    out
}

#[cfg(test)]
mod tests {
    use super::*;

    #[test]
    fn the_smallest_input_is_kept() {
        let judge = |text: &[u8]| match text.contains(&b'x') {
            true => Verdict::Different(String::from("an x")),
            false => Verdict::Same(0),
        };
        let mut report = Report::default();
        for text in [&b"abc"[..], b"aaxbb", b"x"] {
            report.add(text, judge(text), judge);
        }
        assert!(!report.is_clean());
        assert_eq!(report.texts(), 3);
        let lines = report.lines(false);
        assert!(lines.contains("2  DIFFERENT: an x"), "{lines}");
        assert!(lines.contains("as `x`"), "{lines}");
    }
}
