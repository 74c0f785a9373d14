//! The fixed list: texts with the source's answers, in a form that a small program can replay.
//! README.md describes the bytes.

use std::collections::{BTreeMap, HashSet};
use std::fs;
use std::path::Path;

use crate::answer::{as_told, Answer, Thing, Told};
use crate::compare::{self, Verdict};
use crate::generate;
use crate::reading::Reading;
use crate::source;

/// The first bytes of a list.
const MARK: &[u8; 8] = b"cifreads";

/// The longest text of a list, and the longest entry.
const LONGEST_TEXT: usize = 120;
const LONGEST_ENTRY: usize = 1300;

/// Texts that every list begins with: document 01's readings that the source can answer.
const FIRST: [&str; 18] = [
    "",
    "data_",
    "data_x data_y",
    "data_x loop_ _a",
    "data_x loop_ _a _b 1 2 3",
    "data_x _a 'b",
    "data_x loop_ _a 1 'b",
    "data_x save_f _a save_",
    "data_x save_f save_g",
    "data_x loop_ _a .5.",
    "data_x _a .5.",
    "data_x\x0c",
    "data_x _a 1e+",
    "data_x _a 1()",
    "data_x _a 1e(5)",
    "data_x _a 1e",
    "data_x _a 123456789",
    "data_t\n_a 1.50(2)\nloop_ _b _c\nx ?\n",
];

/// How many of a hundred texts have this answer.
const SHARES: [(u8, usize); 6] = [(0, 50), (3, 4), (4, 12), (5, 11), (6, 11), (7, 12)];

/// Writes a list of about so many texts; answers how many texts and bytes it has.
pub fn write(
    file: &Path,
    count: usize,
    seed: u64,
    judge: impl Fn(&[u8]) -> Verdict,
) -> Result<(usize, usize), String> {
    let texts = choose(count, seed, judge);
    let mut entries = Vec::new();
    for text in &texts {
        let start = entries.len();
        put_entry(&mut entries, text, &told(text));
        assert!(
            entries.len() - start <= LONGEST_ENTRY,
            "a short text has a short entry"
        );
    }
    let mut bytes = MARK.to_vec();
    bytes.extend((texts.len() as u32).to_le_bytes());
    bytes.extend((entries.len() as u32).to_le_bytes());
    bytes.extend(entries);
    fs::write(file, &bytes).map_err(|error| format!("{}: {error}", file.display()))?;
    Ok((texts.len(), bytes.len()))
}

/// Comparable texts, each once, by the shares of their answers.
fn choose(count: usize, seed: u64, judge: impl Fn(&[u8]) -> Verdict) -> Vec<Vec<u8>> {
    let mut left: BTreeMap<u8, usize> = SHARES
        .iter()
        .map(|(number, share)| (*number, count * share / 100))
        .collect();
    let mut seen = HashSet::new();
    let mut texts = Vec::new();
    let first = FIRST.iter().map(|text| text.as_bytes().to_vec());
    let random =
        (0..count as u64 * 1000).map(|number| generate::text(Reading::First, seed, number));
    for text in first.chain(random) {
        if text.len() > LONGEST_TEXT || seen.contains(&text) {
            continue;
        }
        let Verdict::Same(number) = judge(&text) else {
            continue;
        };
        let Some(room) = left.get_mut(&number).filter(|room| **room > 0) else {
            continue;
        };
        *room -= 1;
        seen.insert(text.clone());
        texts.push(text);
        if left.values().all(|room| *room == 0) {
            break;
        }
    }
    texts
}

fn put_entry(out: &mut Vec<u8>, text: &[u8], told: &Told) {
    match told {
        Told::Read(things) => put_read(out, text, things),
        Told::Refused(refusal) => {
            let column = refusal.column.unwrap_or(0);
            let number = refusal.number.into();
            put_head(
                out,
                text,
                [number, refusal.line, column, refusal.detail],
                [0; 3],
            );
            out.extend(text);
        }
        Told::Panicked(words) => unreachable!("{words}: such a text is not chosen"),
    }
}

/// The source's answer.
fn told(text: &[u8]) -> Told {
    source::read(std::str::from_utf8(text).expect("a chosen text is ASCII"))
}

fn put_head(out: &mut Vec<u8>, text: &[u8], refusal: [usize; 4], counts: [usize; 3]) {
    for field in [text.len()].iter().chain(&refusal).chain(&counts) {
        let small = u16::try_from(*field).expect("a chosen text is short");
        out.extend(small.to_le_bytes());
    }
}

fn put_read(out: &mut Vec<u8>, text: &[u8], things: &[Thing]) {
    let numbers: Vec<_> = things.iter().filter(|thing| thing.kind >= 14).collect();
    let area: Vec<u8> = things
        .iter()
        .flat_map(|thing| thing.content.clone())
        .collect();
    put_head(out, text, [0; 4], [things.len(), area.len(), numbers.len()]);
    out.extend(text);
    for thing in things {
        out.push(thing.kind);
        out.extend(amount(thing).to_le_bytes());
    }
    out.extend(area);
    for number in numbers {
        out.extend(number.bits.to_le_bytes());
    }
}

/// What stands beside the kind: a content's length, a loop's tags, an uncertainty, or 0.
fn amount(thing: &Thing) -> u32 {
    match thing.kind {
        1 | 2 | 4 | 6 | 10 => thing.content.len() as u32,
        _ => thing.amount,
    }
}

/// Holds every entry of a list to our own answer, and to the source's where it is at hand; answers
/// how many there are.
pub fn check(
    file: &Path,
    answer: impl Fn(&[u8]) -> Result<Answer, String>,
) -> Result<usize, String> {
    let bytes = fs::read(file).map_err(|error| format!("{}: {error}", file.display()))?;
    let (count, mut rest) = opened(&bytes)?;
    for number in 0..count {
        let length = entry_length(rest).ok_or(format!("entry {number} is cut off"))?;
        let (entry, after) = rest.split_at(length);
        check_entry(entry, &answer).map_err(|what| format!("entry {number}: {what}"))?;
        rest = after;
    }
    if rest.is_empty() {
        Ok(count)
    } else {
        Err(String::from("bytes stand behind the last entry"))
    }
}

/// The number of entries and their bytes.
fn opened(bytes: &[u8]) -> Result<(usize, &[u8]), String> {
    let (head, entries) = bytes
        .split_first_chunk::<16>()
        .filter(|(head, _)| head.starts_with(MARK))
        .ok_or("this is no list")?;
    let field = |at: usize| {
        let bytes = [head[at], head[at + 1], head[at + 2], head[at + 3]];
        u32::from_le_bytes(bytes) as usize
    };
    if entries.len() != field(12) {
        return Err(String::from("the list has another length than it says"));
    }
    Ok((field(8), entries))
}

/// The length of the entry that stands first, if it is whole.
fn entry_length(rest: &[u8]) -> Option<usize> {
    let head = rest.get(..16)?;
    let length = 16 + half(head, 0) + 5 * half(head, 5) + half(head, 6) + 8 * half(head, 7);
    (length <= rest.len()).then_some(length)
}

/// A field of two bytes of an entry's head.
fn half(head: &[u8], field: usize) -> usize {
    u16::from_le_bytes([head[2 * field], head[2 * field + 1]]).into()
}

fn check_entry(
    entry: &[u8],
    answer: &impl Fn(&[u8]) -> Result<Answer, String>,
) -> Result<(), String> {
    let text = &entry[16..16 + half(entry, 0)];
    let ours = answer(text)?;
    if compare::compare(text, &ours) != Verdict::Same(half(entry, 1) as u8) {
        return Err(String::from("our answer is another"));
    }
    is_entry(entry, text, &as_told(&ours), "our answer is another")?;
    match source::AT_HAND {
        true => is_entry(entry, text, &told(text), "the source's answer is another"),
        false => Ok(()),
    }
}

/// Whether this answer makes this entry.
fn is_entry(entry: &[u8], text: &[u8], told: &Told, otherwise: &str) -> Result<(), String> {
    let mut now = Vec::new();
    put_entry(&mut now, text, told);
    if now == entry {
        Ok(())
    } else {
        Err(String::from(otherwise))
    }
}

#[cfg(test)]
mod tests {
    use super::*;
    use crate::model;

    fn answer(text: &[u8]) -> Result<Answer, String> {
        Ok(model::read(Reading::First, text))
    }

    fn judge(text: &[u8]) -> Verdict {
        compare::compare(text, &model::read(Reading::First, text))
    }

    #[test]
    fn the_first_texts_are_comparable() {
        for text in FIRST {
            assert!(matches!(judge(text.as_bytes()), Verdict::Same(_)), "{text}");
        }
    }

    #[cfg(has_source)]
    #[test]
    fn a_written_list_holds() {
        let file = std::env::temp_dir().join(format!("cifreads-{}", std::process::id()));
        let (texts, _) = write(&file, 200, 1, judge).expect("a list can be written");
        assert_eq!(check(&file, answer), Ok(texts));
        let mut bytes = fs::read(&file).expect("the list is there");
        let first_answer = 16 + 2;
        bytes[first_answer] ^= 1;
        fs::write(&file, &bytes).expect("the list can be changed");
        assert!(check(&file, answer).is_err());
        fs::remove_file(&file).expect("the list can be removed");
    }

    #[test]
    fn an_entry_has_the_bytes_described() {
        let mut out = Vec::new();
        let text = b"data_x _a 1(2)";
        put_entry(&mut out, text, &as_told(&model::read(Reading::First, text)));
        let head = [14, 0, 0, 0, 0, 0, 0, 0, 0, 0, 3, 0, 2, 0, 1, 0];
        assert_eq!(out[..16], head);
        assert_eq!(out[30..45], [1, 1, 0, 0, 0, 4, 1, 0, 0, 0, 15, 2, 0, 0, 0]);
        assert_eq!(out[45..47], *b"xa");
        assert_eq!(out[47..], 1f64.to_bits().to_le_bytes());
        assert_eq!(entry_length(&out), Some(out.len()));
    }
}
