//! Makes a text smaller while what was found in it stays.

/// Simple bytes, simplest first; a byte is only replaced by one that stands before it.
const SIMPLE: &[u8] = b" a1\n_";

/// How many bytes may be tried in all, each text counted with its length and one more.
const BUDGET: usize = 20_000_000;

/// A small text of which `keeps` still holds.
pub fn shrink(text: &[u8], keeps: impl Fn(&[u8]) -> bool) -> Vec<u8> {
    let mut small = text.to_vec();
    let mut budget = BUDGET;
    loop {
        let length = small.len();
        small = without_pieces(small, &keeps, &mut budget);
        let bytes = small.clone();
        small = simpler_bytes(small, &keeps, &mut budget);
        if budget == 0 || (small.len() == length && small == bytes) {
            return small;
        }
    }
}

/// Leaves out pieces, long ones first.
fn without_pieces(
    mut text: Vec<u8>,
    keeps: &impl Fn(&[u8]) -> bool,
    budget: &mut usize,
) -> Vec<u8> {
    let mut size = text.len().max(1);
    while size > 0 {
        let mut at = 0;
        while at < text.len() && *budget > 0 {
            let end = (at + size).min(text.len());
            let shorter = [&text[..at], &text[end..]].concat();
            if tried(&shorter, keeps, budget) {
                text = shorter;
            } else {
                at += size;
            }
        }
        size /= 2;
    }
    text
}

/// Puts simpler bytes in.
fn simpler_bytes(mut text: Vec<u8>, keeps: &impl Fn(&[u8]) -> bool, budget: &mut usize) -> Vec<u8> {
    for at in 0..text.len() {
        if *budget == 0 {
            break;
        }
        let old = text[at];
        let lower = [old.to_ascii_lowercase()];
        let simpler = SIMPLE.iter().chain(&lower);
        for new in simpler.take_while(|new| **new != old) {
            text[at] = *new;
            if tried(&text, keeps, budget) {
                break;
            }
            text[at] = old;
        }
    }
    text
}

fn tried(text: &[u8], keeps: &impl Fn(&[u8]) -> bool, budget: &mut usize) -> bool {
    *budget = budget.saturating_sub(text.len() + 1);
    *budget > 0 && keeps(text)
}

#[cfg(test)]
mod tests {
    use super::*;

    #[test]
    fn what_is_needed_stays() {
        let needs = |text: &[u8]| text.contains(&b'x') && text.contains(&b'y');
        assert_eq!(shrink(b"__x____y\n\n\nz", needs), b"xy");
        let long = |text: &[u8]| text.len() >= 3;
        assert_eq!(shrink(b"qwertz", long), b"   ");
        let letter = |text: &[u8]| {
            text.first()
                .is_some_and(|byte| byte.eq_ignore_ascii_case(&b'q'))
        };
        assert_eq!(shrink(b"Qx", letter), b"q");
        assert_eq!(shrink(b"", |_| true), b"");
    }

    #[test]
    fn a_long_text_is_tried_a_few_times() {
        let tries = std::cell::Cell::new(0);
        let never = |_: &[u8]| {
            tries.set(tries.get() + 1);
            false
        };
        let text = vec![b'x'; 8_000_000];
        assert_eq!(shrink(&text, never), text);
        assert!(tries.get() <= 5);
    }
}
