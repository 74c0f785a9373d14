//! The tags that are asked for.

use std::ffi::OsString;

use chuntarek::Record;

/// The tags that are asked for; without any, all are.
pub struct Wanted {
    tags: Vec<WantedTag>,
}

struct WantedTag {
    name: Vec<u8>,
    found: bool,
}

impl Wanted {
    /// Tags as people write them, with or without the `_`.
    pub fn new(tags: &[OsString]) -> Wanted {
        let tag = |word: &OsString| {
            let word = word.as_encoded_bytes();
            WantedTag {
                name: word.strip_prefix(b"_").unwrap_or(word).to_vec(),
                found: false,
            }
        };
        Wanted {
            tags: tags.iter().map(tag).collect(),
        }
    }

    /// Whether no tag is named, so that all are asked for.
    pub fn is_all(&self) -> bool {
        self.tags.is_empty()
    }

    /// Whether this tag is asked for; then it is known to be there.
    pub fn takes(&mut self, tag: &Record) -> bool {
        let name = tag.content.unwrap_or_default();
        for tag in &mut self.tags {
            tag.found |= tag.is(name);
        }
        self.has(name)
    }

    /// Whether the tag of this name is asked for.
    pub fn has(&self, name: &[u8]) -> bool {
        self.is_all() || self.tags.iter().any(|tag| tag.is(name))
    }

    /// The tags that were asked for and have not been found.
    pub fn missing(&self) -> impl Iterator<Item = String> + '_ {
        let missing = self.tags.iter().filter(|tag| !tag.found);
        missing.map(|tag| format!("_{}", String::from_utf8_lossy(&tag.name)))
    }
}

impl WantedTag {
    /// CIF tells names apart without regard to letter case.
    fn is(&self, name: &[u8]) -> bool {
        self.name.eq_ignore_ascii_case(name)
    }
}
