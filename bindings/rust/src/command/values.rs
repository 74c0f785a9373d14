//! `values`: tags and their values, single ones as lines and loops as tables.

use std::ffi::OsStr;
use std::io::{self, Write};

use chuntarek::{Document, Kind, Reading, Record, Records};

use super::arguments::Wish;
use super::cell;
use super::input::{self, Input};
use super::message;
use super::status::Status;
use super::table::{Columns, Layout};
use super::wanted::Wanted;

/// Writes the values of a file: all, or those of the tags that are named.
pub fn file(
    reading: Reading,
    file: &OsStr,
    wish: &Wish,
    out: &mut impl Write,
) -> io::Result<Status> {
    let Some(input) = input::open(file) else {
        return Ok(Status::Failed);
    };
    let document = match Document::read_as(reading, &input.text) {
        Ok(document) => document,
        Err(refusal) => {
            message::say(&message::refused(reading, &input, &refusal));
            return Ok(Status::Refused);
        }
    };
    let mut tables = Tables::new(Wanted::new(&wish.tags), wish.layout, out);
    tables.all(&document)?;
    let wanted = tables.wanted;
    out.flush()?;
    Ok(missing(&input, &wanted))
}

/// One line for each tag that was asked for and is nowhere.
fn missing(input: &Input, wanted: &Wanted) -> Status {
    let mut status = Status::Done;
    for tag in wanted.missing() {
        message::say(&format!("chuntarek: {}: there is no tag {tag}", input.name));
        status = Status::Refused;
    }
    status
}

/// Writes tables, each under the heading of its block or frame.
struct Tables<'a, W> {
    wanted: Wanted,
    layout: Layout,
    out: &'a mut W,
    /// Whether a table stands above, from which the next one is set apart.
    begun: bool,
}

/// The block or frame that records are in, and the one whose heading was written last.
#[derive(Clone, Copy)]
struct Section<'d> {
    block: Record<'d>,
    current: Record<'d>,
    headed: Option<Record<'d>>,
    /// Whether the file has more blocks than one.
    among_blocks: bool,
}

impl Section<'_> {
    /// The block, or the frame; behind its block, where the file has several.
    fn heading(&self) -> String {
        let (mut heading, mut block) = (String::new(), String::new());
        cell::write(&self.current, &mut heading);
        if self.among_blocks && self.current != self.block {
            cell::write(&self.block, &mut block);
            heading = format!("{block} {heading}");
        }
        heading
    }
}

impl<'a, W: Write> Tables<'a, W> {
    fn new(wanted: Wanted, layout: Layout, out: &'a mut W) -> Tables<'a, W> {
        Tables {
            wanted,
            layout,
            out,
            begun: false,
        }
    }

    fn all(&mut self, document: &Document) -> io::Result<()> {
        let mut records = document.records();
        let Some(block) = records.next() else {
            return Ok(());
        };
        let among_blocks = records.clone().any(|record| record.kind == Kind::Block);
        // Who asks for certain tags knows the block, if there is only one.
        let is_known = !among_blocks && !self.wanted.is_all();
        let mut section = Section {
            block,
            current: block,
            headed: is_known.then_some(block),
            among_blocks,
        };
        let mut here = records.clone();
        while let Some(record) = records.next() {
            match record.kind {
                Kind::Block => (section.block, section.current) = (record, record),
                Kind::FrameOpen => section.current = record,
                Kind::FrameClose => section.current = section.block,
                Kind::Tag => records = self.singles(here, &mut section)?,
                Kind::Loop => records = self.whole_loop(records, &record, &mut section)?,
                _ => {}
            }
            here = records.clone();
        }
        Ok(())
    }

    /// An empty line between tables, and a heading where block or frame is another.
    fn begin(&mut self, section: &mut Section) -> io::Result<()> {
        if self.begun {
            writeln!(self.out)?;
        }
        self.begun = true;
        if section.headed != Some(section.current) {
            section.headed = Some(section.current);
            writeln!(self.out, "{}", section.heading())?;
        }
        Ok(())
    }

    /// Single tags that follow one another, as one table of two columns. Gives what comes after.
    fn singles<'d>(
        &mut self,
        records: Records<'d>,
        section: &mut Section<'d>,
    ) -> io::Result<Records<'d>> {
        let mut columns = Columns::new(self.layout, 2);
        let mut text = String::new();
        let mut shown = false;
        each_single(records.clone(), |tag, _| {
            if self.wanted.takes(tag) {
                shown = true;
                cell::write(tag, &mut text);
                columns.measure(0, &text);
            }
            Ok(())
        })?;
        if shown {
            self.begin(section)?;
        }
        each_single(records, |tag, value| {
            if self.wanted.takes(tag) {
                cell::write(tag, &mut text);
                columns.write(0, &text, self.out)?;
                cell::write(value, &mut text);
                columns.write(1, &text, self.out)?;
            }
            Ok(())
        })
    }

    /// A loop as a table: a row of tags, then its values row by row. Gives what comes after.
    fn whole_loop<'d>(
        &mut self,
        mut records: Records<'d>,
        opening: &Record<'d>,
        section: &mut Section<'d>,
    ) -> io::Result<Records<'d>> {
        let count = usize::try_from(opening.tags.unwrap_or(0)).unwrap_or(0);
        let first_tag = records.clone();
        let tags = records.by_ref().take(count);
        let shown = Shown::new(tags.map(|tag| self.wanted.takes(&tag)));
        let mut columns = Columns::new(self.layout, shown.count);
        let mut text = String::new();
        let after = each_cell(first_tag.clone(), &shown, |column, record| {
            cell::write(record, &mut text);
            columns.measure(column, &text);
            Ok(())
        })?;
        if shown.count > 0 {
            self.begin(section)?;
            each_cell(first_tag, &shown, |column, record| {
                cell::write(record, &mut text);
                columns.write(column, &text, self.out)
            })?;
        }
        Ok(after)
    }
}

/// Which columns of a loop are shown, and as which columns of its table.
struct Shown {
    places: Vec<Option<usize>>,
    count: usize,
}

impl Shown {
    fn new(wanted: impl Iterator<Item = bool>) -> Shown {
        let mut count = 0;
        let mut place = |wanted: bool| {
            wanted.then(|| {
                count += 1;
                count - 1
            })
        };
        Shown {
            places: wanted.map(&mut place).collect(),
            count,
        }
    }
}

/// Goes over single tags and their values for as long as they follow one another.
fn each_single<'d>(
    mut records: Records<'d>,
    mut action: impl FnMut(&Record<'d>, &Record<'d>) -> io::Result<()>,
) -> io::Result<Records<'d>> {
    loop {
        let mut after = records.clone();
        match (after.next(), after.next()) {
            (Some(tag), Some(value)) if tag.kind == Kind::Tag => action(&tag, &value)?,
            _ => return Ok(records),
        }
        records = after;
    }
}

/// Goes over a loop's tags and values that are shown, with the columns they belong to.
fn each_cell<'d>(
    mut records: Records<'d>,
    shown: &Shown,
    mut action: impl FnMut(usize, &Record<'d>) -> io::Result<()>,
) -> io::Result<Records<'d>> {
    let mut places = shown.places.iter().cycle();
    for record in records.by_ref() {
        if record.kind == Kind::LoopEnd {
            break;
        }
        if let Some(Some(column)) = places.next() {
            action(*column, &record)?;
        }
    }
    Ok(records)
}

#[cfg(test)]
mod tests {
    use super::*;
    use std::ffi::OsString;

    fn written(text: &[u8], tags: &[&str], layout: Layout) -> String {
        written_as(Reading::First, text, tags, layout)
    }

    fn written_as(reading: Reading, text: &[u8], tags: &[&str], layout: Layout) -> String {
        let document = Document::read_as(reading, text).expect("the text is read");
        let tags: Vec<OsString> = tags.iter().map(OsString::from).collect();
        let mut out = Vec::new();
        let mut tables = Tables::new(Wanted::new(&tags), layout, &mut out);
        tables.all(&document).expect("a vector has room");
        String::from_utf8(out).expect("tables are text")
    }

    #[test]
    fn single_tags_and_loops_are_tables() {
        let text = b"data_t\n_a 1.50(2)\n_long 'b c'\nloop_ _b _c\nx ?\ny\n;z\n;\n";
        assert_eq!(
            written(text, &[], Layout::Aligned),
            "data_t\n_a     1.50(2)\n_long  b c\n\n_b  _c\nx   ?\ny   z\\n\n"
        );
        assert_eq!(
            written(text, &[], Layout::Tabs),
            "data_t\n_a\t1.50(2)\n_long\tb c\n\n_b\t_c\nx\t?\ny\tz\\n\n"
        );
    }

    #[test]
    fn only_the_tags_that_are_asked_for_are_shown() {
        let text = b"data_t _a 1 _b 2 loop_ _c _d _e 3 4 5 6 7 8 loop_ _f 9";
        assert_eq!(written(text, &["_b"], Layout::Aligned), "_b  2\n");
        assert_eq!(
            written(text, &["E", "c", "a"], Layout::Tabs),
            "_a\t1\n\n_c\t_e\n3\t5\n6\t8\n"
        );
        assert_eq!(written(text, &["g"], Layout::Aligned), "");
    }

    #[test]
    fn frames_have_headings_and_the_block_has_its_own_again() {
        let text = b"data_t _a 1 save_f _a 2 save_ save_g save_ _b 3";
        assert_eq!(
            written(text, &[], Layout::Aligned),
            "data_t\n_a  1\n\nsave_f\n_a  2\n\ndata_t\n_b  3\n"
        );
        assert_eq!(
            written(text, &["a"], Layout::Aligned),
            "_a  1\n\nsave_f\n_a  2\n"
        );
        assert_eq!(written(text, &["b"], Layout::Aligned), "_b  3\n");
    }

    #[test]
    fn each_of_several_blocks_is_named() {
        let text = b"data_x _a 1 _b 2 save_f _a 3 save_ data_empty data_y save_f _a 4 save_ _a 5 data_y _c 6";
        let aligned = |tags: &[&str]| written_as(Reading::Strict, text, tags, Layout::Aligned);
        assert_eq!(
            aligned(&[]),
            "data_x\n_a  1\n_b  2\n\ndata_x save_f\n_a  3\n\ndata_y save_f\n_a  4\n\ndata_y\n_a  5\n\ndata_y\n_c  6\n"
        );
        assert_eq!(
            aligned(&["a"]),
            "data_x\n_a  1\n\ndata_x save_f\n_a  3\n\ndata_y save_f\n_a  4\n\ndata_y\n_a  5\n"
        );
        assert_eq!(aligned(&["c"]), "data_y\n_c  6\n");
    }

    /// The reading makes no difference to a file of one block.
    #[test]
    fn one_block_is_named_as_ever() {
        let text = b"data_x _a 1 save_f _a 2 save_";
        for reading in [Reading::First, Reading::Strict] {
            let tabs = |tags: &[&str]| written_as(reading, text, tags, Layout::Tabs);
            assert_eq!(tabs(&[]), "data_x\n_a\t1\n\nsave_f\n_a\t2\n");
            assert_eq!(tabs(&["a"]), "_a\t1\n\nsave_f\n_a\t2\n");
        }
    }

    #[test]
    fn a_loop_without_rows_is_a_row_of_tags() {
        assert_eq!(
            written(b"data_t loop_ _a _b", &[], Layout::Aligned),
            "data_t\n_a  _b\n"
        );
    }

    #[test]
    fn a_block_without_items_has_nothing_to_show() {
        assert_eq!(written(b"data_t", &[], Layout::Aligned), "");
    }

    #[test]
    fn tags_that_were_found_are_known() {
        let document = Document::read(b"data_t _a 1").expect("the text is read");
        let mut out = Vec::new();
        let tags = ["A".into(), "_b".into()];
        let mut tables = Tables::new(Wanted::new(&tags), Layout::Tabs, &mut out);
        tables.all(&document).expect("a vector has room");
        assert_eq!(tables.wanted.missing().collect::<Vec<String>>(), ["_b"]);
    }
}
