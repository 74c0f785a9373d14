//! Rows of cells: aligned for people, or parted by tabs for programs.

use std::io::{self, Write};

/// How the cells of a row are parted.
#[derive(Debug, Clone, Copy, PartialEq, Eq)]
pub enum Layout {
    Aligned,
    Tabs,
}

/// Columns grow to their widest cell, but no further: one long text shall not push all others away.
const WIDEST: usize = 40;
const GAP: usize = 2;

/// The columns of one table: their widths are measured first, then rows are written.
pub struct Columns {
    layout: Layout,
    widths: Vec<usize>,
}

impl Columns {
    pub fn new(layout: Layout, count: usize) -> Columns {
        Columns {
            layout,
            widths: vec![0; count],
        }
    }

    /// Makes room for a cell.
    pub fn measure(&mut self, column: usize, cell: &str) {
        if let Some(width) = self.widths.get_mut(column) {
            *width = cell.len().min(WIDEST).max(*width);
        }
    }

    /// Writes a cell, and behind it the gap to the next one or the line's end.
    pub fn write(&self, column: usize, cell: &str, out: &mut impl Write) -> io::Result<()> {
        if column + 1 >= self.widths.len() {
            return writeln!(out, "{cell}");
        }
        let width = self.widths.get(column).copied().unwrap_or(0);
        match self.layout {
            Layout::Tabs => write!(out, "{cell}\t"),
            Layout::Aligned => write!(out, "{cell:width$}{:GAP$}", ""),
        }
    }
}

#[cfg(test)]
mod tests {
    use super::*;

    fn written(layout: Layout, rows: &[[&str; 2]]) -> String {
        let mut columns = Columns::new(layout, 2);
        for row in rows {
            columns.measure(0, row[0]);
            columns.measure(1, row[1]);
        }
        let mut out = Vec::new();
        for row in rows {
            columns
                .write(0, row[0], &mut out)
                .expect("a vector has room");
            columns
                .write(1, row[1], &mut out)
                .expect("a vector has room");
        }
        String::from_utf8(out).expect("cells are text")
    }

    #[test]
    fn columns_are_as_wide_as_their_widest_cell() {
        assert_eq!(
            written(Layout::Aligned, &[["_a", "1"], ["_long", "2 3"]]),
            "_a     1\n_long  2 3\n"
        );
    }

    #[test]
    fn a_very_long_cell_does_not_widen_its_column() {
        let long = "x".repeat(50);
        assert_eq!(
            written(Layout::Aligned, &[["_a", "1"], [&long, "2"]]),
            format!("_a{}1\n{long}  2\n", " ".repeat(40))
        );
    }

    #[test]
    fn tabs_part_the_cells() {
        assert_eq!(
            written(Layout::Tabs, &[["_a", "1"], ["_long", ""]]),
            "_a\t1\n_long\t\n"
        );
    }
}
