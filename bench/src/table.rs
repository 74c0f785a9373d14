//! Tables of plain text: the first column stands left, the others right.

/// A table with its heads.
pub struct Table {
    rows: Vec<Vec<String>>,
}

impl Table {
    /// A table without rows. A head may have several lines.
    pub fn new(heads: &[&str]) -> Self {
        let height = heads.iter().map(|head| head.lines().count()).max();
        let line = |number: usize| {
            let words = heads
                .iter()
                .map(|head| head.lines().nth(number).unwrap_or(""));
            words.map(String::from).collect()
        };
        Table {
            rows: (0..height.unwrap_or(0)).map(line).collect(),
        }
    }

    pub fn row(&mut self, cells: Vec<String>) {
        self.rows.push(cells);
    }

    /// The table, each column as wide as its widest cell.
    pub fn shown(&self) -> String {
        let columns = self.rows.iter().map(Vec::len).max().unwrap_or(0);
        let width = |column: usize| {
            let cells = self.rows.iter().filter_map(|row| row.get(column));
            cells.map(|cell| cell.chars().count()).max().unwrap_or(0)
        };
        let widths: Vec<usize> = (0..columns).map(width).collect();
        self.rows
            .iter()
            .map(|row| shown_row(row, &widths))
            .collect()
    }
}

fn shown_row(row: &[String], widths: &[usize]) -> String {
    let mut line = String::new();
    for (column, (cell, width)) in row.iter().zip(widths).enumerate() {
        match column {
            0 => line.push_str(&format!("{cell:<width$}")),
            _ => line.push_str(&format!("  {cell:>width$}")),
        }
    }
    format!("{}\n", line.trim_end())
}

/// A number with two digits behind the point, or `-` where there is none.
pub fn figure(number: Option<f64>) -> String {
    number.map_or_else(|| String::from("-"), |number| format!("{number:.2}"))
}

#[cfg(test)]
mod tests {
    use super::*;

    #[test]
    fn columns_are_aligned() {
        let mut table = Table::new(&["input", "ns\nfor a byte"]);
        table.row(vec![String::from("long name"), figure(Some(1.5))]);
        table.row(vec![String::from("x"), figure(None)]);
        let expected = "input              ns\n           for a byte\nlong name        1.50\nx                   -\n";
        assert_eq!(table.shown(), expected);
    }
}
