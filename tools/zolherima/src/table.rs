//! Plain text: tables whose columns are aligned, bars, and lists of numbers.

use std::fmt;

/// The most columns that a line should have.
pub const LINE: usize = 80;

/// Where the cells of a column stand.
#[derive(Clone, Copy, Debug, PartialEq, Eq)]
pub enum Side {
    Left,
    Right,
}

/// Rows of cells, with two blanks between columns.
pub struct Table {
    sides: Vec<Side>,
    rows: Vec<Vec<String>>,
}

impl Table {
    pub fn new(sides: Vec<Side>) -> Table {
        let rows = Vec::new();
        Table { sides, rows }
    }

    /// As many cells as there are columns; the last ones may be left out.
    pub fn row(&mut self, cells: impl IntoIterator<Item = String>) {
        self.rows.push(cells.into_iter().collect());
    }

    /// How long the longest line can be.
    pub fn width(&self) -> usize {
        let widths = self.widths();
        widths.iter().sum::<usize>() + 2 * widths.len().saturating_sub(1)
    }

    fn widths(&self) -> Vec<usize> {
        let widest = |column: usize| {
            let cells = self.rows.iter().filter_map(|row| row.get(column));
            cells.map(|cell| length(cell)).max().unwrap_or(0)
        };
        (0..self.sides.len()).map(widest).collect()
    }

    fn line(&self, row: &[String], widths: &[usize]) -> String {
        let columns = self.sides.iter().zip(widths);
        let cells = row.iter().zip(columns);
        let cells: Vec<String> = cells
            .map(|(cell, (side, width))| padded(cell, *side, *width))
            .collect();
        cells.join("  ").trim_end().to_string()
    }
}

impl fmt::Display for Table {
    fn fmt(&self, to: &mut fmt::Formatter<'_>) -> fmt::Result {
        let widths = self.widths();
        self.rows
            .iter()
            .try_for_each(|row| writeln!(to, "{}", self.line(row, &widths)))
    }
}

fn length(text: &str) -> usize {
    text.chars().count()
}

fn padded(text: &str, side: Side, width: usize) -> String {
    let blanks = " ".repeat(width.saturating_sub(length(text)));
    match side {
        Side::Left => format!("{text}{blanks}"),
        Side::Right => format!("{blanks}{text}"),
    }
}

/// A part of the widest bar, which stands for the most. What is not nothing has a bar.
pub fn bar(part: u32, most: u32, widest: usize) -> String {
    let share = u64::from(part) * widest as u64 / u64::from(most.max(1));
    let least = u64::from(part.min(1));
    "#".repeat((share.max(least) as usize).min(widest))
}

/// A name that is cut where it is too long for its place.
pub fn cut(name: &str, most: usize) -> String {
    match length(name) <= most {
        true => name.to_string(),
        false => {
            name.chars()
                .take(most.saturating_sub(1))
                .collect::<String>()
                + "…"
        }
    }
}

/// The first and the last of numbers that follow one another, of numbers in rising order.
pub fn runs(numbers: impl IntoIterator<Item = usize>) -> Vec<(usize, usize)> {
    let mut runs: Vec<(usize, usize)> = Vec::new();
    for number in numbers {
        match runs.last_mut() {
            Some((_, last)) if *last + 1 == number => *last = number,
            _ => runs.push((number, number)),
        }
    }
    runs
}

/// Numbers in rising order, in words.
pub fn listed(numbers: impl IntoIterator<Item = usize>) -> String {
    let run = |(first, last): (usize, usize)| match last - first {
        0 => first.to_string(),
        1 => format!("{first}, {last}"),
        _ => format!("{first} to {last}"),
    };
    let runs: Vec<String> = runs(numbers).into_iter().map(run).collect();
    runs.join(", ")
}

#[cfg(test)]
mod tests {
    use super::*;

    #[test]
    fn columns_are_aligned() {
        let mut table = Table::new(vec![Side::Left, Side::Right, Side::Left]);
        table.row(["connection", "URLs", "marks"].map(String::from));
        table.row(["a", "3", "x ."].map(String::from));
        table.row(["b…", "11", ""].map(String::from));
        table.row(["all".to_string()]);
        let lines = "connection  URLs  marks\na              3  x .\nb…            11\nall\n";
        assert_eq!(table.to_string(), lines);
        assert_eq!(table.width(), "connection  URLs  marks".len());
    }

    #[test]
    fn a_table_may_be_empty() {
        let mut table = Table::new(Vec::new());
        assert_eq!((table.to_string(), table.width()), (String::new(), 0));
        table.row(["more cells than columns".to_string()]);
        assert_eq!(table.to_string(), "\n");
    }

    #[test]
    fn bars_are_in_proportion() {
        let of = |part, most| bar(part, most, 10).len();
        assert_eq!([of(0, 8), of(1, 8), of(4, 8), of(8, 8)], [0, 1, 5, 10]);
        assert_eq!([of(1, u32::MAX), of(u32::MAX, u32::MAX)], [1, 10]);
        assert_eq!([of(0, 0), of(9, 0)], [0, 10]);
    }

    #[test]
    fn names_are_cut() {
        assert_eq!(cut("top-up", 6), "top-up");
        assert_eq!(cut("top-up", 5), "top-…");
        assert_eq!(cut("top-up", 0), "…");
    }

    #[test]
    fn numbers_are_listed() {
        assert_eq!(runs([0, 1, 2, 5, 7, 8]), [(0, 2), (5, 5), (7, 8)]);
        assert_eq!(listed([0, 1, 2, 5, 7, 8]), "0 to 2, 5, 7, 8");
        assert_eq!(listed([]), "");
    }
}
