//! How many inputs of each kind there were, and what was in them.

use crate::Kind;

/// A column of the table: its name and its width.
pub type Column = (&'static str, usize);

/// What is counted in every test; a test may have more.
const COLUMNS: [Column; 2] = [("inputs", 10), ("bytes", 14)];
const RECORDS_WIDTH: usize = 12;
const INPUTS: usize = 0;
const RECORDS: usize = 2;

pub struct Counts<K> {
    columns: Vec<Column>,
    rows: Vec<(K, Vec<u64>)>,
}

impl<K: Kind> Counts<K> {
    /// What the test calls the records of an input, and what it counts beside.
    pub fn new(records: &'static str, more: &[Column]) -> Counts<K> {
        let columns = [&COLUMNS[..], &[(records, RECORDS_WIDTH)], more].concat();
        let none = vec![0; columns.len()];
        Counts {
            rows: K::ALL.iter().map(|&kind| (kind, none.clone())).collect(),
            columns,
        }
    }

    /// Counts an input, its bytes, the records in it, and what else the test counts.
    pub fn add(&mut self, kind: K, bytes: usize, records: u64, more: &[u64]) {
        let one = [&[1, bytes as u64, records], more].concat();
        let row = self.rows.iter_mut().find(|(of, _)| *of == kind);
        let (_, row) = row.expect("every kind has its row");
        add(row, &one);
    }

    fn total(&self) -> Vec<u64> {
        let mut total = vec![0; self.columns.len()];
        self.rows.iter().for_each(|(_, row)| add(&mut total, row));
        total
    }

    pub fn progress(&self, seconds: f64) -> String {
        let total = self.total();
        let (inputs, records) = (total[INPUTS], total[RECORDS]);
        let (name, _) = self.columns[RECORDS];
        let rate = inputs as f64 / seconds;
        format!("{seconds:.0} s: {inputs} inputs, {records} {name}, {rate:.0} inputs per second")
    }

    pub fn print(&self) {
        self.print_row("kind", self.columns.iter().map(|(name, _)| name));
        for (kind, row) in &self.rows {
            self.print_row(kind.name(), row.iter());
        }
        self.print_row("all", self.total().iter());
    }

    fn print_row<T: std::fmt::Display>(&self, name: &str, cells: impl Iterator<Item = T>) {
        let cells = cells.zip(&self.columns);
        let cells: String = cells
            .map(|(cell, (_, width))| format!("{cell:>width$}"))
            .collect();
        println!("{name:<26}{cells}");
    }

    /// The kinds that did not occur.
    pub fn missing(&self) -> impl Iterator<Item = K> + '_ {
        let missing = |(_, row): &&(K, Vec<u64>)| row[INPUTS] == 0;
        self.rows.iter().filter(missing).map(|(kind, _)| *kind)
    }
}

fn add(to: &mut [u64], counts: &[u64]) {
    for (sum, count) in to.iter_mut().zip(counts) {
        *sum += count;
    }
}

#[cfg(test)]
mod tests {
    use super::*;

    #[test]
    fn inputs_are_counted_by_kind() {
        let mut counts = Counts::new("lines", &[("more", 5)]);
        counts.add('b', 3, 4, &[5]);
        counts.add('b', 1, 0, &[2]);
        counts.add('c', 0, 1, &[1]);
        assert_eq!(counts.rows[1].1, [2, 4, 4, 7]);
        assert_eq!(counts.total(), [3, 4, 5, 8]);
        let progress = "2 s: 3 inputs, 5 lines, 2 inputs per second";
        assert_eq!(counts.progress(2.0), progress);
    }

    #[test]
    fn a_kind_that_did_not_occur_is_missing() {
        let mut counts = Counts::new("records", &[]);
        counts.add('a', 0, 0, &[]);
        counts.add('c', 0, 0, &[]);
        assert_eq!(counts.missing().collect::<Vec<_>>(), ['b']);
    }
}
