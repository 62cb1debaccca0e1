//! What a run reached. Every kind is named before the run; one that is still 0 behind it fails the run.

use std::collections::HashMap;

pub struct Counts {
    lists: Vec<(&'static str, Vec<(&'static str, u64)>)>,
    places: HashMap<(&'static str, &'static str), (usize, usize)>,
    matrices: Vec<Matrix>,
}

/// A table of counts; none where a row does not apply to a column.
pub struct Matrix {
    pub name: &'static str,
    pub columns: Vec<&'static str>,
    pub rows: Vec<(&'static str, Vec<Option<u64>>)>,
}

impl Matrix {
    /// Each row with the columns, by number, to which it applies.
    pub fn new(name: &'static str, columns: &[&'static str], rows: &[(&'static str, &[usize])]) -> Matrix {
        let rows = rows
            .iter()
            .map(|(row, applies)| {
                (*row, (0..columns.len()).map(|column| applies.contains(&column).then_some(0)).collect())
            })
            .collect();
        Matrix { name, columns: columns.to_vec(), rows }
    }
}

impl Counts {
    pub fn new() -> Counts {
        let mut counts = Counts { lists: Vec::new(), places: HashMap::new(), matrices: crate::seen::matrices() };
        for (list, labels) in crate::seen::lists() {
            for (at, label) in labels.iter().enumerate() {
                let twice = counts.places.insert((list, label), (counts.lists.len(), at));
                assert!(twice.is_none(), "{list}: {label} stands twice");
            }
            counts.lists.push((list, labels.iter().map(|label| (*label, 0)).collect()));
        }
        counts
    }

    pub fn hit(&mut self, list: &'static str, label: &'static str) {
        self.add(list, label, 1);
    }

    pub fn add(&mut self, list: &'static str, label: &'static str, count: u64) {
        let (list, at) = *self.places.get(&(list, label)).unwrap_or_else(|| panic!("not a kind: {list}: {label}"));
        self.lists[list].1[at].1 += count;
    }

    pub fn cell(&mut self, matrix: usize, row: usize, column: usize) {
        let matrix = &mut self.matrices[matrix];
        let (name, cells) = &mut matrix.rows[row];
        match &mut cells[column] {
            Some(count) => *count += 1,
            None => panic!("{}: {name} does not apply to {}", matrix.name, matrix.columns[column]),
        }
    }

    /// Every kind that was never reached.
    pub fn missing(&self) -> Vec<String> {
        let mut missing = Vec::new();
        for matrix in &self.matrices {
            for (row, cells) in &matrix.rows {
                for (column, cell) in matrix.columns.iter().zip(cells) {
                    if *cell == Some(0) {
                        missing.push(format!("{}: {row}, {column}", matrix.name));
                    }
                }
            }
        }
        for (list, lines) in &self.lists {
            for (label, count) in lines {
                if *count == 0 {
                    missing.push(format!("{list}: {label}"));
                }
            }
        }
        missing
    }

    pub fn print(&self) {
        for matrix in &self.matrices {
            println!("{}", matrix.name);
            let shown = |cell: &Option<u64>| cell.map_or("-".to_string(), |count| count.to_string());
            let cells = matrix.rows.iter().flat_map(|(_, cells)| cells.iter().map(|cell| shown(cell).len()));
            let width = cells.chain(matrix.columns.iter().map(|column| column.len())).max().unwrap_or(0) + 2;
            let first = matrix.rows.iter().map(|(row, _)| row.len()).max().unwrap_or(0) + 2;
            let line = |name: &str, cells: Vec<String>| {
                let cells: String = cells.iter().map(|cell| format!("{cell:>width$}")).collect();
                println!("  {name:<first$}{cells}");
            };
            line("", matrix.columns.iter().map(|column| column.to_string()).collect());
            for (row, cells) in &matrix.rows {
                line(row, cells.iter().map(shown).collect());
            }
            println!();
        }
        for (list, lines) in &self.lists {
            println!("{list}");
            for (label, count) in lines {
                println!("  {count:>9}  {label}");
            }
            println!();
        }
    }
}
