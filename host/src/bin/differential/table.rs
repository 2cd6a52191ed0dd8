//! A table of counts that knows which of its cells can be met: those must be, and no others.

#[derive(Clone, Copy)]
struct Cell {
    possible: bool,
    met: u64,
}

pub struct Table {
    columns: Vec<String>,
    rows: Vec<(String, Vec<Cell>)>,
}

impl Table {
    /// `possible` is asked of a row and a column by their places.
    pub fn new(rows: Vec<String>, columns: Vec<String>, possible: impl Fn(usize, usize) -> bool) -> Table {
        let width = columns.len();
        let cells = |row| (0..width).map(|column| Cell { possible: possible(row, column), met: 0 }).collect();
        Table { columns, rows: rows.into_iter().enumerate().map(|(row, name)| (name, cells(row))).collect() }
    }

    pub fn count(&mut self, row: usize, column: usize) {
        self.rows[row].1[column].met += 1;
    }

    pub fn of_column(&self, column: usize) -> u64 {
        self.rows.iter().map(|(_, cells)| cells[column].met).sum()
    }

    /// The cells that should have been met and were not, or the other way round.
    pub fn amiss(&self) -> Vec<String> {
        let mut amiss = Vec::new();
        for (row, cells) in &self.rows {
            for (column, cell) in self.columns.iter().zip(cells) {
                match (cell.possible, cell.met) {
                    (true, 0) => amiss.push(format!("{column}, {row}: was not met")),
                    (false, 1..) => amiss.push(format!("{column}, {row}: was met and should not be")),
                    _ => {}
                }
            }
        }
        amiss
    }

    pub fn print(&self) {
        let name_width = self.rows.iter().map(|(name, _)| name.len()).max().unwrap_or(0);
        let line = |name: &str, cells: Vec<String>| {
            let cells: String = cells.iter().map(|cell| format!(" {cell:>12}")).collect();
            println!("{name:<name_width$}{cells}");
        };
        line("", self.columns.clone());
        for (name, cells) in &self.rows {
            let shown = |cell: &Cell| if cell.possible || cell.met > 0 { cell.met.to_string() } else { ".".into() };
            line(name, cells.iter().map(shown).collect());
        }
        line("all", (0..self.columns.len()).map(|column| self.of_column(column).to_string()).collect());
    }
}

/// A name for every choice of one from each part, the last part changing fastest.
pub fn crossed(parts: &[&[&str]]) -> Vec<String> {
    parts.iter().fold(Vec::new(), |names, part| match names.is_empty() {
        true => part.iter().map(|name| name.to_string()).collect(),
        false => names.iter().flat_map(|first| part.iter().map(move |name| format!("{first}, {name}"))).collect(),
    })
}
