//! Tables in markdown.

pub struct Table {
    rows: Vec<Vec<String>>,
}

impl Table {
    pub fn new(head: &[&str]) -> Self {
        Table {
            rows: vec![head.iter().map(|cell| cell.to_string()).collect()],
        }
    }

    pub fn row(&mut self, cells: Vec<String>) {
        assert_eq!(cells.len(), self.rows[0].len(), "a cell to a column");
        self.rows.push(cells);
    }

    /// Prints the table under a heading. All columns but the first are numbers.
    pub fn print(&self, heading: &str) {
        println!("### {heading}\n");
        let width = |i: usize| {
            self.rows
                .iter()
                .map(|row| row[i].chars().count())
                .max()
                .unwrap_or(0)
        };
        let widths: Vec<usize> = (0..self.rows[0].len()).map(width).collect();
        for (number, row) in self.rows.iter().enumerate() {
            let cells = row.iter().zip(&widths).enumerate();
            let cells = cells.map(|(i, (cell, &width))| match i {
                0 => format!("{cell:<width$}"),
                _ => format!("{cell:>width$}"),
            });
            println!("| {} |", cells.collect::<Vec<_>>().join(" | "));
            if number == 0 {
                let rule = |(i, width): (usize, &usize)| match i {
                    0 => "-".repeat(width + 2),
                    _ => "-".repeat(width + 1) + ":",
                };
                let rules: Vec<String> = widths.iter().enumerate().map(rule).collect();
                println!("|{}|", rules.join("|"));
            }
        }
        println!();
    }
}

/// A number with commas.
pub fn whole(number: usize) -> String {
    let digits = number.to_string();
    let groups: Vec<&str> = digits
        .as_bytes()
        .rchunks(3)
        .rev()
        .map(|g| str::from_utf8(g).expect("digits"))
        .collect();
    groups.join(",")
}

/// Microseconds, a dash where there are none.
pub fn micros(time: Option<f64>) -> String {
    match time {
        None => "–".to_string(),
        Some(time) if time < 1_000.0 => format!("{time:.1}"),
        Some(time) => whole(time.round() as usize),
    }
}

/// One time as a multiple of another.
pub fn ratio(time: Option<f64>, of: Option<f64>) -> String {
    match (time, of) {
        (Some(time), Some(of)) if time / of < 100.0 => format!("{:.2}", time / of),
        (Some(time), Some(of)) => whole((time / of).round() as usize),
        _ => "–".to_string(),
    }
}
