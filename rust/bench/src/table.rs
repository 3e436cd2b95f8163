//! The tables of results.

use crate::timing::Measured;
use std::fmt;

/// The columns of a measured workload.
pub const MEASURED: [&str; 12] = [
    "workload",
    "count",
    "proved us",
    "(median)",
    "reference us",
    "(median)",
    "ratio",
    "(median)",
    "ns each",
    "proved GB/s",
    "reference GB/s",
    "copy GB/s",
];

/// The row of a measured workload.
pub fn measured(measured: &Measured) -> Vec<String> {
    let Measured {
        name,
        bytes,
        copied,
        count,
        proved,
        plain,
        copy,
    } = measured;
    let micros = |seconds: f64| format!("{:.2}", seconds * 1e6);
    let rate = |bytes: &usize, seconds: f64| format!("{:.2}", *bytes as f64 / seconds / 1e9);
    vec![
        name.to_string(),
        count.to_string(),
        micros(proved.best),
        micros(proved.median),
        micros(plain.best),
        micros(plain.median),
        format!("{:.2}", proved.best / plain.best),
        format!("{:.2}", proved.median / plain.median),
        format!("{:.1}", proved.best / *count as f64 * 1e9),
        rate(bytes, proved.best),
        rate(bytes, plain.best),
        rate(copied, copy.best),
    ]
}

/// Rows of text, aligned when printed.
pub struct Table {
    rows: Vec<Vec<String>>,
}

impl Table {
    /// A table with its head only.
    pub fn new(heads: &[&str]) -> Self {
        Table {
            rows: vec![heads.iter().map(|head| head.to_string()).collect()],
        }
    }

    /// Adds a row, as long as the head.
    pub fn row(&mut self, cells: Vec<String>) {
        assert_eq!(cells.len(), self.rows[0].len());
        self.rows.push(cells);
    }
}

impl fmt::Display for Table {
    fn fmt(&self, f: &mut fmt::Formatter<'_>) -> fmt::Result {
        let widest = |column: usize| self.rows.iter().map(|row| row[column].len()).max();
        let widths: Vec<usize> = (0..self.rows[0].len()).filter_map(widest).collect();
        for row in &self.rows {
            write!(f, "{:<width$}", row[0], width = widths[0])?;
            for (cell, width) in row.iter().zip(&widths).skip(1) {
                write!(f, "  {cell:>width$}")?;
            }
            writeln!(f)?;
        }
        Ok(())
    }
}
