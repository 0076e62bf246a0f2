//! What bench.sh measured, read back from the lines it prints.

use crate::growth::{Line, Point};
use std::collections::BTreeMap;

/// Instructions by column and workload.
pub struct Measured(BTreeMap<(String, String), u64>);

/// The columns that hold instructions.
const COLUMNS: [&str; 4] = ["floor", "plain", "nested", "library"];

/// The sign of an engine below its floor, and what stands below the table then.
pub const BELOW_FLOOR: &str = " *";
pub const BELOW_FLOOR_NOTE: &str =
    "* An engine is below its floor, which is a limit only for programs that test one thing at a time.";

impl Measured {
    /// The first line names the columns, of which the first is that of the workloads. Each line up to an empty one has a cell for
    /// each of them, and may have the sign at its end.
    pub fn of(table: &str) -> Option<Measured> {
        let mut lines = table.lines();
        let columns: Vec<&str> = lines.next()?.split_whitespace().collect();
        let mut figures = BTreeMap::new();
        for line in lines.take_while(|line| !line.is_empty()) {
            let cells = line.strip_suffix(BELOW_FLOOR).unwrap_or(line).split_whitespace();
            let cells: Vec<&str> = cells.collect();
            if cells.len() != columns.len() {
                return None;
            }
            for (column, cell) in columns.iter().zip(&cells) {
                if COLUMNS.contains(column) {
                    figures.insert((column.to_string(), cells[0].to_string()), cell.parse().ok()?);
                }
            }
        }
        Some(Measured(figures))
    }

    pub fn has(&self, column: &str) -> bool {
        self.0.keys().any(|(name, _)| name == column)
    }

    pub fn figure(&self, column: &str, point: &Point) -> Option<u64> {
        self.0.get(&(column.to_string(), point.workload.clone())).copied()
    }

    /// The points of a line that were measured, each with its figure.
    pub fn points(&self, column: &str, line: &Line) -> Vec<(u64, u64)> {
        line.points.iter().filter_map(|point| Some((point.at, self.figure(column, point)?))).collect()
    }
}

/// 1234567 as 1,234,567.
pub fn grouped(number: u64) -> String {
    let digits = number.to_string();
    let mut text = String::new();
    for (place, digit) in digits.chars().enumerate() {
        if place > 0 && (digits.len() - place).is_multiple_of(3) {
            text.push(',');
        }
        text.push(digit);
    }
    text
}

#[cfg(test)]
pub mod tests {
    use super::*;

    pub const COLUMNS_OF_TABLE: &str = "workload floor plain nested library library/plain";

    /// A table in which each workload has figures of its own.
    pub fn table() -> String {
        let line = |(number, name): (usize, String)| {
            let square = number * number;
            format!("{name} {} {} 77 {} 1.00", 100 + square, 1_000 + 37 * square, 900 + 41 * square)
        };
        let lines: Vec<String> = crate::growth::workloads().into_iter().enumerate().map(line).collect();
        format!("{COLUMNS_OF_TABLE}\n{}\n", lines.join("\n"))
    }

    #[test]
    fn of_a_table() {
        let measured = Measured::of(&table()).expect("a table");
        let point = |workload: &str| Point { at: 0, workload: workload.to_string() };
        assert_eq!(measured.figure("floor", &point("check-1-2")), Some(101));
        assert_eq!(measured.figure("plain", &point("check-1-2")), Some(1_037));
        assert_eq!(measured.figure("library", &point("check-1-2")), Some(941));
        assert_eq!(measured.figure("library", &point("check-1-1")), None);
        assert!(measured.has("nested") && !measured.has("workload"));
    }

    #[test]
    fn of_no_table() {
        assert!(Measured::of("").is_none());
        assert!(Measured::of("workload plain\ncheck-0-2 many\n").is_none());
    }

    /// One cell too few or too many, in the last line or before.
    #[test]
    fn of_lines_of_another_length() {
        let lines = |lines: &str| Measured::of(&format!("workload floor plain\n{lines}\n")).is_some();
        assert!(lines("check-0-2 9 176\ncheck-1-2 23 276"));
        for line in ["check-1-2 23", "check-1-2", "check-1-2 23 276 1", " "] {
            assert!(!lines(&format!("check-0-2 9 176\n{line}")), "{line}");
            assert!(!lines(&format!("{line}\ncheck-0-2 9 176")), "{line}");
        }
    }

    #[test]
    fn of_a_line_below_its_floor() {
        let table = format!("workload floor plain\ncheck-0-2 9 8 *\n\n{BELOW_FLOOR_NOTE}\n");
        let measured = Measured::of(&table).expect("a table");
        assert_eq!(measured.figure("plain", &Point { at: 0, workload: "check-0-2".to_string() }), Some(8));
    }

    #[test]
    fn grouped_digits() {
        assert_eq!(grouped(107_916_747), "107,916,747");
        assert_eq!(grouped(120), "120");
    }
}
