//! Growth as tables of Markdown, one for each series: the numbers behind the picture.

use crate::growth::{series, Line, Series};
use crate::measured::{grouped, Measured, BELOW_FLOOR, BELOW_FLOOR_NOTE};

const HEAD: &str = "| floor | plain | library | library / plain |";
const RULE: &str = "|---|---|---|---|";

pub fn tables(measured: &Measured) -> String {
    let tables: Vec<String> = series().iter().map(|series| table(measured, series)).collect();
    let tables = tables.join("\n");
    if tables.contains(BELOW_FLOOR) {
        format!("{tables}\n{BELOW_FLOOR_NOTE}\n")
    } else {
        tables
    }
}

/// Edition 1 on the left, edition 2 on the right.
fn table(measured: &Measured, Series { title, unit, lines }: &Series) -> String {
    let editions = lines.each_ref().map(|line| line.edition.number());
    let [one, two] = editions.map(|edition| HEAD.replace("floor", &format!("edition {edition}: floor")));
    let mut text = format!("{title}:\n\n| {unit} {one}{}\n|---{RULE}{}\n", &two[1..], &RULE[1..]);
    for at in places(lines) {
        let [one, two] = lines.each_ref().map(|line| cells(measured, line, at));
        text += &format!("| {} {one}{}\n", grouped(at), &two[1..]);
    }
    text
}

/// Where one of the lines has a point, in rising order.
fn places(lines: &[Line]) -> Vec<u64> {
    let mut places: Vec<u64> = lines.iter().flat_map(|line| &line.points).map(|point| point.at).collect();
    places.sort_unstable();
    places.dedup();
    places
}

/// Empty where the line has no point or it was not measured.
fn cells(measured: &Measured, line: &Line, at: u64) -> String {
    let point = line.points.iter().find(|point| point.at == at);
    let figure = |column: &str| point.and_then(|point| measured.figure(column, point));
    let (floor, plain, library) = (figure("floor"), figure("plain"), figure("library"));
    let sign = |figure: u64| if floor.is_some_and(|floor| figure < floor) { BELOW_FLOOR } else { "" };
    let text = |figure: Option<u64>| figure.map(|figure| grouped(figure) + sign(figure)).unwrap_or_default();
    let ratio = plain.zip(library).map(|(plain, library)| format!("{:.2}", library as f64 / plain as f64));
    format!("| {} | {} | {} | {} |", text(floor), text(plain), text(library), ratio.unwrap_or_default())
}

#[cfg(test)]
mod tests {
    use super::*;
    use crate::measured::tests::table as measured_table;

    /// A line for each number of slaves that one of the editions has, with nine cells.
    #[test]
    fn of_what_was_measured() {
        let text = tables(&Measured::of(&measured_table()).expect("a table"));
        assert_eq!(text.matches("| edition 1: floor |").count(), series().len());
        let rows = text.lines().filter(|line| line.starts_with("| "));
        assert!(rows.clone().all(|row| row.matches('|').count() == 10), "{text}");
        let numbers: usize = series().iter().map(|series| places(&series.lines).len()).sum();
        assert_eq!(rows.count(), series().len() + numbers);
        assert!(text.contains("\n| 1 | 101 | 1,037 | 941 | 0.91 | "));
        assert!(text.contains("\n| 64 |  |  |  |  | "));
        assert!(!text.contains(BELOW_FLOOR));
    }

    /// The floor itself is not below it.
    #[test]
    fn of_engines_below_their_floor() {
        let columns = "workload floor plain library";
        let text = |line: &str| tables(&Measured::of(&format!("{columns}\n{line}")).expect("a table"));
        let below = text("check-1-2 1000 1000 999");
        assert!(below.contains("\n| 1 | 1,000 | 1,000 | 999 * | 1.00 | "), "{below}");
        assert!(below.ends_with(&format!("\n\n{BELOW_FLOOR_NOTE}\n")), "{below}");
        assert!(text("check-1-2 1000 999 1000").contains("\n| 1 | 1,000 | 999 * | 1,000 | 1.00 | "));
        assert!(!text("check-1-2 1000 1000 1000").contains('*'));
    }
}
