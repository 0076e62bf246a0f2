//! Growth as a picture: what `bench.sh growth` measured, as SVG. A panel for each series, in it a curve for each engine and
//! edition. The colours are readable on light and on dark ground, and engines and editions are told apart without them.

use crate::growth::{series, Series};
use crate::measured::{grouped, Measured};
use model::Edition;
use std::fmt::Write;

const COLUMNS: usize = 2;
const PANEL_WIDTH: f64 = 420.0;
const PANEL_HEIGHT: f64 = 262.0;
const LEGEND_HEIGHT: f64 = 44.0;
/// Of a panel, what lies around the plot: numbers and title.
const LEFT: f64 = 62.0;
const RIGHT: f64 = 22.0;
const TOP: f64 = 30.0;
const BOTTOM: f64 = 46.0;
const MOST_TICKS: u64 = 5;
const TEXT: &str = "#777777";
const GRID: &str = "#7777774d";

/// An engine of the table, and how its curves look.
struct Engine {
    name: &'static str,
    colour: &'static str,
    marker: Marker,
}

#[derive(Clone, Copy)]
enum Marker {
    Circle,
    Square,
}

const ENGINES: [Engine; 2] = [
    Engine { name: "plain", colour: "#3b82d6", marker: Marker::Circle },
    Engine { name: "library", colour: "#d9622b", marker: Marker::Square },
];

pub fn picture(measured: &Measured) -> String {
    let series = series();
    let width = COLUMNS as f64 * PANEL_WIDTH;
    let height = LEGEND_HEIGHT + series.len().div_ceil(COLUMNS) as f64 * PANEL_HEIGHT;
    let mut svg = Svg(String::new());
    let size = format!(r#"viewBox="0 0 {width} {height}" width="{width}" height="{height}""#);
    let font = format!(r#"font-family="sans-serif" font-size="11" fill="{TEXT}""#);
    svg.line(&format!(r#"<svg xmlns="http://www.w3.org/2000/svg" {size} {font}>"#));
    svg.line("<title>Instructions of one call over slaves, entries, frames and bytes</title>");
    svg.legend(measured);
    for (number, series) in series.iter().enumerate() {
        let left = (number % COLUMNS) as f64 * PANEL_WIDTH;
        let top = LEGEND_HEIGHT + (number / COLUMNS) as f64 * PANEL_HEIGHT;
        svg.panel(measured, series, left, top);
    }
    svg.line("</svg>");
    svg.0
}

/// Where the plot of a panel lies, and how far its axes go, which both begin with 0.
struct Plot {
    left: f64,
    top: f64,
    across: Axis,
    up: Axis,
}

impl Plot {
    const WIDTH: f64 = PANEL_WIDTH - LEFT - RIGHT;
    const HEIGHT: f64 = PANEL_HEIGHT - TOP - BOTTOM;

    fn x(&self, at: u64) -> f64 {
        self.left + self.across.part(at) * Plot::WIDTH
    }

    fn y(&self, figure: u64) -> f64 {
        self.top + (1.0 - self.up.part(figure)) * Plot::HEIGHT
    }

    fn bottom(&self) -> f64 {
        self.top + Plot::HEIGHT
    }

    fn right(&self) -> f64 {
        self.left + Plot::WIDTH
    }
}

struct Axis {
    end: u64,
    step: u64,
}

impl Axis {
    /// With few steps of 1, 2 or 5 and zeros, the last one at or behind the greatest number.
    fn up_to(greatest: u64) -> Axis {
        let steps = (0..19).flat_map(|zeros| [1, 2, 5].map(|digit| digit * 10u64.pow(zeros)));
        let step = steps.into_iter().find(|step| greatest.div_ceil(*step) <= MOST_TICKS).unwrap_or(u64::MAX);
        Axis { end: step * greatest.div_ceil(step).max(1), step }
    }

    /// Up to the greatest number itself.
    fn ending_with(greatest: u64) -> Axis {
        Axis { end: greatest.max(1), ..Axis::up_to(greatest) }
    }

    /// In what its numbers are counted, so that they stay short, and its name.
    fn unit(&self) -> (u64, &'static str) {
        match self.step {
            1_000_000.. => (1_000_000, "million instructions"),
            1_000.. => (1_000, "thousand instructions"),
            _ => (1, "instructions"),
        }
    }

    fn part(&self, number: u64) -> f64 {
        number as f64 / self.end as f64
    }

    fn ticks(&self) -> impl Iterator<Item = u64> + '_ {
        (0..=self.end / self.step).map(|tick| tick * self.step)
    }
}

/// The text of the picture.
struct Svg(String);

impl Svg {
    fn line(&mut self, line: &str) {
        self.0.push_str(line);
        self.0.push('\n');
    }

    fn text(&mut self, (x, y): (f64, f64), attributes: &str, text: &str) {
        self.line(&format!(r#"<text x="{x:.1}" y="{y:.1}" {attributes}>{text}</text>"#));
    }

    /// A sample of each curve.
    fn legend(&mut self, measured: &Measured) {
        let (mut left, y) = (LEFT, LEGEND_HEIGHT / 2.0);
        for engine in ENGINES.iter().filter(|engine| measured.has(engine.name)) {
            for edition in Edition::BOTH {
                self.curve(engine, edition, &[(left, y), (left + 18.0, y), (left + 36.0, y)]);
                let words = format!("{}, edition {}", engine.name, edition.number());
                self.text((left + 46.0, y + 4.0), r#"text-anchor="start""#, &words);
                left += 184.0;
            }
        }
    }

    fn panel(&mut self, measured: &Measured, series: &Series, left: f64, top: f64) {
        let engines = ENGINES.iter().filter(|engine| measured.has(engine.name));
        let curves: Vec<_> =
            engines.flat_map(|engine| series.lines.iter().map(move |line| (engine, line))).collect();
        let points: Vec<_> =
            curves.iter().flat_map(|(engine, line)| measured.points(engine.name, line)).collect();
        let plot = Plot {
            left: left + LEFT,
            top: top + TOP,
            across: Axis::ending_with(points.iter().map(|point| point.0).max().unwrap_or(1)),
            up: Axis::up_to(points.iter().map(|point| point.1).max().unwrap_or(1)),
        };
        self.axes(&plot);
        self.text((plot.left, top + 16.0), r#"font-size="13" font-weight="bold""#, series.title);
        let middle = (plot.left + plot.right()) / 2.0;
        self.text((middle, plot.bottom() + 34.0), r#"text-anchor="middle""#, series.unit);
        self.instructions(&plot, left + 12.0);
        for (engine, line) in curves {
            let places: Vec<_> = measured
                .points(engine.name, line)
                .into_iter()
                .map(|(at, figure)| (plot.x(at), plot.y(figure)))
                .collect();
            self.curve(engine, line.edition, &places);
        }
    }

    /// The unit of the axis that goes up, along it.
    fn instructions(&mut self, plot: &Plot, x: f64) {
        let y = (plot.top + plot.bottom()) / 2.0;
        let attributes = format!(r#"text-anchor="middle" transform="rotate(-90 {x:.1} {y:.1})""#);
        self.text((x, y), &attributes, plot.up.unit().1);
    }

    fn axes(&mut self, plot: &Plot) {
        let mut grid = String::new();
        for tick in plot.up.ticks() {
            let y = plot.y(tick);
            let _ = write!(grid, "M{:.1} {y:.1}H{:.1}", plot.left, plot.right());
            self.text((plot.left - 6.0, y + 4.0), r#"text-anchor="end""#, &grouped(tick / plot.up.unit().0));
        }
        for tick in plot.across.ticks() {
            let x = plot.x(tick);
            let _ = write!(grid, "M{x:.1} {:.1}V{:.1}", plot.top, plot.bottom());
            self.text((x, plot.bottom() + 16.0), r#"text-anchor="middle""#, &grouped(tick));
        }
        self.line(&format!(r#"<path d="{grid}" stroke="{GRID}" fill="none"/>"#));
    }

    /// Edition 1 is a whole line with filled markers, edition 2 a broken one with open ones, which are larger, so that both
    /// are seen where they meet.
    fn curve(&mut self, engine: &Engine, edition: Edition, places: &[(f64, f64)]) {
        let Engine { colour, marker, .. } = engine;
        let (dashes, fill, half) = match edition {
            Edition::One => ("", *colour, 2.6),
            Edition::Two => (r#" stroke-dasharray="5 3""#, "none", 4.2),
        };
        let points: Vec<String> = places.iter().map(|(x, y)| format!("{x:.1},{y:.1}")).collect();
        let points = points.join(" ");
        self.line(&format!(
            r#"<polyline points="{points}" stroke="{colour}" stroke-width="1.6" fill="none"{dashes}/>"#
        ));
        for (x, y) in places {
            let shape = match marker {
                Marker::Circle => format!(r#"<circle cx="{x:.1}" cy="{y:.1}" r="{half:.1}""#),
                Marker::Square => {
                    let (left, top, side) = (x - half, y - half, 2.0 * half);
                    format!(r#"<rect x="{left:.1}" y="{top:.1}" width="{side:.1}" height="{side:.1}""#)
                }
            };
            self.line(&format!(r#"{shape} stroke="{colour}" fill="{fill}"/>"#));
        }
    }
}

#[cfg(test)]
mod tests {
    use super::*;
    use crate::measured::tests::{table, COLUMNS_OF_TABLE};

    fn picture_of(table: &str) -> String {
        picture(&Measured::of(table).expect("a table"))
    }

    fn markers(svg: &str) -> usize {
        svg.matches("<circle ").count() + svg.matches("<rect ").count()
    }

    /// Those of each line, and three of each sample of the legend.
    #[test]
    fn each_point_has_a_marker() {
        let points: usize =
            series().iter().flat_map(|series| &series.lines).map(|line| line.points.len()).sum();
        let svg = picture_of(&table());
        assert_eq!(markers(&svg), 2 * points + 4 * 3);
        assert_eq!(svg.matches("<polyline ").count(), 4 * series().len() + 4);
        let plain_alone = table().replace("library", "other");
        assert_eq!(markers(&picture_of(&plain_alone)), points + 2 * 3);
    }

    /// By hand. The first plot has its left end at 62 and its top at 74, below the legend, and is 336 wide and 186 high. It goes
    /// up to 64 slaves and, since 4,000 is the greatest number, up to 4,000 instructions: 16 slaves are a quarter across,
    /// 1,000 instructions a quarter up. The plot beside it lies 420 to the right, and goes up to 2,048 entries and to 500 instructions.
    #[test]
    fn each_number_has_its_place() {
        let figures = ["check-16-2 1 1000 3000", "wide-check-64-2 1 4000 2000", "check-32-64 1 100 500"];
        let svg = picture_of(&format!("workload floor plain library\n{}\n", figures.join("\n")));
        let circle = |cx: &str, cy: &str| svg.contains(&format!(r#"<circle cx="{cx}" cy="{cy}" "#));
        assert!(circle("146.0", "213.5") && circle("398.0", "74.0") && circle("818.0", "222.8"), "{svg}");
        // A square has its middle there.
        let square = |x: &str, y: &str| svg.contains(&format!(r#"<rect x="{x}" y="{y}" "#));
        assert!(square("143.4", "117.9") && square("393.8", "162.8") && square("815.4", "71.4"), "{svg}");
    }

    #[test]
    fn same_table_same_bytes() {
        assert_eq!(picture_of(&table()), picture_of(&table()));
        assert_ne!(picture_of(&table()), picture_of(&table().replace("1000", "1001")));
    }

    /// The numbers of all coordinates.
    fn coordinates(svg: &str) -> Vec<f64> {
        let attributes = [" x=\"", " y=\"", " cx=\"", " cy=\"", " points=\""];
        let values = attributes.into_iter().flat_map(|attribute| svg.split(attribute).skip(1));
        let values = values.filter_map(|rest| rest.split('"').next());
        let numbers = values.flat_map(|values| values.split([' ', ',']).filter(|number| !number.is_empty()));
        numbers.map(|number| number.parse().expect("a number")).collect()
    }

    /// Whatever was measured, be it nothing.
    #[test]
    fn every_number_lies_in_the_picture() {
        let zeros = crate::growth::workloads().join(" 0 0 0 0 1.00\n");
        let zeros = format!("{COLUMNS_OF_TABLE}\n{zeros} 0 0 0 0 1.00\n");
        for table in [table(), zeros, COLUMNS_OF_TABLE.to_string()] {
            let svg = picture_of(&table);
            assert!(!svg.contains("NaN") && !svg.contains("inf"));
            assert!(coordinates(&svg).into_iter().all(|number| (0.0..=1_200.0).contains(&number)));
        }
    }

    /// Each element is closed, in the order of opening, and no text has a character that ends it.
    #[test]
    fn is_well_formed() {
        let svg = picture_of(&table());
        let mut open = Vec::new();
        for tag in svg.split('<').skip(1) {
            let (tag, text) = tag.split_once('>').expect("an end of the tag");
            assert!(!text.contains('&') && tag.matches('"').count() % 2 == 0, "{tag}");
            let name = tag.split(' ').next().unwrap_or_default();
            if let Some(closed) = name.strip_prefix('/') {
                assert_eq!(open.pop(), Some(closed));
            } else if !tag.ends_with('/') {
                open.push(name);
            }
        }
        assert!(open.is_empty());
    }

    #[test]
    fn of_axes() {
        let ticks = |greatest| Axis::up_to(greatest).ticks().collect::<Vec<_>>();
        assert_eq!(ticks(0), [0, 1]);
        assert_eq!(ticks(64), [0, 20, 40, 60, 80]);
        assert_eq!(ticks(11_209), [0, 5_000, 10_000, 15_000]);
        assert_eq!(Axis::ending_with(64).ticks().collect::<Vec<_>>(), [0, 20, 40, 60]);
    }
}
