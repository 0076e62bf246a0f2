//! The search of a naming run as a picture: for each name the comparisons from bit 63 down, and for each unnamed slave whether it
//! replied.

use super::{Area, Svg, BLUE, FAINT, ORANGE};
use crate::naming::search::{Comparison, Pass, Search, QUESTIONS};
use std::collections::BTreeMap;
use std::fmt::Write;

/// Of a panel what lies left of the first question: place and physical name.
const LEFT: usize = 170;
const RIGHT: usize = 22;
const COLUMN_WIDTH: usize = 12;
const LEGEND_HEIGHT: usize = 62;
/// Above the first row of a pass: its title and the numbers of the bits.
const TITLE_HEIGHT: usize = 40;
const TITLE_ALONE: usize = 32;
const PANEL_GAP: usize = 18;
const ROW_HEIGHT: usize = 14;
const MARGIN: usize = 2;
const HIGHEST_BIT: usize = 63;
/// Every so many bits have their number: a digit of the physical name.
const DIGIT_BITS: usize = 4;

pub fn picture(search: &Search, last_line: &str) -> String {
    let width = LEFT + QUESTIONS * COLUMN_WIDTH + RIGHT;
    let height = LEGEND_HEIGHT + search.passes.iter().map(pass_height).sum::<usize>() + ROW_HEIGHT;
    let mut svg = Svg::new("A naming run: what was asked, and who replied", width, height);
    legend(&mut svg, last_line);
    let mut top = LEGEND_HEIGHT;
    for pass in &search.passes {
        draw(&mut svg, pass, top);
        top += pass_height(pass);
    }
    svg.ended()
}

fn legend(svg: &mut Svg, last_line: &str) {
    let sample =
        |left| Area { left, top: 12, width: COLUMN_WIDTH - 2 * MARGIN, height: ROW_HEIGHT - 2 * MARGIN };
    svg.rect(sample(12), &look(true), "");
    svg.text((28, 21), "", "replied: its physical name is at or above the value asked");
    svg.rect(sample(372), &look(false), "");
    svg.text((388, 21), "", "silent");
    svg.text((446, 21), "", "'?' asks whether anyone is there, the others for a bit");
    svg.text((12, 46), "", last_line);
}

/// How a slave that replied, or did not, looks.
fn look(replied: bool) -> String {
    if replied {
        format!(r#"fill="{BLUE}" stroke="{BLUE}""#)
    } else {
        format!(r#"fill="none" {FAINT}"#)
    }
}

/// The slaves that the pass asks, by their places. One may lose its name by a foreign round, and is asked from then on.
fn slaves(pass: &Pass) -> BTreeMap<usize, u64> {
    let asked = pass.comparisons.iter().flat_map(|comparison| &comparison.slaves);
    asked.map(|slave| (slave.place, slave.physical_name)).collect()
}

/// With the row of the bits found below the slaves. Where nobody was there to be asked, the title alone.
fn pass_height(pass: &Pass) -> usize {
    match slaves(pass).len() {
        0 => TITLE_ALONE,
        slaves => TITLE_HEIGHT + (slaves + 1) * ROW_HEIGHT + PANEL_GAP,
    }
}

fn left(question: usize) -> usize {
    LEFT + question * COLUMN_WIDTH
}

fn draw(svg: &mut Svg, pass: &Pass, top: usize) {
    let came = pass.came.as_deref().unwrap_or("not at its end");
    let title = format!("Name {:02X}: {came}{}", pass.name, taken_up(pass));
    svg.text((12, top + 14), r#"font-size="13" font-weight="bold""#, title);
    let slaves = slaves(pass);
    if slaves.is_empty() {
        return;
    }
    let first_row = top + TITLE_HEIGHT;
    numbers(svg, first_row - 5);
    grid(svg, first_row, slaves.len());
    for (row, (place, physical_name)) in slaves.iter().enumerate() {
        let top = first_row + row * ROW_HEIGHT;
        let attributes = r#"font-family="monospace" xml:space="preserve""#;
        svg.text((12, top + 11), attributes, format!("{place:>2}  {physical_name:016X}"));
        pass.comparisons.iter().for_each(|comparison| cell(svg, comparison, *place, top));
    }
    found(svg, pass, first_row + slaves.len() * ROW_HEIGHT + 11);
}

/// A run that was taken up again asked the questions before in another call.
fn taken_up(pass: &Pass) -> String {
    match pass.comparisons.first() {
        Some(first) if first.question > 0 => {
            format!(
                ", taken up at bit {}: what was asked before is not shown",
                HIGHEST_BIT + 1 - first.question
            )
        }
        _ => String::new(),
    }
}

/// Above the columns.
fn numbers(svg: &mut Svg, y: usize) {
    for question in 0..QUESTIONS {
        let number = match HIGHEST_BIT + 1 - question {
            _ if question == 0 => "?".to_string(),
            bit if bit % DIGIT_BITS == DIGIT_BITS - 1 => bit.to_string(),
            _ => continue,
        };
        let middle = left(question) + COLUMN_WIDTH / 2;
        svg.text((middle, y), r#"text-anchor="middle" font-size="9""#, number);
    }
}

fn grid(svg: &mut Svg, top: usize, rows: usize) {
    let (right, bottom) = (left(QUESTIONS), top + rows * ROW_HEIGHT);
    let mut grid = String::new();
    // behind the first question, and behind each digit
    for question in (1..=QUESTIONS).step_by(DIGIT_BITS) {
        let _ = write!(grid, "M{} {top}V{bottom}", left(question));
    }
    svg.grid(&format!("M{LEFT} {top}H{right}M{LEFT} {bottom}H{right}M{LEFT} {top}V{bottom}{grid}"));
}

/// What a slave did when it was asked.
fn cell(svg: &mut Svg, comparison: &Comparison, place: usize, top: usize) {
    let Some(slave) = comparison.slaves.iter().find(|slave| slave.place == place) else { return };
    let area = Area {
        left: left(comparison.question) + MARGIN,
        top: top + MARGIN,
        width: COLUMN_WIDTH - 2 * MARGIN,
        height: ROW_HEIGHT - 2 * MARGIN,
    };
    let answer = if slave.replied { "replied" } else { "silent" };
    let words = format!("slave {place}: at or above {:016X}? {answer}", slave.value);
    svg.rect(area, &look(slave.replied), &words);
}

/// The bit that each answer settles: 1 where someone replied.
fn found(svg: &mut Svg, pass: &Pass, y: usize) {
    if pass.comparisons.iter().all(|comparison| comparison.question == 0) {
        return;
    }
    svg.text((LEFT - 6, y), r#"text-anchor="end""#, "the bit found");
    for comparison in pass.comparisons.iter().filter(|comparison| comparison.question > 0) {
        let middle = left(comparison.question) + COLUMN_WIDTH / 2;
        let (bit, colour) =
            if comparison.answered { (1, format!(r#" fill="{ORANGE}""#)) } else { (0, String::new()) };
        svg.text((middle, y), &format!(r#"text-anchor="middle" font-size="10"{colour}"#), bit);
    }
}
