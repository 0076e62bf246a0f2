//! The multipartner rounds of a cluster as a chart of slots by slaves: who sends and who receives in which slot, multiplexed entries
//! by the remainder of the epoch.

use super::{Area, Svg, BLUE, ORANGE, TEXT};
use crate::cluster::Slave;
use crate::cluster_text::entry;
use crate::frames_text::ROUNDS;
use crate::plan::{self, Deed, Row, MOST_REMAINDERS};
use std::fmt::Write;
use ttpa::NAME_UNNAMED;

/// Of the chart what lies left of slot 1: place, names and remainders.
const LEFT: usize = 300;
const RIGHT: usize = 22;
const SLOT_WIDTH: usize = 16;
const LEGEND_HEIGHT: usize = 62;
/// Above the first row of a round: its title and the numbers of the slots.
const TITLE_HEIGHT: usize = 44;
const PANEL_GAP: usize = 20;
const ROW_HEIGHT: usize = 18;
/// Of a slave with multiplexed entries there is a row for each remainder of the epoch.
const REMAINDER_HEIGHT: usize = 10;
/// Between a bar and the lines of the grid.
const MARGIN: usize = 2;
/// A chart has at least as many slots.
const LEAST_SLOTS: usize = 16;
/// A slave that takes no part now, unnamed or asleep, is shown as it would take part.
const APART: &str = r#" opacity="0.45""#;

/// A slave and its place in the table.
pub type Placed<'a> = (usize, &'a Slave);

/// The chart of these slaves, a panel for each round of which one of them has a file.
pub fn chart(slaves: &[Placed]) -> String {
    let panels: Vec<Panel> =
        ROUNDS.iter().filter_map(|&(round, firework)| Panel::of(slaves, round, firework)).collect();
    let slots = panels.iter().map(Panel::last_slot).max().unwrap_or(0).max(LEAST_SLOTS);
    let width = LEFT + slots * SLOT_WIDTH + RIGHT;
    let height = LEGEND_HEIGHT + panels.iter().map(Panel::height).sum::<usize>() + ROW_HEIGHT;
    let mut svg = Svg::new("Multipartner rounds: slots by slaves", width, height);
    legend(&mut svg);
    let mut top = LEGEND_HEIGHT;
    for panel in &panels {
        panel.draw(&mut svg, top, slots);
        top += panel.height();
    }
    if panels.is_empty() {
        svg.text((12, top + 16), "", "no slave shown has a file of a multipartner round");
    }
    svg.ended()
}

/// How each deed looks.
fn look(deed: Deed) -> String {
    match deed {
        Deed::Send => format!(r#"fill="{BLUE}" stroke="{BLUE}""#),
        Deed::Receive => format!(r#"fill="none" stroke="{ORANGE}" stroke-width="2""#),
        Deed::Nothing => format!(r#"fill="none" stroke="{TEXT}" stroke-dasharray="2 2""#),
    }
}

/// Where the samples of the legend begin, each with its words.
const SAMPLES: [(usize, Deed, &str); 3] = [
    (12, Deed::Send, "sends"),
    (92, Deed::Receive, "receives"),
    (186, Deed::Nothing, "covers the slot and does nothing"),
];

fn legend(svg: &mut Svg) {
    for (left, deed, words) in SAMPLES {
        svg.rect(Area { left, top: 12, width: SLOT_WIDTH, height: ROW_HEIGHT - 2 * MARGIN }, &look(deed), "");
        svg.text((left + SLOT_WIDTH + 6, 23), "", words);
    }
    svg.text((12, 46), "", "pale: unnamed or asleep, as it would take part");
    svg.text((300, 46), "", "epoch: as the round has raised it");
}

/// One round: of each slave that has its file the rows, one for each remainder of the epoch that they tell apart.
struct Panel<'a> {
    round: u8,
    firework: u8,
    rows: Vec<(Placed<'a>, Vec<Row>)>,
}

impl<'a> Panel<'a> {
    fn of(slaves: &[Placed<'a>], round: u8, firework: u8) -> Option<Panel<'a>> {
        let with_file = slaves.iter().filter(|(_, slave)| slave.file(round).is_some());
        let rows: Vec<_> = with_file
            .map(|&(place, slave)| {
                let remainders = 0..plan::remainders(slave, round);
                ((place, slave), remainders.map(|epoch| plan::row(slave, round, epoch)).collect())
            })
            .collect();
        (!rows.is_empty()).then_some(Panel { round, firework, rows })
    }

    fn last_slot(&self) -> usize {
        let rows = self.rows.iter().flat_map(|(_, rows)| rows);
        rows.filter_map(|row| row.iter().rposition(Option::is_some)).max().unwrap_or(0)
    }

    /// With the row of senders below the slaves.
    fn height(&self) -> usize {
        let rows: usize = self.rows.iter().map(|(_, rows)| slave_height(rows)).sum();
        TITLE_HEIGHT + rows + ROW_HEIGHT + PANEL_GAP
    }

    fn draw(&self, svg: &mut Svg, top: usize, slots: usize) {
        let &Panel { round, firework, .. } = self;
        let title = format!("Round {round}, firework {firework:02X}");
        svg.text((12, top + 16), r#"font-size="13" font-weight="bold""#, title);
        for slot in 1..=slots {
            svg.text((middle(slot), top + TITLE_HEIGHT - 6), r#"text-anchor="middle" font-size="9""#, slot);
        }
        let mut line = top + TITLE_HEIGHT;
        self.grid(svg, line, slots);
        for ((place, slave), rows) in &self.rows {
            self.slave(svg, line, (*place, slave), rows);
            line += slave_height(rows);
        }
        self.senders(svg, line, slots);
    }

    fn slave(&self, svg: &mut Svg, top: usize, (place, slave): Placed, rows: &[Row]) {
        let apart = if slave.name() == NAME_UNNAMED || slave.asleep { APART } else { "" };
        let asleep = if slave.asleep { " asleep" } else { "" };
        let label = format!("{place:>2}  {:02X}  {:016X}{asleep}", slave.name(), slave.physical_name());
        svg.text((12, top + 13), r#"font-family="monospace" xml:space="preserve""#, label);
        let height = slave_height(rows) / rows.len();
        if rows.len() > 1 {
            numbers(svg, top + height - MARGIN, rows.len());
        }
        // the bars alone are pale: names have to be read
        svg.line(&format!("<g{apart}>"));
        for (remainder, row) in rows.iter().enumerate() {
            for bar in bars(row) {
                let words = self.words(place, slave, &bar);
                svg.rect(bar.area(top + remainder * height, height), &look(bar.deed), &words);
            }
        }
        svg.line("</g>");
    }

    /// What a bar is, in the words of the cluster's text.
    fn words(&self, place: usize, slave: &Slave, bar: &Bar) -> String {
        let record =
            slave.file(self.round).and_then(|file| file.records.get(bar.entry)).copied().unwrap_or_default();
        let words = entry::words(record).unwrap_or_else(|| crate::text::hex(&record));
        format!("slave {place}, entry {:02X}: {words}", bar.entry)
    }

    fn grid(&self, svg: &mut Svg, top: usize, slots: usize) {
        let (right, mut line) = (LEFT + slots * SLOT_WIDTH, top);
        let mut grid = format!("M{LEFT} {top}H{right}");
        for (_, rows) in &self.rows {
            line += slave_height(rows);
            let _ = write!(grid, "M{LEFT} {line}H{right}");
        }
        for slot in 1..=slots + 1 {
            let _ = write!(grid, "M{} {top}V{line}", left(slot));
        }
        svg.grid(&grid);
    }

    /// In each slot how many of the slaves shown send there at once, if all took part: the most of all epochs.
    fn senders(&self, svg: &mut Svg, top: usize, slots: usize) {
        svg.text((LEFT - 6, top + 13), r#"text-anchor="end""#, "senders at once, if all shown take part");
        for slot in 1..=slots {
            let (count, attributes) = match self.most_senders(slot) {
                0 => continue,
                1 => (1, r#"text-anchor="middle""#.to_string()),
                many => (many, format!(r#"text-anchor="middle" font-weight="bold" fill="{ORANGE}""#)),
            };
            svg.text((middle(slot), top + 13), &attributes, count);
        }
    }

    fn most_senders(&self, slot: usize) -> usize {
        let sends = |rows: &[Row], epoch: usize| {
            rows[epoch % rows.len()][slot].is_some_and(|act| act.deed == Deed::Send)
        };
        let senders = |epoch| self.rows.iter().filter(|(_, rows)| sends(rows, epoch)).count();
        (0..usize::from(MOST_REMAINDERS)).map(senders).max().unwrap_or(0)
    }
}

/// Left of a slave's rows the remainders of the epoch, the first with its modulo.
fn numbers(svg: &mut Svg, first_line: usize, modulo: usize) {
    for remainder in 0..modulo {
        let words = if remainder == 0 { format!("epoch mod {modulo} = 0") } else { remainder.to_string() };
        let line = first_line + remainder * REMAINDER_HEIGHT;
        svg.text((LEFT - 6, line), r#"text-anchor="end" font-size="8""#, words);
    }
}

/// Of all rows of a slave.
fn slave_height(rows: &[Row]) -> usize {
    if rows.len() > 1 {
        rows.len() * REMAINDER_HEIGHT
    } else {
        ROW_HEIGHT
    }
}

/// Where a slot begins.
fn left(slot: usize) -> usize {
    LEFT + (slot - 1) * SLOT_WIDTH
}

fn middle(slot: usize) -> usize {
    left(slot) + SLOT_WIDTH / 2
}

/// Slots side by side in which one entry does the same.
#[derive(Debug, PartialEq, Eq)]
struct Bar {
    entry: usize,
    deed: Deed,
    first: usize,
    last: usize,
}

impl Bar {
    fn area(&self, top: usize, height: usize) -> Area {
        let width = (self.last - self.first + 1) * SLOT_WIDTH - 2 * MARGIN;
        Area { left: left(self.first) + MARGIN, top: top + MARGIN, width, height: height - 2 * MARGIN }
    }
}

fn bars(row: &Row) -> Vec<Bar> {
    let mut bars: Vec<Bar> = Vec::new();
    for (slot, act) in row.iter().enumerate() {
        let Some(act) = act else { continue };
        match bars.last_mut() {
            Some(bar) if bar.last + 1 == slot && bar.entry == act.entry && bar.deed == act.deed => {
                bar.last = slot
            }
            _ => bars.push(Bar { entry: act.entry, deed: act.deed, first: slot, last: slot }),
        }
    }
    bars
}
