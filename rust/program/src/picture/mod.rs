//! Pictures, as SVG: for who would rather look than read. The colours are readable on light and on dark ground, and what they tell
//! apart has different shapes as well.

pub mod rounds;
pub mod search;

use crate::args::{Arguments, SVG};
use crate::console::Stop;
use crate::files;
use std::ffi::OsStr;
use std::fmt::Display;

pub const TEXT: &str = "#777777";
/// Lines that only part or lead the eye, as attributes: version 1.1 has no colours with an opacity of their own.
pub const FAINT: &str = r##"stroke="#777777" stroke-opacity="0.3""##;
pub const BLUE: &str = "#3b82d6";
pub const ORANGE: &str = "#d9622b";

/// Where the picture goes, if one is asked for. No input file is altered, so it is none that is read.
pub fn path<'a>(arguments: &'a Arguments, read: &[&OsStr]) -> Result<Option<&'a OsStr>, Stop> {
    let Some(out) = arguments.value(SVG) else { return Ok(None) };
    let words = "--svg: OUT is a file that is read, which must stay";
    read.iter().try_for_each(|path| files::keep(path, out, || arguments.misused(words)))?;
    Ok(Some(out))
}

/// Left, top, width and height.
#[derive(Clone, Copy, Debug, PartialEq, Eq)]
pub struct Area {
    pub left: usize,
    pub top: usize,
    pub width: usize,
    pub height: usize,
}

/// The text of a picture. All coordinates are whole numbers, so that a picture is the same bytes everywhere.
pub struct Svg(String);

impl Svg {
    pub fn new(title: &str, width: usize, height: usize) -> Svg {
        let mut svg = Svg(String::new());
        let size = format!(r#"viewBox="0 0 {width} {height}" width="{width}" height="{height}""#);
        let font = format!(r#"font-family="sans-serif" font-size="11" fill="{TEXT}""#);
        svg.line(&format!(r#"<svg xmlns="http://www.w3.org/2000/svg" {size} {font}>"#));
        svg.line(&format!("<title>{}</title>", escaped(title)));
        svg
    }

    pub fn ended(mut self) -> String {
        self.line("</svg>");
        self.0
    }

    pub fn line(&mut self, line: &str) {
        self.0.push_str(line);
        self.0.push('\n');
    }

    pub fn text(&mut self, (x, y): (usize, usize), attributes: &str, text: impl Display) {
        let text = escaped(&text.to_string());
        let blank = if attributes.is_empty() { "" } else { " " };
        self.line(&format!(r#"<text x="{x}" y="{y}"{blank}{attributes}>{text}</text>"#));
    }

    /// A rectangle; the words are shown where a pointer rests on it.
    pub fn rect(&mut self, area: Area, attributes: &str, words: &str) {
        let Area { left, top, width, height } = area;
        let place = format!(r#"x="{left}" y="{top}" width="{width}" height="{height}""#);
        let words = if words.is_empty() { String::new() } else { format!("<title>{}</title>", escaped(words)) };
        self.line(&format!("<rect {place} {attributes}>{words}</rect>"));
    }

    pub fn grid(&mut self, path: &str) {
        self.line(&format!(r#"<path d="{path}" {FAINT} fill="none"/>"#));
    }
}

/// A text in which no character ends it.
fn escaped(text: &str) -> String {
    text.replace('&', "&amp;").replace('<', "&lt;").replace('>', "&gt;").replace('"', "&quot;")
}
