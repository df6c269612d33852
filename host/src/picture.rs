//! Draws a model's chain as an SVG: the states of its table in a row, a weight at each arrow. Arrows to the next state are
//! straight, those further on are arcs above, those back are arcs below.

use std::error::Error;
use std::fmt::Write;
use std::fs::read_to_string;
use std::path::Path;
use twolsken::Table;

/// The distance between two states.
const STEP: i32 = 190;
/// Half the width and half the height of a state.
const HALF: (i32, i32) = (62, 27);
/// The colours of states without a label, with label `a`, with label `b`, with another.
const FILLS: [&str; 4] = ["#ffffff", "#d9efd9", "#f6d5d5", "#d8e4f5"];
/// The margin around all.
const MARGIN: i32 = 16;
/// How high a loop is, and how high the least arc.
const LOOP: i32 = 44;
const ARC: i32 = 76;
/// How much higher an arc is for each state that it passes.
const HIGHER: i32 = 34;
/// How far apart two arcs leave or enter a state.
const APART: i32 = 15;

/// An arrow from one state to another.
#[derive(Clone, Copy)]
struct Arrow {
    from: usize,
    to: usize,
    weight: u16,
}

impl Arrow {
    /// How many states further on or back it leads.
    fn length(self) -> usize {
        self.from.abs_diff(self.to)
    }

    /// Whether it is an arc above, below, or neither.
    fn side(self) -> i32 {
        match (self.to < self.from, self.to > self.from + 1) {
            (true, _) => 1,
            (_, true) => -1,
            _ => 0,
        }
    }

    /// How far an arc's middle is from the states' upper or lower edge.
    fn height(self) -> i32 {
        let passed = self.length() as i32 - 1;
        let least = if self.side() > 0 { ARC - 30 } else { ARC };
        (least + HIGHER * passed) * 3 / 4
    }
}

/// A picture in the making.
struct Picture<'a> {
    table: &'a Table,
    arrows: Vec<Arrow>,
    middle: i32,
    text: String,
}

impl Picture<'_> {
    /// Where the middle of a state is, from left.
    fn x(&self, state: usize) -> i32 {
        MARGIN + HALF.0 + STEP * state as i32
    }

    /// How many arcs of a kind are shorter than the given one: those lie inside it.
    fn inside(&self, arrow: Arrow, same_end: impl Fn(&Arrow) -> bool) -> i32 {
        let shorter = |other: &&Arrow| {
            other.side() == arrow.side() && same_end(other) && other.length() < arrow.length()
        };
        self.arrows.iter().filter(shorter).count() as i32
    }

    /// A weight, over D, at a place.
    fn weight(&mut self, x: i32, y: i32, weight: u16) {
        let d = self.table.model.d;
        writeln!(self.text, r#"<text class="w" x="{x}" y="{y}">{weight}/{d}</text>"#).expect("a string");
    }

    /// A line by its path.
    fn line(&mut self, path: &str) {
        writeln!(self.text, r#"<path class="e" d="{path}"/>"#).expect("a string");
    }

    /// An arrow from a state to itself: a loop above it.
    fn draw_loop(&mut self, arrow: Arrow) {
        let (x, top) = (self.x(arrow.from), self.middle - HALF.1);
        let high = top - LOOP * 4 / 3;
        self.line(&format!("M{} {top} C{} {high} {} {high} {} {top}", x - 12, x - 30, x + 30, x + 12));
        self.weight(x, top - LOOP - 7, arrow.weight);
    }

    /// An arrow to the next state.
    fn draw_straight(&mut self, arrow: Arrow) {
        let (from, to) = (self.x(arrow.from) + HALF.0, self.x(arrow.to) - HALF.0);
        self.line(&format!("M{from} {0} H{to}", self.middle));
        self.weight((from + to) / 2 - 3, self.middle - 6, arrow.weight);
    }

    /// An arc above or below.
    fn draw_arc(&mut self, arrow: Arrow) {
        let side = arrow.side();
        let leaves = 40 - APART * self.inside(arrow, |other| other.from == arrow.from);
        let enters = 40 - APART * self.inside(arrow, |other| other.to == arrow.to);
        let (from, to) = (self.x(arrow.from) - side * leaves, self.x(arrow.to) + side * enters);
        let edge = self.middle + side * HALF.1;
        let far = edge + side * arrow.height() * 4 / 3;
        self.line(&format!("M{from} {edge} C{from} {far} {to} {far} {to} {edge}"));
        self.weight((from + to) / 2, edge + side * arrow.height() + 5, arrow.weight);
    }

    /// A state: its number and name, and under them its labels with their letters.
    fn draw_state(&mut self, state: usize) {
        let (x, y) = (self.x(state), self.middle);
        let mask = self.table.model.masks[state];
        let labels: Vec<usize> =
            (0..self.table.labels.len()).filter(|label| mask >> label & 1 == 1).collect();
        let fill = FILLS[labels.first().map_or(0, |label| (label + 1).min(3))];
        let (left, top) = (x - HALF.0, y - HALF.1);
        let (width, height) = (2 * HALF.0, 2 * HALF.1);
        let named = |&label: &usize| named(label, &self.table.labels[label]);
        let below = labels.iter().map(named).collect::<Vec<String>>().join(", ");
        let name = format!("{state} {}", self.table.states[state]);
        let line = if below.is_empty() { y + 5 } else { y - 3 };
        writeln!(
            self.text,
            r#"<rect class="s" x="{left}" y="{top}" width="{width}" height="{height}" rx="14" fill="{fill}"/>"#
        )
        .expect("a string");
        writeln!(self.text, r#"<text class="n" x="{x}" y="{line}">{name}</text>"#).expect("a string");
        if !below.is_empty() {
            writeln!(self.text, r#"<text class="l" x="{x}" y="{}">{below}</text>"#, y + 15)
                .expect("a string");
        }
    }
}

/// A label as a sentence has it, and its name where that is another.
fn named(label: usize, name: &str) -> String {
    let letter = char::from(b'a' + label as u8).to_string();
    match letter == name {
        true => letter,
        false => format!("{letter}: {name}"),
    }
}

/// The picture of a sample, by its folder: the chain of its table.
pub fn picture_of(folder: &Path) -> Result<String, Box<dyn Error>> {
    let table: Table = read_to_string(folder.join("table.txt"))?.parse()?;
    let name = folder.file_name().unwrap_or_default().to_string_lossy();
    Ok(draw(&table, &format!("The chain of the sample {name}")))
}

/// The picture of a table's chain, under a title.
fn draw(table: &Table, title: &str) -> String {
    let states = table.states.len();
    let weight = |(from, to)| Arrow { from, to, weight: table.model.weights[from][to] };
    let pairs = (0..states).flat_map(|from| (0..states).map(move |to| (from, to)));
    let arrows: Vec<Arrow> = pairs.map(weight).filter(|arrow| arrow.weight > 0).collect();
    let highest = |side| arrows.iter().filter(|a| a.side() == side).map(|a| a.height()).max().unwrap_or(0);
    let loops = arrows.iter().any(|arrow| arrow.from == arrow.to);
    let above = highest(-1).max(if loops { LOOP } else { 0 }) + 18;
    let middle = MARGIN + above + HALF.1;
    let height = middle + HALF.1 + highest(1) + 10 + MARGIN;
    let width = 2 * (MARGIN + HALF.0) + STEP * (states as i32 - 1);
    let mut picture = Picture { table, arrows, middle, text: String::new() };
    for arrow in picture.arrows.clone() {
        match arrow.side() {
            0 if arrow.from == arrow.to => picture.draw_loop(arrow),
            0 => picture.draw_straight(arrow),
            _ => picture.draw_arc(arrow),
        }
    }
    (0..states).for_each(|state| picture.draw_state(state));
    format!(
        r##"<svg xmlns="http://www.w3.org/2000/svg" width="{width}" height="{height}" viewBox="0 0 {width} {height}" role="img">
<title>{title}</title>
<style>
text {{ font-family: sans-serif; text-anchor: middle; fill: #1c1c1c; }}
.n {{ font-size: 15px; }}
.l {{ font-size: 12px; }}
.w {{ font-size: 13px; stroke: #ffffff; stroke-width: 5px; paint-order: stroke; }}
.s {{ stroke: #1c1c1c; stroke-width: 1.5px; }}
.e {{ fill: none; stroke: #1c1c1c; stroke-width: 1.3px; marker-end: url(#tip); }}
</style>
<defs><marker id="tip" viewBox="0 0 10 10" refX="9" refY="5" markerWidth="8" markerHeight="8" orient="auto"><path d="M0 1 L10 5 L0 9 z" fill="#1c1c1c"/></marker></defs>
<rect width="{width}" height="{height}" rx="10" fill="#ffffff"/>
{}</svg>
"##,
        picture.text
    )
}
