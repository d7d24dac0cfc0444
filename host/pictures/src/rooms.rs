//! The crates and what each stands on, drawn from crates.txt: a crate stands above all that it needs.

use crate::layers::{place, Place, Widths};
use pictures::svg::{line, open, text, Paper};
use std::collections::{BTreeMap, BTreeSet};
use std::path::Path;

const BOX_WIDTH: f64 = 100.0;
const BOX_HEIGHT: f64 = 30.0;
const WIDTHS: Widths = Widths { shown: BOX_WIDTH, gap: 8.0, space: 16.0 };
const STEP_Y: f64 = 76.0;
/// Between two lines that leave a box, and between the outermost of them and its corners.
const STEP_LINE: f64 = 16.0;
const CORNER: f64 = 6.0;
const MARGIN: f64 = 24.0;
const TOP: f64 = 100.0;

const LIGHT: &str = ".code { fill: #ddf4ff; stroke: #0969da }
.meaning { fill: #fff8c5; stroke: #9a6700 }
.needs { fill: none; stroke: #818b98; stroke-width: 1.2 }";
const DARK: &str = ".code { fill: #0c2d4d; stroke: #58a6ff }
.meaning { fill: #3b2a00; stroke: #d29922 }
.needs { stroke: #6e7681 }";

/// A crate: the crates that it names, and whether its source has functions.
struct Room {
    name: String,
    needs: BTreeSet<usize>,
    code: bool,
}

/// The picture of the crates that `root/crates.txt` lists.
pub fn svg(root: &Path) -> Result<String, Box<dyn std::error::Error>> {
    let rooms = read(root)?;
    let lines: Vec<BTreeSet<usize>> = rooms.iter().map(|room| direct(&rooms, room)).collect();
    let places = place(&levels(&rooms), &lines, &WIDTHS);
    let top = places.iter().map(|place| place.level).max().unwrap_or(0);
    let widest = places.iter().fold(0.0, |most: f64, place| most.max(place.x)) + BOX_WIDTH / 2.0;
    let height = TOP + top as f64 * STEP_Y + BOX_HEIGHT + MARGIN;
    let mut svg = open((widest + 2.0 * MARGIN).round(), height, "Crates", Paper::Page, LIGHT, DARK);
    text(&mut svg, MARGIN, 30.0, "title", "start", "The crates, each above what it stands on");
    let legend = [("meaning", "definitions and laws, no code"), ("code", "with code")];
    for (index, (class, words)) in legend.into_iter().enumerate() {
        let at = MARGIN + 250.0 * index as f64;
        line(
            &mut svg,
            &format!("<rect class=\"{class}\" x=\"{at}\" y=\"44\" width=\"26\" height=\"16\" rx=\"3\"/>"),
        );
        text(&mut svg, at + 34.0, 57.0, "entry", "start", words);
    }
    let up = |place: &Place| TOP + (top - place.level) as f64 * STEP_Y;
    for upper in &places {
        draw_lines(&mut svg, &places, upper, up(upper) + BOX_HEIGHT);
    }
    for (place, up) in places.iter().map(|place| (place, up(place))) {
        let x = MARGIN + place.x;
        let Some(room) = place.shown.map(|index| &rooms[index]) else {
            line(&mut svg, &format!("<path class=\"needs\" d=\"M{x:.1} {up:.0}v{BOX_HEIGHT}\"/>"));
            continue;
        };
        let (class, left) = (if room.code { "code" } else { "meaning" }, x - BOX_WIDTH / 2.0);
        line(
            &mut svg,
            &format!("<rect class=\"{class}\" x=\"{left:.1}\" y=\"{up:.0}\" width=\"{BOX_WIDTH}\" height=\"{BOX_HEIGHT}\" rx=\"5\"/>"),
        );
        text(&mut svg, x, up + 20.0, "name", "middle", &room.name);
    }
    svg.push_str("</svg>\n");
    Ok(svg)
}

/// The lines from a place down to the next level, side by side in the order of where they lead.
fn draw_lines(svg: &mut String, places: &[Place], upper: &Place, start: f64) {
    let mut ends: Vec<f64> = upper.below.iter().map(|&lower| places[lower].x).collect();
    ends.sort_by(f64::total_cmp);
    let step = if upper.shown.is_some() { step(ends.len()) } else { 0.0 };
    let end = start + STEP_Y - BOX_HEIGHT;
    let middle = (start + end) / 2.0;
    for (at, x) in ends.iter().enumerate() {
        let aside = (at as f64 - (ends.len() - 1) as f64 / 2.0) * step;
        let (from, to) = (MARGIN + upper.x + aside, MARGIN + x);
        line(
            svg,
            &format!("<path class=\"needs\" d=\"M{from:.1} {start:.0}C{from:.1} {middle:.0} {to:.1} {middle:.0} {to:.1} {end:.0}\"/>"),
        );
    }
}

/// Between so many lines that leave a box: the widest that keeps them all within it.
fn step(lines: usize) -> f64 {
    STEP_LINE.min((BOX_WIDTH - 2.0 * CORNER) / lines.saturating_sub(1).max(1) as f64)
}

fn read(root: &Path) -> Result<Vec<Room>, Box<dyn std::error::Error>> {
    let listed = std::fs::read_to_string(root.join("crates.txt"))?;
    // A line that begins with # is a heading; behind a name a word may say what is built of the crate.
    let crates = listed.lines().filter(|line| !line.starts_with('#')).filter_map(|line| line.split_once(':'));
    let lines: Vec<(&str, &str)> =
        crates.filter_map(|(head, needs)| Some((head.split_whitespace().next()?, needs))).collect();
    let index: BTreeMap<&str, usize> = lines.iter().enumerate().map(|(at, (name, _))| (*name, at)).collect();
    lines
        .iter()
        .map(|(name, needs)| {
            Ok(Room {
                name: (*name).to_string(),
                // libraries of the kit are not drawn
                needs: needs.split_whitespace().filter_map(|need| index.get(need).copied()).collect(),
                code: has_functions(&root.join("crates").join(name).join("src"))?,
            })
        })
        .collect()
}

fn has_functions(source: &Path) -> std::io::Result<bool> {
    for entry in std::fs::read_dir(source)? {
        let file = std::fs::read_to_string(entry?.path())?;
        if file.lines().any(|line| line.trim_start().trim_start_matches("pub ").starts_with("fn ")) {
            return Ok(true);
        }
        if file.contains("extern \"C\" fn") {
            return Ok(true);
        }
    }
    Ok(false)
}

/// How many crates stand below each, on the longest way down, whatever the order of the list.
fn levels(rooms: &[Room]) -> Vec<usize> {
    let mut levels = vec![0; rooms.len()];
    for _ in rooms {
        for (at, room) in rooms.iter().enumerate() {
            levels[at] = room.needs.iter().map(|&need| levels[need] + 1).max().unwrap_or(0);
        }
    }
    levels
}

/// What a room needs and reaches by no other that it needs: the lines that are drawn.
fn direct(rooms: &[Room], room: &Room) -> BTreeSet<usize> {
    let mut further = BTreeSet::new();
    let mut open: Vec<usize> =
        room.needs.iter().flat_map(|&need| rooms[need].needs.iter().copied()).collect();
    while let Some(next) = open.pop() {
        if further.insert(next) {
            open.extend(rooms[next].needs.iter().copied());
        }
    }
    room.needs.difference(&further).copied().collect()
}

#[cfg(test)]
mod tests {
    use super::*;

    #[test]
    fn no_line_begins_outside_its_box() {
        for lines in 1..=64 {
            let width = step(lines) * (lines - 1) as f64;
            assert!(width <= BOX_WIDTH - 2.0 * CORNER + 1e-9, "{lines} lines");
        }
        assert_eq!(step(2), STEP_LINE);
    }
}
