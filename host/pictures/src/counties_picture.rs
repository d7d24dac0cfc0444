//! Draws layings of machines in counties: those that stop with one machine, and those that bear the loss of any one.

use crate::counties::Laying;
use crate::measure;
use dyngrid::{Refusal, Shape};
use pictures::svg::{line, open, text, Paper};

const WIDTH: f64 = 840.0;
const HEIGHT: f64 = 530.0;
const MARGIN: f64 = 32.0;
/// Between panels side by side.
const PANEL: f64 = 264.0;
const CELL: f64 = 26.0;
/// From a machine to the next one.
const PITCH: f64 = 33.0;
/// Around the machines of a county, and between two counties.
const PADDING: f64 = 9.0;
const GAP: f64 = 10.0;
/// The number of a county above its machines, and the width that it takes.
const HEAD: f64 = 18.0;
const NUMBERED: f64 = 70.0;

/// A line of panels: what is said of them, where it begins, and the machines of each county.
const LINES: [(&str, f64, [&[usize]; 3]); 2] = [
    (
        "One machine off can stop these: nobody writes or checks until it is back",
        102.0,
        [&[4, 1], &[2, 2], &[3, 4]],
    ),
    ("Of these any one machine may be off", 288.0, [&[4, 4], &[1, 4, 1], &[1, 1, 1, 1]]),
];

const LIGHT: &str = ".head { font-size: 15px; font-weight: 600 }
.laying { font-size: 15px; font-weight: 700 }
.county { fill: none; stroke: #8c959f; stroke-width: 1.2 }
.name { font-size: 12px; fill: #59636e }
.needed { fill: #a33a00 }
.spare { fill: none; stroke: #0b4f9e; stroke-width: 1.5 }
.number { font-size: 13px; font-weight: 700; fill: #ffffff }
.free { font-size: 13px }";
const DARK: &str = ".name { fill: #9198a1 }
.county { stroke: #656c76 }
.needed { fill: #ffa657 }
.spare { stroke: #79b8ff }
.number { fill: #0d1117 }";

pub fn svg() -> Result<String, Refusal> {
    let shows = "Six layings of machines in counties, and which of their machines cannot be spared";
    let mut svg = open(WIDTH, HEIGHT, shows, Paper::Page, LIGHT, DARK);
    text(
        &mut svg,
        MARGIN,
        38.0,
        "title",
        "start",
        "Which machine can be spared when a list is of several counties",
    );
    machine(&mut svg, MARGIN, 51.0, None, true);
    text(&mut svg, MARGIN + 34.0, 69.0, "entry", "start", "cannot be spared");
    machine(&mut svg, MARGIN + 180.0, 51.0, None, false);
    text(
        &mut svg,
        MARGIN + 214.0,
        69.0,
        "entry",
        "start",
        "can be spared; the grids are those of a wide table",
    );
    for (said, top, layings) in LINES {
        text(&mut svg, MARGIN, top + 8.0, "head", "start", said);
        for (place, sizes) in layings.into_iter().enumerate() {
            panel(&mut svg, MARGIN + PANEL * place as f64, top + 38.0, &Laying::of(sizes)?)?;
        }
    }
    svg.push_str("</svg>\n");
    Ok(svg)
}

/// The columns of a grid of so many, machines or counties.
fn columns(of: usize) -> Result<usize, Refusal> {
    measure::columns(of, measure::mark(of, Shape::Wide)?)
}

/// The width and height of a county of so many machines.
fn extent(machines: usize) -> Result<(f64, f64), Refusal> {
    let across = columns(machines)?;
    let length = |cells: usize| PITCH * cells as f64 - (PITCH - CELL) + 2.0 * PADDING;
    Ok((length(across).max(NUMBERED), length(machines.div_ceil(across)) + HEAD))
}

fn panel(svg: &mut String, x: f64, y: f64, laying: &Laying) -> Result<(), Refusal> {
    text(svg, x, y, "laying", "start", &laying.title());
    let across = columns(laying.sizes.len())?;
    let extents = laying.sizes.iter().map(|&size| extent(size)).collect::<Result<Vec<_>, _>>()?;
    // Counties of one column are equally wide, and those of one line equally high.
    let width = |column: usize| {
        extents.iter().skip(column).step_by(across).map(|extent| extent.0).fold(0.0, f64::max)
    };
    let height = |line: usize| {
        extents.iter().skip(line * across).take(across).map(|extent| extent.1).fold(0.0, f64::max)
    };
    let mut first = 1;
    for (place, &machines) in laying.sizes.iter().enumerate() {
        let (line_of, column) = (place / across, place % across);
        let left = x + (0..column).map(|column| width(column) + GAP).sum::<f64>();
        let top = y + 12.0 + (0..line_of).map(|line| height(line) + GAP).sum::<f64>();
        let (wide, high) = (width(column), height(line_of));
        line(
            svg,
            &format!("<rect class=\"county\" x=\"{left:.1}\" y=\"{top:.1}\" width=\"{wide:.1}\" height=\"{high:.1}\" rx=\"6\"/>"),
        );
        text(svg, left + wide / 2.0, top + 17.0, "name", "middle", &format!("county {}", place + 1));
        let inner = columns(machines)?;
        let left = left + (wide - PITCH * inner as f64 + (PITCH - CELL)) / 2.0;
        for number in 0..machines {
            let (at_x, at_y) = (PITCH * (number % inner) as f64, PITCH * (number / inner) as f64);
            let row = first + number;
            let needed = laying.wide.to_write.contains(row);
            machine(svg, left + at_x, top + HEAD + PADDING + at_y, Some(row), needed);
        }
        first += machines;
    }
    Ok(())
}

/// A square for a machine that cannot be spared, a ring for one that can.
fn machine(svg: &mut String, x: f64, y: f64, number: Option<usize>, needed: bool) {
    let half = CELL / 2.0;
    let (middle_x, middle_y) = (x + half, y + half);
    line(
        svg,
        &if needed {
            format!("<rect class=\"needed\" x=\"{x:.1}\" y=\"{y:.1}\" width=\"{CELL}\" height=\"{CELL}\" rx=\"2\"/>")
        } else {
            format!(
                "<circle class=\"spare\" cx=\"{middle_x:.1}\" cy=\"{middle_y:.1}\" r=\"{:.1}\"/>",
                half - 0.8
            )
        },
    );
    if let Some(number) = number {
        let class = if needed { "number" } else { "free" };
        text(svg, middle_x, middle_y + 4.6, class, "middle", &number.to_string());
    }
}

#[cfg(test)]
mod tests {
    use super::*;

    #[test]
    fn the_picture_is_as_the_library_answers() {
        let picture = include_str!("../../../docs/counties.svg");
        assert!(
            picture == svg().expect("no refusal"),
            "docs/counties.svg shows something else: run `make pictures`"
        );
    }

    /// What stands above the panels.
    #[test]
    fn each_line_says_what_its_panels_show() {
        for ((_, _, layings), bears) in LINES.into_iter().zip([false, true]) {
            for sizes in layings {
                assert_eq!(Laying::of(sizes).expect("no refusal").bears_any(), bears, "{sizes:?}");
            }
        }
    }
}
