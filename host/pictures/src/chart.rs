//! A chart in steps.

use crate::measure::Sizes;
use pictures::svg::{line, open, text, Paper};

const WIDTH: f64 = 760.0;
const HEIGHT: f64 = 440.0;
const LEFT: f64 = 64.0;
const RIGHT: f64 = 24.0;
const TOP: f64 = 52.0;
const BOTTOM: f64 = 60.0;
const MOST_MACHINES: f64 = 64.0;
const MOST_CALLED: f64 = 35.0;

const LIGHT: &str = ".grid { stroke: #d8dee4; stroke-width: 1 }
.axis { stroke: #59636e; stroke-width: 1.5 }
.line { fill: none; stroke-width: 2.5; stroke-linejoin: round }
.majority { stroke: #bc4c00; stroke-dasharray: 7 4 }
.write { stroke: #0969da }
.read { stroke: #1a7f37; stroke-dasharray: 2 3 }
.tall { stroke: #8250df }
.from { stroke: #59636e; stroke-width: 1; stroke-dasharray: 3 3 }";
const DARK: &str = ".grid { stroke: #30363d }
.axis { stroke: #9198a1 }
.majority { stroke: #f0883e }
.write { stroke: #58a6ff }
.read { stroke: #3fb950 }
.tall { stroke: #bc8cff }
.from { stroke: #9198a1 }";

pub fn svg(wide: &[Sizes], tall: &[Sizes]) -> String {
    let mut svg = open(WIDTH, HEIGHT, "Machines called", Paper::Page, LIGHT, DARK);
    text(&mut svg, LEFT, 30.0, "title", "start", "Machines called by one coordinator, all answering");
    axes(&mut svg);
    mark(&mut svg, fewer_from(wide));
    series(&mut svg, "majority", wide, |sizes| sizes.machines / 2 + 1);
    series(&mut svg, "write", wide, |sizes| sizes.write.most);
    series(&mut svg, "tall", tall, |sizes| sizes.read.most);
    series(&mut svg, "read", wide, |sizes| sizes.read.most);
    legend(&mut svg);
    svg.push_str("</svg>\n");
    svg
}

fn x(machines: usize) -> f64 {
    LEFT + (WIDTH - LEFT - RIGHT) * machines as f64 / MOST_MACHINES
}

fn y(called: usize) -> f64 {
    HEIGHT - BOTTOM - (HEIGHT - TOP - BOTTOM) * called as f64 / MOST_CALLED
}

fn axes(svg: &mut String) {
    let (bottom, top, left, right) = (y(0), y(MOST_CALLED as usize), x(0), x(MOST_MACHINES as usize));
    for called in (0..=35).step_by(5) {
        let at = y(called);
        line(svg, &format!("<path class=\"grid\" d=\"M{left:.1} {at:.1}H{right:.1}\"/>"));
        text(svg, left - 10.0, at + 5.0, "tick", "end", &called.to_string());
    }
    for machines in (0..=64).step_by(8) {
        text(svg, x(machines), bottom + 22.0, "tick", "middle", &machines.to_string());
    }
    line(
        svg,
        &format!("<path class=\"axis\" fill=\"none\" d=\"M{left:.1} {top:.1}V{bottom:.1}H{right:.1}\"/>"),
    );
    text(svg, (left + right) / 2.0, HEIGHT - 14.0, "label", "middle", "machines in the list");
    let middle = (top + bottom) / 2.0;
    line(
        svg,
        &format!("<text text-anchor=\"middle\" transform=\"translate(22 {middle:.1}) rotate(-90)\">machines called</text>"),
    );
}

/// The length from which on every write calls fewer than a majority.
fn fewer_from(sizes: &[Sizes]) -> usize {
    let not_fewer = |sizes: &&Sizes| sizes.write.most > sizes.machines / 2;
    sizes.iter().rev().find(not_fewer).map_or(1, |sizes| sizes.machines + 1)
}

fn mark(svg: &mut String, machines: usize) {
    // Between two lengths, where the step is.
    let at = x(machines) - (x(1) - x(0)) / 2.0;
    line(svg, &format!("<path class=\"from\" d=\"M{at:.1} {:.1}V{:.1}\"/>", y(0), y(16)));
    let words = format!("from {machines} machines on a write calls fewer than a majority");
    text(svg, at + 6.0, y(1) + 2.0, "tick", "start", &words);
}

/// A step for each length, around it.
fn series(svg: &mut String, class: &str, sizes: &[Sizes], called: fn(&Sizes) -> usize) {
    let half = (x(1) - x(0)) / 2.0;
    let mut path = String::new();
    for (place, sizes) in sizes.iter().enumerate() {
        let (from, to, at) = (x(sizes.machines) - half, x(sizes.machines) + half, y(called(sizes)));
        let begin = if place == 0 { format!("M{from:.1} {at:.1}") } else { format!("V{at:.1}") };
        path.push_str(&format!("{begin}H{to:.1}"));
    }
    line(svg, &format!("<path class=\"line {class}\" d=\"{path}\"/>"));
}

fn legend(svg: &mut String) {
    let entries = [
        ("majority", "majority, as a vote needs"),
        ("write", "write, at most, wide and tall"),
        ("read", "read, wide"),
        ("tall", "read, tall"),
    ];
    line(
        svg,
        &format!(
            "<rect class=\"panel\" x=\"{:.1}\" y=\"{:.1}\" width=\"270\" height=\"100\"/>",
            LEFT + 16.0,
            TOP + 6.0
        ),
    );
    for (index, (class, words)) in entries.into_iter().enumerate() {
        let at = TOP + 20.0 + 24.0 * index as f64;
        line(svg, &format!("<path class=\"line {class}\" d=\"M{:.1} {at:.1}h36\"/>", LEFT + 24.0));
        text(svg, LEFT + 70.0, at + 5.0, "entry", "start", words);
    }
}

#[cfg(test)]
mod tests {
    use super::*;
    use crate::measure;
    use dyngrid::Shape;

    /// README.md says so, too.
    #[test]
    fn a_write_calls_fewer_than_a_majority_from_14_machines_on() {
        for shape in [Shape::Wide, Shape::Tall] {
            let sizes: Result<Vec<Sizes>, _> =
                (1..=64).map(|machines| measure::sizes(machines, shape)).collect();
            assert_eq!(fewer_from(&sizes.expect("no refusal")), 14);
        }
        let page = include_str!("../../../README.md");
        assert!(page.contains("fewer only from 14 on"));
    }
}
