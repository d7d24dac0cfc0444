//! Lines over a logarithmic scale.

use crate::figures::Columns;
use crate::page::PAPER;
use pictures::svg::{line, open, text, Paper};

const WIDTH: f64 = 760.0;
const HEIGHT: f64 = 580.0;
const LEFT: f64 = 74.0;
const RIGHT: f64 = 24.0;
const TOP: f64 = 72.0;
const BOTTOM: f64 = 60.0;
/// The scale goes down to ten to minus this.
const DECADES: i32 = 18;

const LIGHT: &str = ".grid { stroke: #d8dee4; stroke-width: 1 }
.axis { stroke: #59636e; stroke-width: 1.5 }
.line { fill: none; stroke-width: 2; stroke-linejoin: round }
.mark { stroke-width: 1.5 }
.static { stroke: #59636e; stroke-dasharray: 2 3 }
.majority { stroke: #bc4c00; stroke-dasharray: 8 4 }
.published { stroke: #cf222e; stroke-dasharray: 10 3 2 3 }
.wide { stroke: #0969da }
.tall { stroke: #8250df }
.voting { stroke: #1a7f37; stroke-dasharray: 4 3 }
.paper { stroke: #1f2328 }
.full { fill: #0969da }
.hollow { fill: #ffffff }
.open { fill: none }";
const DARK: &str = ".grid { stroke: #30363d }
.axis { stroke: #9198a1 }
.static { stroke: #9198a1 }
.majority { stroke: #f0883e }
.published { stroke: #ff7b72 }
.wide { stroke: #58a6ff }
.tall { stroke: #bc8cff }
.voting { stroke: #3fb950 }
.paper { stroke: #e6edf3 }
.full { fill: #58a6ff }
.hollow { fill: #0d1117 }";

type Figure = fn(&Columns) -> f64;

/// Class, words and figure of each line, in the order of the legend, from the top of the picture down.
const SERIES: [(&str, &str, Figure); 6] = [
    ("static", "static grid, never checked", |columns| columns.grid.write),
    ("majority", "majority voting", |columns| columns.majority.write),
    ("published", "dynamic grid, lists as published", |columns| columns.published.unavailable.write),
    ("tall", "the library, tall", |columns| columns.tall.unavailable.write),
    ("wide", "the library, wide", |columns| columns.wide.unavailable.write),
    ("voting", "dynamic voting", |columns| columns.voting.unavailable.write),
];

pub fn svg(columns: &[Columns], up: f64) -> String {
    let mut svg =
        open(WIDTH, HEIGHT, "Part of the time in which the file cannot be written", Paper::Page, LIGHT, DARK);
    text(&mut svg, LEFT, 30.0, "title", "start", "Part of the time in which the file cannot be written");
    let below = format!("each machine up {up} of the time, a check after each change; lower is better");
    text(&mut svg, LEFT, 52.0, "below", "start", &below);
    let most = columns.len();
    axes(&mut svg, most);
    for (class, _, figure) in SERIES {
        let points: Vec<(f64, f64)> =
            columns.iter().map(|columns| (x(columns.machines, most), y(figure(columns)))).collect();
        let path: Vec<String> = points.iter().map(|(x, y)| format!("{x:.1},{y:.1}")).collect();
        line(&mut svg, &format!("<polyline class=\"line {class}\" points=\"{}\"/>", path.join(" ")));
        points.iter().for_each(|&(x, y)| mark(&mut svg, class, x, y));
    }
    for said in PAPER {
        if let Some(figure) = said.figure() {
            mark(&mut svg, "paper", x(said.machines, most), y(figure));
        }
    }
    legend(&mut svg);
    svg.push_str("</svg>\n");
    svg
}

fn x(machines: usize, most: usize) -> f64 {
    LEFT + (WIDTH - LEFT - RIGHT) * machines as f64 / (most as f64 + 0.5)
}

fn y(part: f64) -> f64 {
    TOP - (HEIGHT - TOP - BOTTOM) * part.log10() / f64::from(DECADES)
}

fn axes(svg: &mut String, most: usize) {
    let (left, right, top, bottom) = (LEFT, WIDTH - RIGHT, y(1.0), y(10_f64.powi(-DECADES)));
    for decade in (0..=DECADES).step_by(2) {
        let at = y(10_f64.powi(-decade));
        line(svg, &format!("<path class=\"grid\" d=\"M{left:.1} {at:.1}H{right:.1}\"/>"));
        let words = if decade == 0 { "1".into() } else { format!("1e-{decade}") };
        text(svg, left - 10.0, at + 5.0, "tick", "end", &words);
    }
    for machines in 1..=most {
        text(svg, x(machines, most), bottom + 22.0, "tick", "middle", &machines.to_string());
    }
    line(
        svg,
        &format!("<path class=\"axis\" fill=\"none\" d=\"M{left:.1} {top:.1}V{bottom:.1}H{right:.1}\"/>"),
    );
    text(svg, (left + right) / 2.0, HEIGHT - 14.0, "label", "middle", "machines");
}

/// The mark of a class: each has its own form.
fn mark(svg: &mut String, class: &str, x: f64, y: f64) {
    let (shape, fill) = match class {
        "static" => (polygon(x, y, &[(-4.5, -4.5), (4.5, -4.5), (4.5, 4.5), (-4.5, 4.5)]), "hollow"),
        "majority" => (polygon(x, y, &[(0.0, -6.0), (5.5, 4.5), (-5.5, 4.5)]), "hollow"),
        "published" => (polygon(x, y, &[(0.0, -6.5), (6.0, 0.0), (0.0, 6.5), (-6.0, 0.0)]), "hollow"),
        "wide" => (format!("<circle cx=\"{x:.1}\" cy=\"{y:.1}\" r=\"3.5\""), "full"),
        "tall" => (polygon(x, y, &[(-6.5, -6.5), (6.5, -6.5), (6.5, 6.5), (-6.5, 6.5)]), "open"),
        "voting" => (polygon(x, y, &[(-5.5, -4.5), (5.5, -4.5), (0.0, 6.0)]), "hollow"),
        _ => (
            format!("<path d=\"M{:.1} {:.1}l10 10m0 -10l-10 10\" stroke-width=\"3\"", x - 5.0, y - 5.0),
            "open",
        ),
    };
    // A mark's outline is never broken.
    line(svg, &format!("{shape} class=\"mark {class} {fill}\" style=\"stroke-dasharray: none\"/>"));
}

fn polygon(x: f64, y: f64, corners: &[(f64, f64)]) -> String {
    let corners: Vec<String> =
        corners.iter().map(|(right, down)| format!("{:.1},{:.1}", x + right, y + down)).collect();
    format!("<polygon points=\"{}\"", corners.join(" "))
}

fn legend(svg: &mut String) {
    let entries = SERIES
        .map(|(class, words, _)| (class, words))
        .into_iter()
        .chain([("paper", "the paper's Table 1, dynamic grid")]);
    let (left, top, step) = (LEFT + 18.0, y(10_f64.powi(-DECADES)) - 188.0, 25.0);
    line(
        svg,
        &format!("<rect class=\"panel\" x=\"{left:.1}\" y=\"{top:.1}\" width=\"318\" height=\"180\"/>"),
    );
    for (index, (class, words)) in entries.enumerate() {
        let at = top + 16.0 + step * index as f64;
        if class != "paper" {
            line(svg, &format!("<path class=\"line {class}\" d=\"M{:.1} {at:.1}h44\"/>", left + 4.0));
        }
        mark(svg, class, left + 26.0, at);
        text(svg, left + 60.0, at + 5.0, "entry", "start", words);
    }
}
