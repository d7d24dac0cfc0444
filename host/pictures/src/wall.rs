//! Draws the wall chart: one sheet with a small grid for each smallest write quorum.

use crate::smallest::Charted;
use pictures::small_grid::{self, Cells, LEGEND};
use pictures::svg::{open, text, Paper};

/// A quarter of a millimetre each on A4.
const WIDTH: f64 = 840.0;
const HEIGHT: f64 = 1188.0;
const MARGIN: f64 = 40.0;
/// Where the first panel begins.
const TOP: f64 = 154.0;
const CELLS: Cells = Cells { width: 16.5, height: 16.5, gap: 2.0 };
/// Between two small grids side by side, and between two lines of them.
const GAP: f64 = 14.0;
const LINE_GAP: f64 = 8.0;
/// A panel's title, and the tables it is for, above its small grids.
const HEAD: f64 = 34.0;
/// Between two panels side by side, and one below the other.
const PANEL_GAP: f64 = 24.0;
const BELOW: f64 = 10.0;
/// Widths of a letter, with room to spare.
const TITLE_LETTER: f64 = 8.6;
const TABLES_LETTER: f64 = 6.8;

const LIGHT: &str = ".sheet { font-size: 27px; font-weight: 700 }
.lead { font-size: 14.5px }
.head { font-size: 15px; font-weight: 700 }
.tables { font-size: 12px; fill: #59636e }";
const DARK: &str = ".tables { fill: #9198a1 }";

pub fn svg(charts: &[Charted]) -> String {
    let shows = "Every smallest write quorum of one to nine machines";
    let (light, dark) = (format!("{LIGHT}\n{}", small_grid::LIGHT), format!("{DARK}\n{}", small_grid::DARK));
    let mut svg = open(WIDTH, HEIGHT, shows, Paper::A4, &light, &dark);
    text(&mut svg, MARGIN, 58.0, "sheet", "start", "Which machines are enough for a write");
    let lead = [
        "Every smallest write quorum of one to nine machines. Take the panel with as many machines as the",
        "list has, numbered in name order: one small grid whose filled machines all answer is a quorum.",
    ];
    for (place, words) in lead.into_iter().enumerate() {
        text(&mut svg, MARGIN, 84.0 + 20.0 * place as f64, "lead", "start", words);
    }
    legend(&mut svg, 136.0);
    for panel in panels(charts) {
        panel.draw(&mut svg);
    }
    svg.push_str("</svg>\n");
    svg
}

fn legend(svg: &mut String, y: f64) {
    let widths = [262.0, 334.0, 0.0];
    let mut x = MARGIN;
    for ((look, words), width) in LEGEND.into_iter().zip(widths) {
        CELLS.cell(svg, (x, y - 13.0), look, "");
        text(svg, x + CELLS.width + 7.0, y, "lead", "start", words);
        x += width;
    }
}

/// The charts of one list, with their place on the sheet.
struct Panel<'a> {
    charted: &'a Charted,
    x: f64,
    y: f64,
    width: f64,
    height: f64,
    /// The small grids, from the panel's corner on.
    grids: Vec<(f64, f64, u16)>,
}

/// All panels, side by side as far as they have room.
fn panels(charts: &[Charted]) -> Vec<Panel<'_>> {
    let mut panels: Vec<Panel> = Vec::new();
    let (mut x, mut y, mut highest) = (MARGIN, TOP, 0.0_f64);
    for charted in charts {
        let mut panel = Panel::of(charted);
        if x + panel.width > WIDTH - MARGIN {
            (x, y, highest) = (MARGIN, y + highest, 0.0);
        }
        (panel.x, panel.y) = (x, y);
        x += panel.width + PANEL_GAP;
        highest = highest.max(panel.height);
        panels.push(panel);
    }
    panels
}

impl Panel<'_> {
    /// Lays the small grids, those that have one column whole in one line.
    fn of(charted: &Charted) -> Panel<'_> {
        let (wide, high) = CELLS.extent(&charted.grid);
        let mut grids = Vec::new();
        let (mut y, mut width) = (HEAD, 0.0_f64);
        for group in charted.grid.by_column(&charted.quorums) {
            let mut x = 0.0;
            for quorum in group {
                grids.push((x, y, quorum));
                width = width.max(x + wide);
                x += wide + GAP;
            }
            y += high + LINE_GAP;
        }
        let title = charted.title().chars().count() as f64 * TITLE_LETTER;
        let tables = charted.tables().chars().count() as f64 * TABLES_LETTER;
        let height = y - LINE_GAP + BELOW;
        Panel { charted, x: 0.0, y: 0.0, width: width.max(title).max(tables), height, grids }
    }

    fn draw(&self, svg: &mut String) {
        let Panel { charted, x, y, .. } = *self;
        text(svg, x, y + 12.0, "head", "start", &charted.title());
        text(svg, x, y + 28.0, "tables", "start", charted.tables());
        for &(grid_x, grid_y, quorum) in &self.grids {
            CELLS
                .draw(svg, (x + grid_x, y + grid_y), &charted.grid, quorum, &|position| position.to_string());
        }
    }
}

#[cfg(test)]
mod tests {
    use super::*;
    use crate::smallest;

    #[test]
    fn every_quorum_has_its_place_on_the_sheet() {
        let charts = smallest::all().expect("no refusal");
        let panels = panels(&charts);
        let drawn: usize = panels.iter().map(|panel| panel.grids.len()).sum();
        assert_eq!(drawn, charts.iter().map(|chart| chart.quorums.len()).sum());
        // Corners of the small grids, and of the heads.
        let mut boxes = Vec::new();
        for Panel { charted, x, y, grids, width, .. } in &panels {
            let (wide, high) = CELLS.extent(&charted.grid);
            boxes.push((*x, *y, x + width, y + HEAD - 4.0));
            boxes.extend(
                grids.iter().map(|(left, top, _)| (x + left, y + top, x + left + wide, y + top + high)),
            );
        }
        for (place, &(left, top, right, bottom)) in boxes.iter().enumerate() {
            assert!(left >= MARGIN && top >= TOP && right <= WIDTH - MARGIN && bottom <= HEIGHT - MARGIN);
            let meets = |other: &&(f64, f64, f64, f64)| {
                left < other.2 && other.0 < right && top < other.3 && other.1 < bottom
            };
            assert_eq!(boxes[place + 1..].iter().find(meets), None);
        }
    }
}
