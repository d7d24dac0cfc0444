//! `chart`: the wall chart of the list in force, with its names.

use crate::arguments::Arguments;
use crate::names;
use crate::store::Kept;
use crate::{Stop, Told};
use dyngrid::{Call, Layout, Refusal, Table};
use pictures::small_grid::{Cells, SmallGrid, DARK, LEGEND, LIGHT};
use pictures::svg::{open, text, Paper};

const CELLS: Cells = Cells { width: 46.0, height: 20.0, gap: 3.0 };
const WIDTH: f64 = 840.0;
const MARGIN: f64 = 32.0;
const TOP: f64 = 130.0;
const GAP: f64 = 26.0;
const LINE_GAP: f64 = 20.0;

pub fn chart(arguments: &mut Arguments) -> Told {
    let Kept { table, here, .. } = Kept::open(&arguments.word("FILE")?)?;
    arguments.end()?;
    let none = || Stop::Refused("no machine has a list, so there is nothing to chart".into());
    let layout = table.layout_in_force(here).ok_or_else(none)?;
    if layout.grid().is_none() {
        return Err(Stop::Refused(
            "a list of several counties has no chart; gridctl if and gridctl weak tell which of its machines are enough".into(),
        ));
    }
    drawn(&table, &layout).map_err(|refusal| Stop::Refused(refusal.notice(Call::Chart, 0).to_string()))
}

/// The chart as a picture; refused for lists that have none.
pub fn drawn(table: &Table, layout: &Layout) -> Result<String, Refusal> {
    let grid = layout.grid().ok_or(Refusal::NoChart)?;
    let quorums = dyngrid::chart(grid.members().len(), layout.mark())?;
    let small = SmallGrid { machines: grid.members().len(), columns: grid.columns() };
    let (wide, high) = CELLS.extent(&small);
    let mut places = Vec::new();
    let mut y = TOP;
    // Those with one column whole begin a line.
    for group in small.by_column(&quorums) {
        let mut x = MARGIN;
        for quorum in group {
            if x + wide > WIDTH - MARGIN {
                (x, y) = (MARGIN, y + high + LINE_GAP);
            }
            places.push((x, y, quorum));
            x += wide + GAP;
        }
        y += high + LINE_GAP;
    }
    let shows = "Which machines are enough for a write";
    let mut svg = open(WIDTH, y - LINE_GAP + MARGIN, shows, Paper::Page, LIGHT, DARK);
    text(
        &mut svg,
        MARGIN,
        42.0,
        "title",
        "start",
        &format!("{shows}, of the list of epoch {}", layout.epoch()),
    );
    text(
        &mut svg,
        MARGIN,
        68.0,
        "lead",
        "start",
        "One small grid whose filled machines are all on is enough, whoever else is on.",
    );
    let mut x = MARGIN;
    for (look, words) in LEGEND {
        CELLS.cell(&mut svg, (x, 88.0), look, "");
        text(&mut svg, x + CELLS.width + 8.0, 103.0, "lead", "start", words);
        x += CELLS.width + 32.0 + 7.2 * words.len() as f64;
    }
    let label = |position: usize| names::name(table, grid.members()[position - 1]).to_string();
    for (x, y, quorum) in places {
        CELLS.draw(&mut svg, (x, y), &small, quorum, &label);
    }
    svg.push_str("</svg>\n");
    Ok(svg)
}
