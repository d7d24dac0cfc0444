//! `page`: one page of HTML, without script.

use crate::arguments::Arguments;
use crate::asking::Asked;
use crate::grid::{Cell, Picture};
use crate::show::opened;
use crate::{chart, names, Told};

const STYLE: &str = "\
:root { color-scheme: light dark; --fine: #1a7f37; --due: #9a6700; --no: #cf222e; --away: #59636e; --line: #8c959f }
@media screen and (prefers-color-scheme: dark) { :root { --fine: #3fb950; --due: #d29922; --no: #ff7b72; --away: #9198a1; --line: #656c76 } }
body { font: 16px/1.5 system-ui, sans-serif; max-width: 56rem; margin: 2rem auto; padding: 0 1rem; background: Canvas; color: CanvasText }
h1 { font-size: 1.5rem } h2 { font-size: 1.15rem; margin-top: 2rem } h3 { font-size: 1rem; margin: .5rem 0 0 .4rem }
table { border-collapse: separate; border-spacing: .4rem }
.side { display: flex; flex-wrap: wrap; gap: .5rem 2rem }
.side > div, pre, figure { overflow-x: auto; max-width: 100% } figure { margin: 0 }
.grid td { border: 2px solid var(--fine); border-radius: .3rem; padding: .4rem .8rem; text-align: center; font-weight: 600 }
.grid td.off { border: 2px dashed var(--line); color: var(--away); font-weight: 400 }
.grid td.stale { border-color: var(--due) }
.grid small { display: block; font-weight: 400 }
.verdicts th { text-align: left; padding-right: 1rem; vertical-align: top }
.yes { color: var(--fine); font-weight: 600 } .no { color: var(--no); font-weight: 600 }
svg { width: 100%; min-width: 34rem; height: auto } svg .panel { fill: none }
@media print { body { margin: 0; max-width: none } .grid, svg { break-inside: avoid } }";

pub fn page(arguments: &mut Arguments) -> Told {
    let (kept, on) = opened(arguments)?;
    let picture = Picture::new(&kept.table, kept.here, on);
    Ok(html(&picture))
}

fn html(picture: &Picture) -> String {
    let table = picture.table;
    let mut page = format!(
        "<!DOCTYPE html>\n<html lang=\"en\">\n<head>\n<meta charset=\"utf-8\">\n<meta name=\"viewport\" content=\"width=device-width\">\n\
         <title>The grid of {} machines</title>\n<style>\n{STYLE}\n</style>\n</head>\n<body>\n<h1>The grid of {} machines</h1>\n",
        table.used(),
        table.used()
    );
    let mut add = |text: &str| {
        page.push_str(text);
        page.push('\n');
    };
    add("<h2>What would be done now</h2>\n<table class=\"verdicts\">");
    for asked in Asked::ALL {
        for (of, verdict) in picture.verdicts(asked) {
            let (class, told) = match verdict {
                Ok(()) => ("yes", "yes".to_string()),
                Err(why) => ("no", why),
            };
            add(&format!("<tr><th>{} {of}</th><td class=\"{class}\">{told}</td></tr>", asked.word()));
        }
    }
    add("</table>");
    let told = |rows| names::list(table, rows).iter().map(u16::to_string).collect();
    let lines: [(&str, Vec<String>); 3] = [
        ("Off", told(table.rows() - picture.on)),
        ("Stale (a send is due)", picture.stale()),
        ("Not in the list (a check is due)", told(picture.left_out())),
    ];
    for (what, machines) in lines.into_iter().filter(|(_, machines)| !machines.is_empty()) {
        add(&format!("<p>{what}: <b>{}</b></p>", machines.join(", ")));
    }
    match &picture.layout {
        Some(layout) => add(&format!("<h2>The list in force, of epoch {}</h2>", layout.epoch())),
        None => add("<p>No machine has a list.</p>"),
    }
    let counties = picture.counties();
    add("<div class=\"side\">");
    if !counties.is_empty() {
        add(&format!("<div>\n<h3>Its counties</h3>\n{}\n</div>", grid(&counties, |of| county(picture, *of))));
    }
    for (of, lines) in picture.grids() {
        let heading = of.map_or(String::new(), |county| format!("<h3>County {county}</h3>\n"));
        add(&format!("<div>\n{heading}{}\n</div>", grid(&lines, machine)));
    }
    add("</div>\n<p>A read needs one machine of each column, a write or a check also a whole column.</p>");
    if !counties.is_empty() {
        add("<p>Of the counties it needs the same: a county counts where it has the machines that it needs.</p>");
    }
    if let Some(Ok(svg)) = picture.layout.as_ref().map(|layout| chart::drawn(table, layout)) {
        add(&format!("<h2>The wall chart</h2>\n<figure>\n{}\n</figure>", svg.trim_end()));
    }
    add(&format!("<h2>Every machine</h2>\n<pre>{:#}</pre>\n</body>\n</html>", table.show(picture.on)));
    page
}

/// A grid as a table.
fn grid<T>(lines: &[Vec<T>], cell: impl Fn(&T) -> String) -> String {
    let lines = lines.iter().map(|line| format!("<tr>{}</tr>\n", line.iter().map(&cell).collect::<String>()));
    format!("<table class=\"grid\">\n{}</table>", lines.collect::<String>())
}

/// A county in the grid of counties, with what it counts for.
fn county(picture: &Picture, county: usize) -> String {
    let (class, state) = match Asked::ALL.map(|asked| picture.counts(asked, county)) {
        [_, true, _] => ("on", "counts"),
        [true, ..] => ("stale", "counts for a read"),
        _ => ("off", "does not count"),
    };
    format!("<td class=\"{class}\">{county}<small>{state}</small></td>")
}

/// A machine in its grid.
fn machine(cell: &Cell) -> String {
    let class = if !cell.on {
        "off"
    } else if cell.stale {
        "stale"
    } else {
        "on"
    };
    let state = match (cell.on, cell.stale) {
        (true, false) => "on",
        (true, true) => "on, stale",
        (false, false) => "off",
        (false, true) => "off, stale",
    };
    format!("<td class=\"{class}\">{}<small>{state}</small></td>", cell.name)
}
