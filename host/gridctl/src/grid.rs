//! The grid of the list in force, or its grids, with who is off and stale, and what would be done. What is drawn of a grid is told here alone.

use crate::asking::{Asked, Asking};
use crate::names;
use dyngrid::{Grid, Layout, Refusal, Rows, Table};

/// A machine in the grid.
pub struct Cell {
    pub name: u16,
    pub on: bool,
    pub stale: bool,
}

/// How the list in force is laid, and who is on.
pub struct Picture<'a> {
    pub table: &'a Table,
    pub on: Rows,
    pub layout: Option<Layout>,
    asking: Asking,
    /// Those who are off and whose rows are there.
    off: Rows,
}

impl<'a> Picture<'a> {
    /// The list in force is that of all rows that are there.
    pub fn new(table: &'a Table, here: Rows, on: Rows) -> Picture<'a> {
        Picture { table, on, layout: table.layout_in_force(here), asking: Asking::new(table), off: here - on }
    }

    /// The lines of each grid, below the number of its county where there are several.
    pub fn grids(&self) -> Vec<(Option<usize>, Vec<Vec<Cell>>)> {
        let Some(layout) = &self.layout else { return Vec::new() };
        let cell = |&row: &usize| Cell {
            name: names::name(self.table, row),
            on: self.on.contains(row),
            stale: !self.stale_files(row).is_empty(),
        };
        let lines = |grid: &Grid| grid.lines().map(|line| line.iter().map(cell).collect()).collect();
        let several = layout.grid().is_none();
        layout.grids().map(|(county, grid)| (several.then_some(county), lines(grid))).collect()
    }

    /// The lines of the grid of counties, where the list is of several.
    pub fn counties(&self) -> Vec<Vec<usize>> {
        let several = self.layout.as_ref().filter(|layout| layout.grid().is_none());
        several.map_or(Vec::new(), |layout| layout.counties().lines().map(<[usize]>::to_vec).collect())
    }

    /// Have those of a county who are on what such a call needs in its grid?
    pub fn counts(&self, asked: Asked, county: usize) -> bool {
        let mut grids = self.layout.iter().flat_map(Layout::grids);
        grids.any(|(of, grid)| of == county && self.lack(asked, grid).is_none())
    }

    /// The files of which a row's copy is marked as stale.
    fn stale_files(&self, row: usize) -> Vec<usize> {
        let copies = self.table.row(row).map(|view| view.copies).unwrap_or_default();
        copies.iter().filter(|copy| copy.stale).map(|copy| copy.file).collect()
    }

    /// Stale machines, each with the files where there are several.
    pub fn stale(&self) -> Vec<String> {
        let told = |row| {
            let (name, files) = (names::name(self.table, row), self.stale_files(row));
            match (self.table.files(), &files[..]) {
                (_, []) => None,
                (1, _) => Some(name.to_string()),
                _ => Some(format!("{name} ({})", of_files(&files))),
            }
        };
        names::in_order(self.table, self.table.rows()).into_iter().filter_map(told).collect()
    }

    /// Machines that the list in force does not have.
    pub fn left_out(&self) -> Rows {
        self.table.rows() - self.layout.as_ref().map_or(Rows::EMPTY, Layout::list)
    }

    /// One line for each verdict: of which files, and `yes` or why not.
    pub fn verdicts(&self, asked: Asked) -> Vec<(String, Result<(), String>)> {
        let verdicts = self.asking.verdicts(asked, self.on);
        let several = verdicts.len() > 1;
        let told = |(files, refusal): (Vec<usize>, Option<Refusal>)| {
            let of = if several { format!("of {} ", of_files(&files)) } else { String::new() };
            (of, refusal.map_or(Ok(()), |refusal| Err(self.why(asked, files[0], refusal))))
        };
        verdicts.into_iter().map(told).collect()
    }

    /// Why a call would be refused, and whom to switch on.
    fn why(&self, asked: Asked, file: usize, refusal: Refusal) -> String {
        let why = match refusal {
            _ if self.on.is_empty() => "nobody is on".into(),
            Refusal::NoQuorum => self.wanting(asked),
            Refusal::NotCurrent if asked == Asked::Check => {
                "of some file nobody who is on is known to have the newest results".into()
            }
            Refusal::NotCurrent => "nobody who is on is known to have the newest results".into(),
            Refusal::AtLimit => return "no (8): the count has reached 1,000,000; found a new table".into(),
            other => return format!("no: {other}"),
        };
        let number = refusal.number();
        let sets = self.asking.to_switch_on(asked, file, self.on, self.off);
        format!("no ({number}): {why}; {}", self.advice(&sets))
    }

    /// What the machines that are on lack of a quorum.
    fn wanting(&self, asked: Asked) -> String {
        let Some(layout) = &self.layout else { return "no machine has a list".into() };
        let told: Vec<String> = layout
            .grids()
            .filter_map(|(county, grid)| {
                let lack = self.lack(asked, grid)?;
                Some(if layout.grid().is_some() { lack } else { format!("in county {county} {lack}") })
            })
            .collect();
        // The grids do not tell why: no founding leads there.
        if told.is_empty() {
            return "those who are on hold no quorum".into();
        }
        told.join(", ")
    }

    /// What they lack in one grid.
    fn lack(&self, asked: Asked, grid: &Grid) -> Option<String> {
        let columns = || (1..=grid.columns()).map(|column| grid.column(column).collect::<Rows>());
        let empty: Vec<String> = columns()
            .filter(|column| (*column & self.on).is_empty())
            .map(|column| names::joined(self.table, column, ", "))
            .collect();
        let whole = columns().any(|column| column.is_subset(self.on));
        match &empty[..] {
            [] if whole || asked == Asked::Read => None,
            [] => Some("no column is whole".into()),
            [one] => Some(format!("the column {one} has nobody on")),
            several => Some(format!("the columns {} have nobody on", several.join(" and "))),
        }
    }

    fn advice(&self, sets: &[Rows]) -> String {
        const MOST: usize = 8;
        if sets.is_empty() {
            let unknown = self.table.rows() - self.on - self.off;
            return match unknown.len() {
                0 => "no machine that is off helps".into(),
                1 => format!("{} may help, but its row is not here", names::names(self.table, unknown)),
                _ => format!(
                    "some of {} may help, but their rows are not here",
                    names::names(self.table, unknown)
                ),
            };
        }
        let told: Vec<String> =
            sets.iter().take(MOST).map(|&set| names::joined(self.table, set, " and ")).collect();
        let more = if sets.len() > MOST { ", or others" } else { "" };
        format!("switch on {}{more}", told.join(", or "))
    }

    /// The grid as text, and below it who is stale and who is not in it.
    pub fn text(&self) -> String {
        let Some(layout) = &self.layout else { return "no machine has a list\n".into() };
        let counties = self.counties();
        let grid = if counties.is_empty() { "grid" } else { "grids of the counties" };
        let mut text = format!(
            "the {grid} (epoch {}); a machine in brackets is off, * marks a stale copy:\n",
            layout.epoch()
        );
        let mut draw = |heading: Option<String>, lines: Vec<Vec<String>>| {
            text.extend(heading.map(|heading| format!("   {heading}:\n")));
            for line in lines {
                let line: String = line.iter().map(|cell| format!("{cell:^9}")).collect();
                text.push_str(&format!("   {}\n", line.trim_end()));
            }
        };
        if !counties.is_empty() {
            draw(Some("counties".into()), told(&counties, usize::to_string));
        }
        for (county, lines) in self.grids() {
            let told = told(&lines, |cell| {
                let name = format!("{}{}", cell.name, if cell.stale { "*" } else { "" });
                if cell.on {
                    name
                } else {
                    format!("[{name}]")
                }
            });
            draw(county.map(|county| format!("county {county}")), told);
        }
        let mut below = |what: &str, machines: Vec<String>| {
            if !machines.is_empty() {
                text.push_str(&names::wrapped(&format!("   {what}: "), &machines));
            }
        };
        below("stale", self.stale());
        let outside = names::list(self.table, self.left_out());
        below("not in the list", outside.iter().map(u16::to_string).collect());
        for asked in Asked::ALL {
            for (place, (of, verdict)) in self.verdicts(asked).into_iter().enumerate() {
                let word = if place == 0 { asked.word() } else { "" };
                text.push_str(&format!(
                    "   {word:5} {of}{}\n",
                    verdict.err().unwrap_or_else(|| "yes".into())
                ));
            }
        }
        text
    }
}

/// The cells of lines as text.
fn told<T>(lines: &[Vec<T>], cell: impl Fn(&T) -> String) -> Vec<Vec<String>> {
    lines.iter().map(|line| line.iter().map(&cell).collect()).collect()
}

/// As in `file 2`, or `files 1, 3`.
pub fn of_files(files: &[usize]) -> String {
    let plural = if files.len() == 1 { "" } else { "s" };
    format!("file{plural} {}", files.iter().map(usize::to_string).collect::<Vec<_>>().join(", "))
}
