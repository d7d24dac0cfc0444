//! The page in Markdown.

use crate::figures::{full_grid, repair_rate, Columns, Protocols, Unavailable};
use crate::relay::Done;
use crate::runs::{made, shortest};
use std::fmt::Write;

/// A line of the paper's Table 1.
pub struct Said {
    pub machines: usize,
    /// Rows and columns of the static grid.
    pub best: (i32, i32),
    pub fixed: f64,
    /// As it is printed there.
    pub dynamic: &'static str,
}

impl Said {
    /// The figure of the dynamic grid, where there is one.
    pub fn figure(&self) -> Option<f64> {
        self.dynamic.parse().ok()
    }
}

const fn said(machines: usize, best: (i32, i32), fixed: f64, dynamic: &'static str) -> Said {
    Said { machines, best, fixed, dynamic }
}

pub const PAPER: [Said; 7] = [
    said(9, (3, 3), 3268.59e-6, "0.18e-6"),
    said(12, (3, 4), 912.25e-6, "0.6e-10"),
    said(15, (3, 5), 683.60e-6, "1.564e-14"),
    said(16, (4, 4), 1208.75e-6, "negligible"),
    said(20, (4, 5), 250.82e-6, ""),
    said(24, (4, 6), 78.23e-6, ""),
    said(30, (5, 6), 135.90e-6, ""),
];

/// The number of machines that the text speaks of: the first in the paper's table.
const SPOKEN_OF: usize = PAPER[0].machines;

/// What the page is made of.
pub struct Page<'a> {
    pub protocols: &'a Protocols,
    /// For 1 machine, 2, and so on.
    pub columns: &'a [Columns],
    pub up: f64,
    /// Every state of up to so many machines was asked.
    pub explored: usize,
    /// So many of the library, and of the reference with published lists.
    pub states: [usize; 2],
}

impl Page<'_> {
    pub fn text(&self) -> Result<String, String> {
        let parts = [
            self.opening(),
            self.tables(),
            self.paper()?,
            self.lists(),
            self.other_machines(),
            self.model(),
            self.reckoning(),
        ];
        Ok(parts.join("\n"))
    }

    fn spoken_of(&self) -> &Columns {
        &self.columns[SPOKEN_OF - 1]
    }

    fn opening(&self) -> String {
        let Columns { published, wide, tall, voting, .. } = self.spoken_of();
        let [published, wide, tall, voting] =
            [published, wide, tall, voting].map(|dynamic| dynamic.unavailable);
        let (up, paper) = (self.up, PAPER[0].dynamic);
        let shapes = if alike(wide.write, tall.write) { "wide or tall" } else { "wide" };
        format!(
            "# How often the file can be written\n\n\
             ![Part of the time in which the file cannot be written, for 1 to {} machines](availability.svg)\n\n\
             Machines fail and are repaired by chance, each by itself, and each is up {up} of the time; after each failure and repair those that\n\
             are up make a check. This is the model of section 6 of the paper (Rabinovich and Lazowska, SIGMOD 1992). What the machines that are\n\
             up get done is asked of the library. With {SPOKEN_OF} machines the part of the time in which the file cannot be written is\n\n\
             - {} in the library, {shapes}: {};\n\
             - {} if every list is laid as published: {}, {:.0} times as much. A published list of five dies with its third\n\
             \x20 machine, so the library lays five otherwise;\n\
             - {paper} by the paper's own Table 1, which overlooks that five, and takes three to be weaker than they are;\n\
             - {} by dynamic voting, which takes a majority of the last list, for reads too; the grid calls fewer machines ([QUORUMS.md](QUORUMS.md)).\n\n\
             A tall list of two is read by either machine: reads fail {} of the time in a tall table, {} in a wide one.\n\
             `make availability` makes this page and its picture anew.\n",
            self.columns.len(),
            shown(wide.write),
            in_a_year(wide.write),
            shown(published.write),
            in_a_year(published.write),
            published.write / wide.write,
            shown(voting.write),
            shown(tall.read),
            shown(wide.read),
        )
    }

    fn tables(&self) -> String {
        let better = |call: fn(Unavailable) -> f64| {
            let better = self.columns.iter().filter(|columns| {
                let (fixed, checked) = (call(columns.grid), call(columns.wide.unavailable));
                fixed < checked && !alike(fixed, checked)
            });
            let better: Vec<String> = better.map(|columns| columns.machines.to_string()).collect();
            if better.is_empty() {
                "none".into()
            } else {
                better.join(" and ")
            }
        };
        format!(
            "## The figures\n\n\
             - static grid: a wide founding of the library that nobody ever checks;\n\
             - as published: the dynamic grid with all lists in the published grids. **The library does not lay five so**: this column is the second\n\
             \x20 implementation's (`host/reference`), by the rules without the requests;\n\
             - library, wide and tall: the dynamic grid as the library lays it;\n\
             - majority: more than half of all machines must be up; dynamic voting: more than half of the last list;\n\
             - the paper's diagram: Figure 3 of the paper, solved; it starts at three machines.\n\n\
             Parts of the time in which the file cannot be **written**:\n\n{}\n\
             Parts of the time in which it cannot be **read**:\n\n{}\n\
             Checks do not always pay: at {} machines a static grid can be written more often than one that is checked, and at {} read more often. For a\n\
             list that has shrunk to two needs both, until one of the others comes back.\n",
            self.table(|unavailable| unavailable.write),
            self.table(|unavailable| unavailable.read),
            better(|unavailable| unavailable.write),
            better(|unavailable| unavailable.read),
        )
    }

    fn table(&self, call: fn(Unavailable) -> f64) -> String {
        let mut text = String::from(
            "| machines | static grid | as published | library, wide | library, tall | majority | dynamic voting | the paper's diagram |\n\
             |---:|---:|---:|---:|---:|---:|---:|---:|\n",
        );
        for columns in self.columns {
            let Columns { machines, grid, published, wide, tall, majority, voting, paper } = columns;
            let [published, wide, tall, voting, paper] =
                [published, wide, tall, voting, paper].map(|dynamic| shown(call(dynamic.unavailable)));
            let paper = if *machines < 3 { "".into() } else { paper };
            let (grid, majority) = (shown(call(*grid)), shown(call(*majority)));
            add(&mut text, format!("| {machines} | {grid} | {published} | {wide} | {tall} | {majority} | {voting} | {paper} |"));
        }
        text
    }

    fn paper(&self) -> Result<String, String> {
        let mut text = String::from(
            "## Why the paper's figure is another\n\n\
             The paper's table beside ours. Its static grids are those of its \"best\" sizes; by the same formula they come out to the last digit, so\n\
             the machines are the same. Its dynamic figures come out of its diagram, Figure 3, as far as they are printed; so the model is the same too.\n\n\
             | machines | static, paper | formula | dynamic, paper | its diagram, solved | as published | library, wide |\n\
             |---:|---|---|---:|---:|---:|---:|\n",
        );
        for Said { machines, best: (rows, columns), fixed, dynamic } in PAPER {
            let again = full_grid(rows, columns, self.up).write;
            let ours = self.columns.get(machines - 1);
            let ours = ours.map_or(["", "", ""].map(String::from), |ours| {
                [&ours.paper, &ours.published, &ours.wide].map(|dynamic| shown(dynamic.unavailable.write))
            });
            add(
                &mut text,
                format!(
                    "| {machines} | {rows} × {columns}: {:.2}e-6 | {:.2}e-6 | {dynamic} | {} |",
                    fixed * 1e6,
                    again * 1e6,
                    ours.join(" | ")
                ),
            );
        }
        add(
            &mut text,
            "\nThe diagram rests on two sentences about lists, and neither is so:\n\n\
             - \"Any grid constructed in our protocol that contains at least four nodes tolerates a single failure.\" Not five: in two rows and three\n\
             \x20 columns the third machine is a column by itself. Without it nobody reads, writes or checks, so the list cannot shrink either; all\n\
             \x20 wait for that one machine. This makes the true figure of published lists far worse than the printed one.\n\
             - \"All three nodes are needed to collect a quorum\" of three. Not so by the paper's own procedure: the second with the first, or with the\n\
             \x20 third, is enough, and the list goes on with two. This makes it better, and the library's figure is below the printed one."
                .into(),
        );
        let Protocols { published, paper, .. } = self.protocols;
        let run = |machines| shortest(machines, &published.coterie, &paper.coterie);
        let fewest = (1..=SPOKEN_OF)
            .find(|&machines| run(machines).is_some())
            .ok_or("no run of events shows a difference")?;
        for machines in [fewest, SPOKEN_OF] {
            let run = run(machines).ok_or("a run that more machines do not show")?;
            text.push('\n');
            text.push_str(&events(machines, &run)?);
        }
        Ok(text)
    }

    fn lists(&self) -> String {
        let mut text = format!(
            "## Where the time goes\n\n\
             Of the time in which {SPOKEN_OF} machines cannot write, by the length of the list in force, which is the list that lost its quorum:\n\n\
             | list in force | as published | library, wide | library, tall | dynamic voting |\n|---:|---:|---:|---:|---:|\n"
        );
        let Columns { published, wide, tall, voting, .. } = self.spoken_of();
        let all = [published, wide, tall, voting];
        for length in 1..=SPOKEN_OF {
            let parts = all.map(|dynamic| dynamic.stuck[length - 1]);
            if parts.iter().any(|&part| part > 0.0) {
                let parts = parts.map(percent);
                add(&mut text, format!("| {length} | {} |", parts.join(" | ")));
            }
        }
        add(
            &mut text,
            "\nLists of four or more, as the library lays them, bear any one loss, and one loss is all that comes between two checks. So only lists\n\
             of three and of two are left to fail: three when the second machine in name order is lost, two when either is.\n\
             From two machines on no list of one is ever laid: where one of two is lost, the other does not hold a write quorum."
                .into(),
        );
        text
    }

    fn other_machines(&self) -> String {
        let mut text = format!(
            "## Better and worse machines\n\n\
             {SPOKEN_OF} machines, parts of the time in which the file cannot be written, by the part of the time that each machine is up:\n\n\
             | up | static grid | as published | library, wide | library, tall | majority | dynamic voting |\n|---:|---:|---:|---:|---:|---:|---:|\n"
        );
        for up in [0.8, 0.9, 0.95, 0.99, 0.999] {
            let Columns { grid, published, wide, tall, majority, voting, .. } =
                self.protocols.columns(SPOKEN_OF, up);
            let [published, wide, tall, voting] =
                [published, wide, tall, voting].map(|dynamic| dynamic.unavailable);
            let figures =
                [grid, published, wide, tall, majority, voting].map(|unavailable| shown(unavailable.write));
            add(&mut text, format!("| {up} | {} |", figures.join(" | ")));
        }
        text
    }

    fn model(&self) -> String {
        let rate = repair_rate(self.up);
        format!(
            "## The model\n\n\
             It is the paper's, with what a relay does written out:\n\n\
             - Machines fail and are repaired independently, at rates λ while they are up and μ while they are down, with μ = {rate:.0} λ, so that each is\n\
             \x20 up μ / (λ + μ) = {} of the time. Nothing else fails, and a call takes no time.\n\
             - All machines are of one county; lists of several bear less ([COUNTIES.md](COUNTIES.md)).\n\
             - After each event, and before the next, the machines that are up make a check. If it is done, they are the list in force. If it is\n\
             \x20 refused, the list stays until enough of its members are up again; machines outside the list can be up meanwhile, and are taken in then.\n\
             - After each check and each write the relay sends to the rows that were marked as stale, before the next event. So every row that the last\n\
             \x20 write had in its set is current, that set held a write quorum, and each quorum for a read, a write or a check has one of its rows:\n\
             \x20 question 7 is always answered yes, and what is refused is refused by 6. (The paper puts total writes in place of this.) Where nobody\n\
             \x20 sends, it is otherwise: each of five machines writes once, then one is lost, and the others can be refused by 7 (a test shows it).\n\
             - Machines that are not up have rows of lower epochs, which do not matter; when they come back, a check takes them in.\n\n\
             Machines whose line is cut while they run on, checks that come late and machines that fail together are not in the model. They make the\n\
             figures worse, the smallest ones most: what these say is that such things, and not the grid, will be what stops the file.\n",
            self.up
        )
    }

    fn reckoning(&self) -> String {
        let dynamics = || self.columns.iter().flat_map(Columns::dynamics);
        let residual = dynamics().map(|dynamic| dynamic.residual).fold(0.0, f64::max);
        let states = dynamics().map(|dynamic| dynamic.states).max().unwrap_or(0);
        let Page { explored, states: [asked, published], .. } = self;
        let most = self.columns.len();
        format!(
            "## How it is reckoned\n\n\
             - **A state is the list in force and the machines that are up.** Each of the {} states that come up with 1 to {explored} machines,\n\
             \x20 wide and tall, was asked of the library on a real table, founded and led there by checks, writes and sends: check, write and read by each\n\
             \x20 machine that is up. (So were {} states of the reference, for published lists.) A refused call alters no byte, so one table serves each\n\
             \x20 list in force.\n\
             - **States are put together by the length of the list, the positions of its members that are up, and the number of other machines that are\n\
             \x20 up.** The program compares: nothing else counted in any of these states. Every set of positions of every list of up to {most} machines was\n\
             \x20 asked of the library; that nothing else counts in tables of more than {explored} is taken from the definition of a quorum.\n\
             - **Sets of positions are put together** where they allow the same reads and have equally many ways to each class of sets, for\n\
             \x20 failures and for repairs. The program finds these classes by cutting until this is so, and then looks at every set again. Sums over such\n\
             \x20 classes are a Markov chain again; {states} states are left at most.\n\
             - **The chain is solved by elimination without a subtraction** (Grassmann, Taksar and Heyman 1985), so small parts are as exact as large\n\
             \x20 ones. In every chain, in every state, what comes in and what goes out differ by no more than {residual:.0e} of it.\n\
             - **Other ways to the same figures**, in the tests: balance equations of three and four machines written by hand and solved by Gauss; the\n\
             \x20 paper's diagram against the paper's figures; the reference in every state of up to six machines, byte for byte; long\n\
             \x20 walks by chance on one table of the library, with margins of error.\n\n\
             `make availability` takes some ten seconds and twenty megabytes, and tells how it gets on; it stops itself after two minutes. The tests are run by\n\
             `make host` and by the gate.\n",
            grouped(*asked),
            grouped(*published),
        )
    }
}

/// A run of events, and what came of it.
fn events(machines: usize, run: &[usize]) -> Result<String, String> {
    let steps = made(machines, run)?;
    let events = if run.len() == 1 { "one event".into() } else { format!("{} events", run.len()) };
    let mut text = format!(
        "With {machines} machines the shortest run that shows it is {events}. After an event the machines that are up make a check, then write and read:\n\n\
         | event | machines up | lists as published | the library, wide |\n|---|---|---|---|\n"
    );
    let words = |done: Done| match (done.write, done.read) {
        (true, true) => "all done",
        (false, true) => "check and write refused by 6",
        _ => "check, write and read refused by 6",
    };
    for step in steps {
        let event = if step.up.contains(step.machine) { "is repaired" } else { "fails" };
        add(
            &mut text,
            format!(
                "| {} {event} | {} | {} | {} |",
                step.machine,
                step.up,
                words(step.published),
                words(step.library)
            ),
        );
    }
    Ok(text)
}

fn add(text: &mut String, line: String) {
    writeln!(text, "{line}").expect("a string takes all");
}

/// Three digits.
fn shown(part: f64) -> String {
    format!("{part:.2e}")
}

/// Of a hundred; nothing for 0.
fn percent(part: f64) -> String {
    match part * 100.0 {
        0.0 => String::new(),
        small if small < 0.01 => "below 0.01 %".into(),
        percent => format!("{percent:.2} %"),
    }
}

/// Do two figures differ by rounding at most?
fn alike(one: f64, two: f64) -> bool {
    (one - two).abs() <= 1e-9 * one.max(two)
}

/// A part of the time, as time in a year.
fn in_a_year(part: f64) -> String {
    let seconds = part * 365.0 * 24.0 * 3600.0;
    let (count, unit) = match seconds {
        seconds if seconds < 90.0 => (seconds, "seconds"),
        seconds if seconds < 90.0 * 60.0 => (seconds / 60.0, "minutes"),
        _ => (seconds / 3600.0, "hours"),
    };
    format!("{count:.0} {unit} a year")
}

/// With a comma before each three digits.
fn grouped(number: usize) -> String {
    let digits = number.to_string();
    let places = digits.char_indices().map(|(place, digit)| {
        let comma = place > 0 && (digits.len() - place).is_multiple_of(3);
        format!("{}{digit}", if comma { "," } else { "" })
    });
    places.collect()
}
