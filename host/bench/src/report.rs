//! What was measured, as a page in Markdown.

use crate::tasks::{Carried, Task, ORDER_BYTES};
use std::fmt::Write;
use std::process::Command;

/// Best times of one call in nanoseconds.
pub struct Timing {
    pub state: String,
    pub call: String,
    pub library: f64,
    pub reference: f64,
    /// One look at the bytes of the table, where the call looks over it.
    pub look: Option<f64>,
    /// Of a send where windows are full.
    pub carried: Option<Carried>,
}

impl Timing {
    fn ratio(&self) -> f64 {
        self.library / self.reference
    }

    /// As one process tells another: the parts with tabs between them.
    pub fn line(&self) -> String {
        let look = self.look.map_or("-".into(), |look| look.to_string());
        let line = format!("{}\t{}\t{}\t{}\t{look}", self.state, self.call, self.library, self.reference);
        match &self.carried {
            Some(Carried { given, changed, ranges }) => format!("{line}\t{given}\t{changed}\t{ranges}"),
            None => line,
        }
    }

    pub fn of_line(line: &str) -> Option<Timing> {
        let mut parts = line.split('\t');
        let (state, call) = (parts.next()?.into(), parts.next()?.into());
        let (library, reference) = (parts.next()?.parse().ok()?, parts.next()?.parse().ok()?);
        let look = match parts.next()? {
            "-" => None,
            look => Some(look.parse().ok()?),
        };
        let numbers: Option<Vec<usize>> = parts.map(|part| part.parse().ok()).collect();
        let carried = match numbers?[..] {
            [given, changed, ranges] => Some(Carried { given, changed, ranges }),
            [] => None,
            _ => return None,
        };
        Some(Timing { state, call, library, reference, look, carried })
    }

    /// Takes the better times of two processes.
    pub fn take(&mut self, other: Timing) {
        self.library = self.library.min(other.library);
        self.reference = self.reference.min(other.reference);
        self.look = self.look.zip(other.look).map(|(look, other)| look.min(other));
    }
}

/// The timings as a table.
pub fn table(timings: &[Timing]) -> String {
    let mut text = String::from(
        "| table | call | library, ns | reference, ns | library / reference | one look, ns | library / look |\n",
    );
    text.push_str("|---|---|---:|---:|---:|---:|---:|\n");
    for timing in timings {
        let Timing { state, call, library, reference, look, .. } = timing;
        let look = look.map_or("| | |".into(), |look| format!("| {look:.0} | {:.2} |", library / look));
        writeln!(text, "| {state} | {call} | {library:.0} | {reference:.0} | {:.2} {look}", timing.ratio())
            .expect("a string takes all");
    }
    text
}

/// What sends carry, as a table.
fn carried(timings: &[Timing]) -> String {
    let mut text = String::from("| table | call | library, ns | the sender gives, bytes | change in the receiver's row, bytes | in ranges |\n");
    text.push_str("|---|---|---:|---:|---:|---:|\n");
    for timing in timings {
        if let Some(Carried { given, changed, ranges }) = timing.carried {
            let Timing { state, call, library, .. } = timing;
            writeln!(text, "| {state} | {call} | {library:.0} | {given} | {changed} | {ranges} |")
                .expect("a string takes all");
        }
    }
    text
}

/// An order of a round against a single write of as many bytes in the same table, both the library's.
fn orders(timings: &[Timing]) -> String {
    let (write, round) = (Task::Write(ORDER_BYTES).to_string(), Task::Round.to_string());
    let mut text =
        format!("| table | {write}, ns | an order of a round, ns | order / write |\n|---|---:|---:|---:|\n");
    for timing in timings.iter().filter(|timing| timing.call == round) {
        let single = timings.iter().find(|other| other.state == timing.state && other.call == write);
        let single = single.expect("timed beside the round").library;
        let order = timing.library / f64::from(Task::Round.writes());
        writeln!(text, "| {} | {single:.0} | {order:.0} | {:.2} |", timing.state, order / single)
            .expect("a string takes all");
    }
    text
}

/// How often the library is slower, and by how much.
pub fn verdict(timings: &[Timing]) -> String {
    let mut ratios: Vec<f64> = timings.iter().map(Timing::ratio).collect();
    ratios.sort_by(f64::total_cmp);
    let count = ratios.len();
    let above = ratios.iter().filter(|&&ratio| ratio > 1.0).count();
    let (lowest, median, highest) = (ratios[0], ratios[count / 2], ratios[count - 1]);
    let slower = match above {
        0 => format!("None of {count} ratios is above 1."),
        _ => format!("Of {count} ratios {above} are above 1: there the library is slower."),
    };
    format!("{slower} The lowest is {lowest:.2}, the median {median:.2}, the highest {highest:.2}.")
}

/// The whole page; `load` as it was before the run, `runs` as many as each process made of each call.
pub fn page(timings: &[Timing], load: &str, runs: usize, processes: usize) -> String {
    format!(
        "# Benchmarks\n\n\
         Each call, the library's and the reference's (plain Rust that takes no memory, `host/reference`), on the same tables in one run, both\n\
         optimised. A time is the best of {runs} runs of many calls, the two engines by turns, in each of {processes} processes; every run starts from the\n\
         same table.\n\n\
         {}\n\n\
         The tables:\n\n\
         - founded: as a founding leaves it, all windows empty; all machines answer;\n\
         - windows full of 3 bytes each (or 32): after 40 writes of so many bytes that every machine has, so that each window has its 16 patches; all\n\
         \x20 machines answer;\n\
         - two epochs by turns: the odd rows have a list of their own and a higher epoch than the even ones; the odd rows answer;\n\
         - reversed chain: names rise while the indexes of their rows fall; all machines answer;\n\
         - list of three quarters: after a check that a quarter of the machines missed; the others answer;\n\
         - a quorum answers: founded, and no more than a write quorum answers; of the coordinator's own choice too few do, so that the call goes\n\
         \x20 on to all that answered;\n\
         - one row left: founded, with one unused row;\n\
         - a quarter joined: three quarters founded, the others joined, each behind one of them, and not yet taken in by a check; those founded answer;\n\
         - a joined row coordinates: the same table; it has no choice of its own, so that the call works on all that answered; all machines answer;\n\
         - 5 of 64 rows used: founded, with 59 unused rows to be found all zero; all five answer;\n\
         - tall: founded tall, all others wide; all machines answer;\n\
         - four counties: founded with as many machines of each of four counties, all others of one; all machines answer;\n\
         - 8 files: a group, all others are of one file. The last file is read, written and sent. Every call looks over the copies of all files\n\
         \x20 once, to see that the table is well formed; then a read, write or send polls the copies of its file, a check those of all eight.\n\n\
         Row 1 coordinates, if nothing else is said. Before each send the receiver is made stale again, which is in the times of both. A send of the\n\
         whole file has a sender whose window does not reach back to the receiver's version; a refused send has a receiver that is not stale. A write of\n\
         16 bytes fills the windows of the rows that it writes within a run's first 16 calls, wherever it begins. Writes, rounds and checks are lent a sheet\n\
         without limits, a write that is refused by 18 one whose ceilings are 0. The orders of a round are row 1's, in as many places of the file\n\
         as it has. A check with a new list leaves out the\n\
         last row and takes it in again by turns. A joining comes in the middle of the chain, and is undone before the next one, which is in the times\n\
         of both. A chart is of as many members as there are machines, in the published grid, and looks at no table; the reference puts its sets together\n\
         from columns. A choice is that of row 1, whose own list is of all machines. A move goes from form 2 up to form 3, or down, with the\n\
         same rows.\n\n\
         One look: the time of a plain loop that goes once over the bytes that say whether the table is well formed (header, heads, numbers and windows\n\
         of the copies, rows that are not used; not the contents) and does nothing else. Every call must look at each of them before it answers; what it takes\n\
         beside that is to compare, to choose, to poll and to store. All of it is little beside a relay's round trip: see the last column of\n\
         [RELAY-BENCH.md](RELAY-BENCH.md).\n\n\
         {}\n\
         ## An order of a round against a single write\n\n\
         A round of 64 orders looks over the table once, to see that it is well formed, where 64 writes do so 64 times. A 64th of its time, and the time of a\n\
         single write of as many bytes in the same table, both the library's:\n\n\
         {}\n\
         ## What a send carries\n\n\
         Of the sender's row a send looks at the head and at the copy of its file alone; where the window reaches back to the receiver's version, at\n\
         that copy without its contents, and so its machine need not give them ([RELAY.md](RELAY.md#what-a-send-carries)). What then changes in the\n\
         receiver's row does not grow with the file. The receiver of a whole file is 17 patches behind.\n\n\
         {}\n\
         - machine: {}, load {load} when the run began\n- compiler of the reference: {}\n- to measure again: `make bench`\n",
        verdict(timings),
        table(timings),
        orders(timings),
        carried(timings),
        processor(),
        compiler(),
    )
}

fn processor() -> String {
    let info = std::fs::read_to_string("/proc/cpuinfo").unwrap_or_default();
    let model =
        info.lines().find(|line| line.starts_with("model name")).and_then(|line| line.split(": ").nth(1));
    model.unwrap_or("unknown").to_string()
}

/// Processes that want to run, over the last minute.
pub fn load() -> String {
    let average = std::fs::read_to_string("/proc/loadavg").unwrap_or_default();
    average.split(' ').next().filter(|load| !load.is_empty()).unwrap_or("unknown").to_string()
}

fn compiler() -> String {
    let output = Command::new("rustc").arg("--version").output();
    output.map_or("unknown".into(), |output| String::from_utf8_lossy(&output.stdout).trim().to_string())
}
