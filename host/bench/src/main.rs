//! Times each call of the library and of the reference, on the same bytes in one run.
//! Prints a table; with a file name, writes a page there too.

mod engines;
mod limit;
mod report;
mod states;
mod tasks;

use engines::Library;
use reference::Engine;
use report::Timing;
use states::State;
use std::process::{Command, ExitCode, Stdio};
use std::time::Duration;
use tasks::Task;

/// Runs of each call; the best one counts.
const RUNS: usize = 60;
/// About how long a run lasts.
const RUN_TIME: Duration = Duration::from_millis(1);
/// Few enough that no version, epoch or count comes to its limit.
const MOST_CALLS: u32 = 20_000;
const MOST_WRITES: u32 = 500_000;

/// Processes that measure; the best one counts: where the code and the bytes of a process lie makes a difference.
const PROCESSES: usize = 5;
/// The argument of a process that measures once, and writes its times a line each.
const ONCE: &str = "--once";

fn main() -> ExitCode {
    dyngrid::raw::assert_interface();
    let file = std::env::args().nth(1);
    if file.as_deref() == Some(ONCE) {
        let states = states::all();
        for state in &states {
            let look = limit::measured(state, RUNS, RUN_TIME);
            state.tasks.iter().for_each(|&task| println!("{}", time(state, task, look).line()));
        }
        return ExitCode::SUCCESS;
    }
    match measure(file.as_deref()) {
        Ok(()) => ExitCode::SUCCESS,
        Err(problem) => {
            eprintln!("bench: {problem}");
            ExitCode::FAILURE
        }
    }
}

/// Measures in several processes, and tells.
fn measure(file: Option<&str>) -> Result<(), String> {
    let load = report::load();
    let program =
        std::env::current_exe().map_err(|problem| format!("cannot find this program: {problem}"))?;
    let mut best: Vec<Timing> = Vec::new();
    for process in 1..=PROCESSES {
        eprintln!("bench: process {process} of {PROCESSES}");
        let output = Command::new(&program).arg(ONCE).stderr(Stdio::inherit()).output();
        let output = output.map_err(|problem| format!("cannot start a process that measures: {problem}"))?;
        if !output.status.success() {
            return Err(format!("a process that measures failed: {}", output.status));
        }
        let text = String::from_utf8_lossy(&output.stdout);
        let timings: Option<Vec<Timing>> = text.lines().map(Timing::of_line).collect();
        let timings = timings.ok_or("a process that measures wrote something else than times")?;
        if best.is_empty() {
            best = timings;
        } else {
            best.iter_mut().zip(timings).for_each(|(best, timing)| best.take(timing));
        }
    }
    println!("{}\n{}", report::table(&best), report::verdict(&best));
    if let Some(file) = file {
        let page = report::page(&best, &load, RUNS, PROCESSES);
        std::fs::write(file, page).map_err(|problem| format!("cannot write {file}: {problem}"))?;
        eprintln!("bench: wrote {file}");
    }
    Ok(())
}

/// Best of several runs, the engines by turns; `look` is one look at the table.
fn time(state: &State, task: Task, look: f64) -> Timing {
    const TRIAL: u32 = 20;
    let reference = Engine::default();
    let (trial, left) = task.run(&reference, state, TRIAL);
    assert!(task.run(&Library, state, TRIAL).1 == left, "{}: {task}: the engines differ", state.title);

    let calls = (RUN_TIME.as_nanos() / (trial.as_nanos() / u128::from(TRIAL)).max(1)) as u32;
    let calls = calls.clamp(10, MOST_CALLS.min(MOST_WRITES / task.writes()));
    let each = |time: Duration| time.as_nanos() as f64 / f64::from(calls);
    let mut best = Timing {
        state: state.title.clone(),
        call: task.to_string(),
        library: f64::MAX,
        reference: f64::MAX,
        look: task.looks_over().then_some(look),
        carried: task.carried(state),
    };
    for _ in 0..RUNS {
        best.library = best.library.min(each(task.run(&Library, state, calls).0));
        best.reference = best.reference.min(each(task.run(&reference, state, calls).0));
    }
    best
}
