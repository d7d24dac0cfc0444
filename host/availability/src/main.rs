//! How often the file can be written and read, in the model of the paper's section 6: machines fail and are repaired by chance, and after
//! each event those that are up make a check. What they get done is asked of the library, on real tables. Writes AVAILABILITY.md and
//! availability.svg into the folder docs of the repository that it is given.

mod chain;
mod chart;
mod classes;
mod coterie;
mod explore;
mod figures;
mod held;
mod page;
mod progress;
mod relay;
mod runs;
#[cfg(test)]
mod tests;
mod walk;

use differ::Random;
use dyngrid::Shape;
use figures::{Columns, Protocols};
use held::{library, Both, Second};
use page::Page;
use progress::Progress;
use std::path::Path;
use std::process::ExitCode;

const HELP: &str = "\
availability: how often the file can be written and read

    ROOT             writes docs/AVAILABILITY.md and docs/availability.svg of the repository ROOT
    --self-test      small numbers of machines by other ways: library against reference in every state, and walks by chance
    --seed S         the random numbers of the walks (1992)
    --seconds S      stops after so many seconds (120)";

/// The part of the time that a machine is up, as in the paper.
const UP: f64 = 0.95;
/// The page goes to so many machines: the paper's figures end before. Every set of positions of a list is asked, 65,536 of this many.
const MOST_MACHINES: usize = 16;
/// Every state of up to so many machines is asked.
const MOST_EXPLORED: usize = 10;
const SECONDS: u64 = 120;

#[derive(Default)]
struct Options {
    root: Option<String>,
    self_test: bool,
    seed: Option<u64>,
    seconds: Option<u64>,
}

fn main() -> ExitCode {
    let arguments: Vec<String> = std::env::args().skip(1).collect();
    if arguments.iter().any(|argument| argument == "--help") {
        println!("{HELP}");
        return ExitCode::SUCCESS;
    }
    let options = match parse(&arguments) {
        Ok(options) => options,
        Err(problem) => {
            eprintln!("availability: {problem}\n\n{HELP}");
            return ExitCode::from(2);
        }
    };
    let mut progress = Progress::new(options.seconds.unwrap_or(SECONDS));
    let result = match &options.root {
        Some(root) => make(Path::new(root), &mut progress),
        None => self_test(options.seed.unwrap_or(1992), &mut progress),
    };
    match result {
        Ok(last_line) => {
            println!("{last_line}");
            ExitCode::SUCCESS
        }
        Err(problem) => {
            eprintln!("availability: {problem}");
            ExitCode::FAILURE
        }
    }
}

fn parse(arguments: &[String]) -> Result<Options, String> {
    let mut options = Options::default();
    let mut rest = arguments.iter();
    while let Some(argument) = rest.next() {
        let mut value = || {
            let value = rest.next().ok_or(format!("{argument} needs a value"))?;
            value.parse::<u64>().map_err(|_| format!("{value} is no number"))
        };
        match argument.as_str() {
            "--self-test" => options.self_test = true,
            "--seed" => options.seed = Some(value()?),
            "--seconds" => options.seconds = Some(value()?),
            option if option.starts_with('-') => return Err(format!("what is {option}?")),
            root => options.root = Some(root.into()),
        }
    }
    if options.root.is_some() == options.self_test {
        return Err("name the repository's folder, as in `availability .`, or --self-test".into());
    }
    Ok(options)
}

/// Makes page and picture.
fn make(root: &Path, progress: &mut Progress) -> Result<String, String> {
    eprintln!(
        "availability: lists of up to {MOST_MACHINES} machines, every state of up to {MOST_EXPLORED}; \
         some ten seconds and twenty megabytes; stops after {} s",
        progress.seconds()
    );
    let folder = root.join("docs");
    if !folder.is_dir() {
        return Err(format!("there is no folder {}", folder.display()));
    }
    let protocols = Protocols::ask(MOST_MACHINES, progress)?;
    let mut states = [0, 0];
    for machines in 1..=MOST_EXPLORED {
        let mut tell = |whose: &str, states| {
            progress.at(|| format!("{machines} machines, {whose}: {states} states asked"))
        };
        for (whose, shape) in [("wide", Shape::Wide), ("tall", Shape::Tall)] {
            let coterie = &protocols.shaped(shape).coterie;
            let founded = library(machines, shape);
            states[0] += explore::explore(&founded, machines, coterie, |states| tell(whose, states))?;
        }
        let (founded, coterie) = (Second::published(machines), &protocols.published.coterie);
        states[1] += explore::explore(&founded, machines, coterie, |states| tell("published", states))?;
    }
    let columns: Vec<Columns> = (1..=MOST_MACHINES).map(|machines| protocols.columns(machines, UP)).collect();
    let page = Page { protocols: &protocols, columns: &columns, up: UP, explored: MOST_EXPLORED, states };
    for (name, text) in [("AVAILABILITY.md", page.text()?), ("availability.svg", chart::svg(&columns, UP))] {
        let file = folder.join(name);
        std::fs::write(&file, text)
            .map_err(|problem| format!("cannot write {}: {problem}", file.display()))?;
    }
    let spent = progress.spent();
    Ok(format!("availability: wrote AVAILABILITY.md and availability.svg to {} ({spent})", folder.display()))
}

/// Small numbers of machines by other ways. The last line says what was seen.
fn self_test(seed: u64, progress: &mut Progress) -> Result<String, String> {
    const STATES_UP_TO: usize = 6;
    const EVENTS: usize = 300_000;
    /// Machines that fail so often show more of the rare states.
    const UP: f64 = 0.7;
    let protocols = Protocols::ask(STATES_UP_TO, progress)?;
    let (mut states, mut walks) = (0, Vec::new());
    let mut number = 0;
    for shape in [Shape::Wide, Shape::Tall] {
        let protocol = protocols.shaped(shape);
        for machines in 1..=STATES_UP_TO {
            let tell =
                |states| progress.at(|| format!("{machines} machines, {shape:?}: {states} states compared"));
            states += explore::explore(&Both::found(machines, shape), machines, &protocol.coterie, tell)?;
        }
        for machines in [3, STATES_UP_TO] {
            progress.at(|| format!("{machines} machines, {shape:?}: walking"))?;
            number += 1;
            let mut random = Random::new(seed, number);
            let table = library(machines, shape);
            let walked = walk::walk(table, machines, &protocol.coterie, UP, EVENTS, &mut random).map_err(
                |problem| format!("{machines} machines, {shape:?}, walk of seed {seed}: {problem}"),
            )?;
            let exact = protocol.dynamic(machines, UP).unavailable;
            for (call, walked, exact) in
                [("written", &walked[0], exact.write), ("read", &walked[1], exact.read)]
            {
                let line = format!(
                    "{machines} machines, {shape:?}, up {UP} of the time: not {call} {:.4} ± {:.4} of the time in {EVENTS} events, {exact:.4} by the chain",
                    walked.mean, walked.margin
                );
                println!("availability: {line}");
                if !walked.holds(exact) {
                    return Err(format!("{line}: too far off (availability --self-test --seed {seed})"));
                }
                walks.push(((walked.mean - exact) / walked.margin).abs());
            }
        }
    }
    let farthest = walks.iter().copied().fold(0.0, f64::max);
    Ok(format!(
        "{states} states of 1 to {STATES_UP_TO} machines as the reference has them, {} figures walked within {farthest:.2} of their 99.9 % margins ({})",
        walks.len(),
        progress.spent()
    ))
}
