//! Random and exhaustive schedules of the relay's core.

use relay::simulate::exhaustive::{explore, Scenario};
use relay::simulate::random::{run, Counts};
use relay::simulate::slip::Slip;
use std::process::ExitCode;
use std::time::Instant;

const HELP: &str = "simulate [--steps N] [--seed S] [--slip NAME]   random schedules, N steps in all, from seed S on
simulate --self-test [--steps N] [--seed S]     each slip must be found within N steps
simulate --exhaustive [--times N]               every schedule of a few calls, up to a length; with N times as many states";

fn main() -> ExitCode {
    match options() {
        Ok(options) if options.help => {
            println!("{HELP}");
            ExitCode::SUCCESS
        }
        Ok(options) if options.self_test => self_test(&options),
        Ok(options) if options.exhaustive => exhaustive(&options),
        Ok(options) => random(&options),
        Err(error) => {
            eprintln!("{error}\n{HELP}");
            ExitCode::FAILURE
        }
    }
}

struct Options {
    steps: u64,
    seed: u64,
    slip: Option<Slip>,
    help: bool,
    self_test: bool,
    exhaustive: bool,
    times: usize,
}

fn options() -> Result<Options, String> {
    let mut options = Options {
        steps: 1_000_000,
        seed: 1992,
        slip: None,
        help: false,
        self_test: false,
        exhaustive: false,
        times: 1,
    };
    let mut args = std::env::args().skip(1);
    let number = |arg: Option<String>| -> Result<u64, &str> {
        arg.and_then(|arg| arg.parse().ok()).ok_or("a number is missing")
    };
    while let Some(arg) = args.next() {
        match arg.as_str() {
            "--steps" => options.steps = number(args.next())?,
            "--seed" => options.seed = number(args.next())?,
            "--times" => options.times = number(args.next())? as usize,
            "--exhaustive" => options.exhaustive = true,
            "--help" => options.help = true,
            "--self-test" => options.self_test = true,
            "--slip" => {
                let name = args.next().unwrap_or_default();
                let slip = Slip::ALL.iter().copied().find(|slip| format!("{slip:?}") == name);
                options.slip =
                    Some(slip.ok_or_else(|| format!("there is no slip {name:?}: {:?}", Slip::ALL))?);
            }
            other => return Err(format!("{other:?} is no option")),
        }
    }
    Ok(options)
}

/// Random schedules until so many steps are made, or something is wrong.
fn until_wrong(options: &Options, slip: Option<Slip>) -> (Counts, Option<(u64, String)>) {
    let mut counts = Counts::default();
    let mut seed = options.seed;
    while counts.steps < options.steps {
        if let Err(wrong) = run(seed, slip, &mut counts) {
            return (counts, Some((seed, wrong)));
        }
        seed += 1;
    }
    (counts, None)
}

fn random(options: &Options) -> ExitCode {
    let begun = Instant::now();
    let (counts, wrong) = until_wrong(options, options.slip);
    if let Some((seed, wrong)) = wrong {
        let slip = options.slip.map_or(String::new(), |slip| format!(" --slip {slip:?}"));
        println!(
            "after {} steps: {wrong}\nto repeat it: simulate --steps 1 --seed {seed}{slip}",
            counts.steps
        );
        return ExitCode::FAILURE;
    }
    println!("nothing wrong in {:.1} s: {counts}", begun.elapsed().as_secs_f64());
    ExitCode::SUCCESS
}

fn exhaustive(options: &Options) -> ExitCode {
    let begun = Instant::now();
    let mut states = 0;
    for (name, mut scenario) in Scenario::all() {
        scenario.most *= options.times;
        match explore(&scenario, options.slip) {
            Ok(explored) => {
                states += explored.states;
                let length = if explored.whole { "all of them" } else { "every one" };
                println!(
                    "{name}: {length} of {} steps, {} states, {} steps",
                    explored.depth, explored.states, explored.steps
                );
            }
            Err(wrong) => {
                println!("{name}: {wrong}");
                return ExitCode::FAILURE;
            }
        }
    }
    println!(
        "{states} states with one crash and one loss, nothing wrong, {:.1} s",
        begun.elapsed().as_secs_f64()
    );
    ExitCode::SUCCESS
}

fn self_test(options: &Options) -> ExitCode {
    let mut missed = 0;
    let mut most = 0;
    for &slip in Slip::ALL {
        let (counts, wrong) = until_wrong(options, Some(slip));
        match wrong {
            Some((seed, wrong)) => {
                most = most.max(counts.steps);
                println!(
                    "{:>9} steps  {slip:?}: {}\n{:17} seed {seed}: {wrong}",
                    counts.steps,
                    slip.what(),
                    ""
                );
            }
            None => {
                missed += 1;
                println!("NOT FOUND in {} steps: {slip:?}: {}", counts.steps, slip.what());
            }
        }
    }
    println!("{} slips, {missed} not found; the slowest took {most} steps", Slip::ALL.len());
    if missed == 0 {
        ExitCode::SUCCESS
    } else {
        ExitCode::FAILURE
    }
}
