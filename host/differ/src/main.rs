//! Compares the archive with the reference and with the plain book.

use differ::{report_faults, Failed, Mistake, Run};
use std::process::ExitCode;
use std::time::{Instant, SystemTime, UNIX_EPOCH};

const HELP: &str = "\
differ: compares the archive with the reference, call by call

    --calls N        make N calls (2000000)
    --seed S         the random numbers to use (a new seed each time)
    --case K         only case K of the seed
    --blunder NAME   the reference, or the relay, makes this blunder: a difference must follow
    --self-test      tries every blunder; each must be found within 20000 calls
    --blunders       lists the blunders";

const DEFAULT_CALLS: u64 = 2_000_000;
const SELF_TEST_CALLS: u64 = 20_000;
/// So many calls meet every answer that a call can give, every kind of table, and twins of every size.
const CALLS_THAT_COVER: u64 = 500_000;

#[derive(Default)]
struct Options {
    calls: Option<u64>,
    seed: Option<u64>,
    case: Option<u64>,
    blunder: Option<Mistake>,
    self_test: bool,
}

fn main() -> ExitCode {
    let arguments: Vec<String> = std::env::args().skip(1).collect();
    if arguments.iter().any(|argument| argument == "--help") {
        println!("{HELP}");
        return ExitCode::SUCCESS;
    }
    if arguments.iter().any(|argument| argument == "--blunders") {
        Mistake::all().for_each(|mistake| println!("{}", mistake.name()));
        return ExitCode::SUCCESS;
    }
    let options = match parse(&arguments) {
        Ok(options) => options,
        Err(problem) => {
            eprintln!("differ: {problem}\n\n{HELP}");
            return ExitCode::from(2);
        }
    };
    report_faults();
    let seed = options.seed.unwrap_or_else(fresh_seed);
    let agreed = if options.self_test { self_test(seed) } else { compare(seed, &options) };
    ExitCode::from(u8::from(!agreed))
}

fn parse(arguments: &[String]) -> Result<Options, String> {
    let mut options = Options::default();
    let mut rest = arguments.iter();
    while let Some(argument) = rest.next() {
        let mut value = || rest.next().ok_or(format!("{argument} needs a value"));
        let number = |text: &String| text.parse().map_err(|_| format!("{text} is no number"));
        match argument.as_str() {
            "--calls" => options.calls = Some(number(value()?)?),
            "--seed" => options.seed = Some(number(value()?)?),
            "--case" => options.case = Some(number(value()?)?),
            "--blunder" => {
                let name = value()?;
                options.blunder =
                    Some(Mistake::from_name(name).ok_or(format!("there is no blunder {name}"))?);
            }
            "--self-test" => options.self_test = true,
            _ => return Err(format!("what is {argument}?")),
        }
    }
    Ok(options)
}

/// A seed that differs from run to run; short, so that it is easily typed.
fn fresh_seed() -> u64 {
    let now = SystemTime::now().duration_since(UNIX_EPOCH).unwrap_or_default();
    now.as_nanos() as u64 % 1_000_000_007
}

/// Archive against reference; true if they agree and every answer came up.
fn compare(seed: u64, options: &Options) -> bool {
    println!("differ: seed {seed}");
    let started = Instant::now();
    let mut run = Run::new(seed, options.blunder);
    let failed = match options.case {
        Some(case) => run.case(case),
        None => run.cases(options.calls.unwrap_or(DEFAULT_CALLS), progress(started)),
    };
    let calls = run.counts.total();
    println!("{}", run.counts);
    if let Some(failed) = failed {
        show(&mut run, &failed, options.blunder);
        return false;
    }
    let missing = run.counts.missing();
    if calls >= CALLS_THAT_COVER && !missing.is_empty() {
        println!("differ: never came up: {}", missing.join(", "));
        return false;
    }
    let impossible = run.counts.impossible();
    if !impossible.is_empty() {
        println!("differ: no answer of that call: {}", impossible.join(", "));
        return false;
    }
    let [own, all] = run.counts.stayed();
    let [tables, sends] = run.counts.looked();
    let [like, unlike] = run.counts.sent_by_window();
    let [others, alone] = run.counts.on_files();
    let [unmoved, moved] = run.counts.moved_counties();
    let [shares, sums] = run.counts.sheets();
    let [rounds, orders] = run.counts.rounds();
    println!(
        "differ: {calls} calls ({} by the scope's rules alone too, {} decided by a grid mark, {own} by an own choice, {all} not, \
         {} through a relay too, {alone} file by file, {} by the rules of form 4), {} twins, {others} with other files and {} with \
         another county, {moved} of which answered otherwise, {shares} writes with other shares, {sums} sums of a sheet, {rounds} rounds \
         like their writes, {orders} orders of which were done, {like} sends by window like whole ones, {unlike} not, {tables} tables with \
         {sends} sends by the wrapper in {:.1} s, no difference (seed {seed})",
        run.counts.published(),
        run.counts.decided(),
        run.counts.relayed(),
        run.counts.former(),
        run.counts.twins(),
        unmoved + moved,
        started.elapsed().as_secs_f64()
    );
    true
}

/// Prints a line now and then.
fn progress(started: Instant) -> impl FnMut(&differ::Counts) {
    const STEP: u64 = 200_000;
    let mut next = STEP;
    move |counts| {
        if counts.total() >= next {
            println!("differ: {} calls, {:.1} s", counts.total(), started.elapsed().as_secs_f64());
            next += STEP;
        }
    }
}

/// Prints a failing case, cut down, and how to repeat it.
fn show(run: &mut Run, failed: &Failed, blunder: Option<Mistake>) {
    let (case, failure) = run.shrink(failed);
    println!("differ: {}", failed.failure.what);
    println!("cut down to {} calls: {}", case.calls.len(), failure.what);
    println!("  table: {}", differ::bytes_shown(&case.table));
    for call in &case.calls {
        println!("  {call}");
    }
    match run.log(&case) {
        Ok(log) => println!("as a log, for gridctl replay:\n{log}"),
        Err(what) => println!("a log for gridctl replay cannot tell it: {what}"),
    }
    let with_blunder = blunder.map_or(String::new(), |blunder| format!(" --blunder {}", blunder.name()));
    println!("repeat: differ --seed {} --case {}{with_blunder}", run.seed, failed.number);
}

/// Each blunder must be found; true if all are.
fn self_test(seed: u64) -> bool {
    println!("differ: seed {seed}");
    let (found, all) =
        (Mistake::all().filter(|&mistake| finds(seed, mistake)).count(), Mistake::all().count());
    println!("differ: {found} of {all} blunders found");
    found == all
}

/// Does a case fail with the blunder, and not without it?
fn finds(seed: u64, blunder: Mistake) -> bool {
    let name = blunder.name();
    let mut run = Run::new(seed, Some(blunder));
    let Some(failed) = run.cases(SELF_TEST_CALLS, |_| {}) else {
        println!("{name:24} NOT found in {SELF_TEST_CALLS} calls");
        return false;
    };
    if Run::new(seed, None).case(failed.number).is_some() {
        println!("{name:24} NOT found: the archive differs without it");
        return false;
    }
    let calls = run.counts.total() + 1;
    let (case, failure) = run.shrink(&failed);
    println!("{name:24} found after {calls:>5} calls, cut down to {}: {}", case.calls.len(), failure.what);
    true
}
