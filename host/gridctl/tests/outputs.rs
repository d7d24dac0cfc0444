//! Whole outputs, kept beside the tests. A file of `outputs/` is a session: each line that begins with `$ ` is a command, and what it
//! prints, and its exit status if that is not 0, follows. The session runs in a folder of its own.
//!
//! To keep new outputs after a change that is meant, run the tests with KEEP_OUTPUTS=1 and look at what git shows.

use std::fs;
use std::path::{Path, PathBuf};
use std::process::Command;

fn kept(name: &str) -> PathBuf {
    Path::new(env!("CARGO_MANIFEST_DIR")).join("tests/outputs").join(name)
}

/// A folder for one session.
fn folder(name: &str) -> PathBuf {
    let folder = Path::new(env!("CARGO_TARGET_TMPDIR")).join(name);
    let _ = fs::remove_dir_all(&folder);
    fs::create_dir_all(&folder).expect("a folder");
    folder
}

/// Runs a command of a session: `gridctl`, with its input out of a file and its output into one where it says so; or one of the few
/// others.
fn run(folder: &Path, command: &str) -> String {
    let (command, into) = match command.split_once(" > ") {
        Some((command, into)) => (command, Some(into)),
        None => (command, None),
    };
    let (command, out_of) = match command.split_once(" < ") {
        Some((command, out_of)) => (command, Some(out_of)),
        None => (command, None),
    };
    let words: Vec<&str> = command.split(' ').collect();
    match words[..] {
        ["rm", file] => fs::remove_file(folder.join(file)).expect("a file to take away"),
        ["cp", from, to] => {
            fs::copy(folder.join(from), folder.join(to)).expect("a file to copy");
        }
        ["season", name] => {
            let seasons = Path::new(env!("CARGO_MANIFEST_DIR")).join("../dyngrid/tests/season");
            fs::copy(seasons.join(name), folder.join(name)).expect("a table of an older season");
        }
        ["log", name] => {
            fs::copy(kept(name), folder.join(name)).expect("a log");
        }
        ["cut", file, length] => {
            let bytes = fs::read(folder.join(file)).expect("a file");
            fs::write(folder.join(file), &bytes[..length.parse().expect("a length")]).expect("a file");
        }
        ["poke", file, at, value] => {
            let mut bytes = fs::read(folder.join(file)).expect("a file");
            bytes[at.parse::<usize>().expect("a place")] = value.parse().expect("a byte");
            fs::write(folder.join(file), bytes).expect("a file");
        }
        ["gridctl", ref arguments @ ..] => {
            let mut gridctl = Command::new(env!("CARGO_BIN_EXE_gridctl"));
            if let Some(out_of) = out_of {
                gridctl.stdin(fs::File::open(folder.join(out_of)).expect("a file to read"));
            }
            let output = gridctl.args(arguments).current_dir(folder).output().expect("gridctl runs");
            let text = |bytes: Vec<u8>| String::from_utf8(bytes).expect("text");
            let (mut told, errors) = (text(output.stdout), text(output.stderr));
            if let Some(into) = into {
                compare(into, &told);
                told.clear();
            }
            told.push_str(&errors);
            let status = output.status.code().expect("an exit status");
            if status != 0 {
                told.push_str(&format!("[exit status {status}]\n"));
            }
            return told;
        }
        _ => panic!("what is {command}?"),
    }
    String::new()
}

fn compare(name: &str, found: &str) {
    let path = kept(name);
    if std::env::var_os("KEEP_OUTPUTS").is_some() {
        fs::write(&path, found).expect("an output to keep");
    }
    let expected = fs::read_to_string(&path).unwrap_or_default();
    if found != expected {
        let place = expected.lines().zip(found.lines()).take_while(|(one, other)| one == other).count();
        let line = |text: &str| text.lines().nth(place).unwrap_or("(the end)").to_string();
        panic!(
            "{name}, line {}:\n  kept:  {}\n  found: {}\nall of it:\n{found}",
            place + 1,
            line(&expected),
            line(found)
        );
    }
}

fn session(name: &str) {
    let folder = folder(name);
    let file = format!("{name}.txt");
    let commands = fs::read_to_string(kept(&file)).expect("a session");
    let mut found = String::new();
    for command in commands.lines().filter_map(|line| line.strip_prefix("$ ")) {
        found.push_str(&format!("$ {command}\n{}", run(&folder, command)));
    }
    assert!(!found.is_empty(), "{file} has no command");
    compare(&file, &found);
}

macro_rules! sessions {
    ($($name:ident)*) => { $(#[test] fn $name() { session(stringify!($name)); })* };
}

sessions! { helps look train files folders errors explained replayed carried drawn many counties sheets rounds }

/// Every command has its place in the man page, with its usage, and every session is run.
#[test]
fn the_man_page_has_every_command() {
    let page = include_str!("../gridctl.1").replace("\\-", "-");
    let overview = run(&folder("overview"), "gridctl --help");
    let listed = overview.lines().filter_map(|line| line.strip_prefix("  ")?.split(' ').next());
    let mut count = 0;
    for name in listed {
        let help = run(&folder("overview"), &format!("gridctl {name} --help"));
        let usage =
            help.lines().next().and_then(|line| line.strip_prefix("usage: gridctl ")).expect("a usage");
        assert!(page.contains(&format!(".TP\n.B {usage}\n")), "gridctl.1 should have: {usage}");
        count += 1;
    }
    assert_eq!(count, page.matches(".TP\n.B ").count(), "commands in the man page");
}

/// The log that the help and the man page show is as the library answers.
#[test]
fn the_log_in_the_help_has_no_difference() {
    let help = run(&folder("help"), "gridctl replay --help");
    let log: Vec<&str> = help.lines().filter_map(|line| line.strip_prefix("    ")).collect();
    assert_eq!(log.len(), 7, "{help}");
    assert_eq!(gridctl::difference(&log.join("\n")), Ok(None));
    let page = include_str!("../gridctl.1").replace("\\-", "-");
    assert!(log.iter().all(|line| page.contains(&format!("\n    {line}\n"))));
}

/// The list that the help and the man page show is the one that the sessions enter.
#[test]
fn the_list_in_the_help_is_entered() {
    let help = run(&folder("list"), "gridctl round --help");
    let list: Vec<&str> = help.lines().filter_map(|line| line.strip_prefix("    ")).collect();
    assert_eq!(list, include_str!("outputs/round-3.list").lines().collect::<Vec<_>>());
    let page = include_str!("../gridctl.1").replace("\\-", "-");
    assert!(list.iter().all(|line| page.contains(&format!("\n    {line}\n"))));
}

/// The first page shows a command as the sessions have it.
#[test]
fn the_example_in_the_readme() {
    let page = include_str!("../../../README.md");
    let (_, block) = page.split_once("```\n$ gridctl ").expect("an example");
    let (example, _) = block.split_once("```\n").expect("its end");
    let session = include_str!("outputs/look.txt");
    assert!(session.contains(&format!("$ gridctl {example}$ ")), "look.txt has another output of\n{example}");
}

/// No script, and every tag that is opened is closed, in its order.
#[test]
fn pages_are_well_formed() {
    const EMPTY: [&str; 2] = ["meta", "!DOCTYPE"];
    for page in [
        include_str!("outputs/status.html"),
        include_str!("outputs/files.html"),
        include_str!("outputs/counties.html"),
    ] {
        assert!(!page.contains("<script") && !page.contains("javascript:"));
        let mut open = Vec::new();
        for tag in page.split('<').skip(1) {
            let (tag, _) = tag.split_once('>').expect("the end of a tag");
            let name = tag.split([' ', '/']).find(|word| !word.is_empty()).expect("a name");
            if tag.starts_with('/') {
                assert_eq!(open.pop(), Some(name), "closed by </{name}>");
            } else if !tag.ends_with('/') && !EMPTY.contains(&name) {
                open.push(name);
            }
        }
        assert!(open.is_empty(), "{open:?} are never closed");
    }
}
