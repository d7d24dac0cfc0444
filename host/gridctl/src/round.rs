//! `round`: the results of a round entered together, from a list in plain text.
//!
//! A line is an order: the machine in charge, the place in the file, and the text that goes there, as in `10 at 24 1-0`.

use crate::arguments::Arguments;
use crate::log::{bytes_told, hexadecimal, words};
use crate::names::{self, name, names};
use crate::store::Kept;
use crate::{explain, sheet, train, unusable, Stop, Told};
use dyngrid::{Call, Order, Refusal, Rows, Stopped, Table};
use std::io::Read;

/// How many orders a round has at most.
const MOST: usize = 64;
/// What a line is like, for those whose line is not.
const LIKE: &str = "a line is like 10 at 24 1-0, and file 2 or club 3 may stand behind it";

/// An order and the line that it stands in, counted from 1.
struct Listed {
    line: usize,
    order: Order,
}

pub fn round(arguments: &mut Arguments) -> Told {
    let path = arguments.word("FILE")?;
    let mut kept = Kept::open(&path)?;
    let list = arguments.word("LIST")?;
    let off = arguments.optional();
    arguments.end()?;
    let on = kept.on(off)?;
    let sheet_path: Option<String> = arguments.option("--sheet")?;
    let from = arguments.option("--from")?.unwrap_or(1);
    let mut lent = sheet::lent(sheet_path.as_deref())?;
    let listed: Vec<Listed> = listed(&kept.table, &list, arguments.switch("--hex"))?
        .into_iter()
        .filter(|listed| listed.line >= from)
        .collect();
    let orders: Vec<Order> = listed.iter().map(|listed| listed.order).collect();
    let before = kept.table.clone();
    let answer = kept.table.round_with(&mut lent, on, &orders);
    let done = answer.unwrap_or_else(|stopped| stopped.done);
    let changed = kept.table.changed(&before);
    if done > 0 {
        kept.save(changed)?;
        train::keep(sheet_path.as_deref(), &lent)?;
    }
    let mut text = summary(&kept.table, changed, &listed, done);
    let Err(Stopped { refusal, .. }) = answer else { return Ok(text) };
    let Some(refused) = listed.get(done) else { return Err(train::told(refusal, Call::Round, 0)) };
    for Listed { line, order } in &listed[done..] {
        text.push_str(&format!("not done: line {line}, {}\n", order_told(&kept.table, order)));
    }
    let why = why(&kept.table, refused, refusal, done, from);
    Err(Stop::Partly { told: text, why: format!("{}, line {}: {why}", called(&list), refused.line) })
}

/// Why an order was refused, so many being done of the list from a line on, and what to do.
fn why(table: &Table, refused: &Listed, refusal: Refusal, done: usize, from: usize) -> String {
    let by = name(table, refused.order.coordinator());
    let to_do = match refusal {
        Refusal::OutOfRange if done == MOST => {
            "a round has 64 orders, so enter the others as another one.".into()
        }
        Refusal::OutOfRange => {
            format!("give it a place where its text ends within the {} bytes of the file.", table.file_len())
        }
        other => explain::to_do(other).to_string(),
    };
    let rest = match done {
        0 if from <= 1 => "Nothing is done: enter the list again.".into(),
        0 => format!("Nothing more is done: enter the rest with --from {}.", refused.line),
        _ => format!("What is done stays: enter the rest with --from {}.", refused.line),
    };
    format!("{}\nTo do: {to_do}\n{rest}", refusal.notice(Call::Round, by))
}

/// How many orders are done, and what they left.
fn summary(table: &Table, changed: Rows, listed: &[Listed], done: usize) -> String {
    if listed.is_empty() {
        return "there is no order to enter: nothing is done\n".into();
    }
    let mut told = format!("orders done: {done} of {}", listed.len());
    let (done, stopped) = (&listed[..done], done < listed.len());
    if let ([first, .., last], true) = (done, stopped) {
        told.push_str(&format!(" (lines {} to {})", first.line, last.line));
    } else if let ([one], true) = (done, stopped) {
        told.push_str(&format!(" (line {})", one.line));
    }
    let mut files: Vec<usize> = done.iter().map(|listed| listed.order.file()).collect();
    files.sort_unstable();
    files.dedup();
    let copies = |file| changed.iter().filter_map(move |row| Some((row, table.file(file).copy(row)?)));
    let version = |&file: &usize| copies(file).map(|(_, copy)| copy.version).max().unwrap_or(0);
    let versions: Vec<String> =
        files.iter().map(|file| format!("file {file} has version {} now", version(file))).collect();
    if !versions.is_empty() {
        told.push_str(&format!("; {}", versions.join(", ")));
    }
    told.push('\n');
    for file in files {
        let stale: Rows = copies(file).filter(|(_, copy)| copy.stale).map(|(row, _)| row).collect();
        if !stale.is_empty() {
            let of = if table.files() == 1 { String::new() } else { format!(" in file {file}") };
            told.push_str(&format!("stale now{of}: {}\n", names(table, stale)));
        }
    }
    told
}

/// An order as its line may have it.
fn order_told(table: &Table, order: &Order) -> String {
    let behind = |word: &str, number: usize| match number {
        1 => String::new(),
        _ => format!(" {word} {number}"),
    };
    format!(
        "{} at {} {}{}{}",
        name(table, order.coordinator()),
        order.offset(),
        bytes_told(order.patch()),
        behind("file", order.file()),
        behind("club", order.club())
    )
}

/// What a list is called: by its file, if it has one.
fn called(list: &str) -> &str {
    match list {
        "-" => "the list",
        file => file,
    }
}

/// The orders of a list, which stands in a file, or is typed or piped in where its name is `-`.
fn listed(table: &Table, list: &str, hex: bool) -> Result<Vec<Listed>, Stop> {
    let mut bytes = Vec::new();
    let read = match list {
        "-" => std::io::stdin().read_to_end(&mut bytes).map(|_| ()),
        path => std::fs::read(path).map(|found| bytes = found),
    };
    let list = called(list);
    read.map_err(|error| unusable(format!("{list}: {error}")))?;
    let text = String::from_utf8(bytes).ok().filter(|text| !text.contains('\0'));
    let text = text.ok_or_else(|| unusable(format!("{list} is no plain text: save it as text, in UTF-8")))?;
    let mut orders = Vec::new();
    for (line, text) in (1..).zip(text.trim_start_matches('\u{feff}').lines()) {
        let order = order(table, text, hex).map_err(|why| unusable(format!("{list}, line {line}: {why}")))?;
        orders.extend(order.map(|order| Listed { line, order }));
    }
    Ok(orders)
}

/// The order of a line, if it has more than a comment.
fn order(table: &Table, line: &str, hex: bool) -> Result<Option<Order>, String> {
    let mut words = words(line)?.into_iter();
    let Some(by) = words.next() else { return Ok(None) };
    let by = by.parse().map_err(|_| format!("{by} is no machine's name: {LIKE}"))?;
    let by = names::row(table, by).map_err(|stop| stop.to_string())?;
    let (mut at, mut file, mut club, mut text) = (None, None, None, None);
    while let Some(word) = words.next() {
        let number = match word.as_str() {
            "at" => &mut at,
            "file" => &mut file,
            "club" => &mut club,
            _ if text.is_none() => {
                text = Some(word);
                continue;
            }
            _ => {
                return Err(format!(
                    "what is {word}? {LIKE}; a text with spaces stands in quotes, as in \"1 - 0\""
                ))
            }
        };
        if number.is_some() {
            return Err(format!("{word} stands twice: {LIKE}"));
        }
        let told = words.next().ok_or_else(|| format!("behind {word} a number is missing: {LIKE}"))?;
        *number = Some(told.parse::<usize>().map_err(|_| format!("{word} cannot be {told}: {LIKE}"))?);
    }
    let text = text.ok_or_else(|| format!("what to write is missing: {LIKE}"))?;
    let at = at.ok_or_else(|| format!("at, and the place in the file, is missing: {LIKE}"))?;
    let plain = text.strip_prefix('"').and_then(|text| text.strip_suffix('"')).unwrap_or(&text);
    let patch = if hex {
        hexadecimal(plain).ok_or_else(|| format!("{plain} are no bytes, as in 312d30"))?
    } else {
        plain.as_bytes().to_vec()
    };
    let order = Order::new(by, at, &patch).map_err(|_| match patch.len() {
        0 => "an empty text is nothing to write: take the line away".to_string(),
        length => format!("{text} has {length} bytes, and a line writes 1 to 8: split it over two lines, each with its place"),
    })?;
    Ok(Some(order.in_file(file.unwrap_or(1)).by_club(club.unwrap_or(1))))
}

#[cfg(test)]
mod tests {
    use super::*;
    use dyngrid::Shape;

    fn four() -> Table {
        Table::found(4, 16, &[10, 20, 30, 40], Shape::Wide).expect("a plain founding")
    }

    #[test]
    fn lines_say_an_order() {
        let order = |line: &str, hex| order(&four(), line, hex).expect("a line that is right");
        let plain = Order::new(2, 4, b"1-0").expect("an order");
        for line in
            ["20 at 4 1-0", "20 1-0 at 4", "\t20  at 4 \"1-0\"  # board 2\r", "20 file 1 at 4 1-0 club 1"]
        {
            assert_eq!(order(line, false), Some(plain), "{line}");
        }
        assert_eq!(order("20 at 4 1-0 club 7 file 3", false), Some(plain.in_file(3).by_club(7)));
        assert_eq!(order("20 at 4 312d30", true), Some(plain));
        let quoted = |text: &[u8]| Order::new(1, 0, text).ok();
        assert_eq!(order("10 at 0 \"at # 1\"", false), quoted(b"at # 1"));
        assert_eq!(order("10 at 0 \"file\"", false), quoted(b"file"));
        assert_eq!([order("", false), order("  # 10 at 0 1-0", false)], [None; 2]);
    }

    #[test]
    fn lines_that_are_wrong_say_so() {
        for (line, problem) in [
            ("ten at 0 1-0", "ten is no machine's name: a line is like 10 at 24 1-0, and file 2 or club 3 may stand behind it"),
            ("99 at 0 1-0", "no machine has the name 99; there are 10, 20, 30, 40"),
            ("10 at 0", "what to write is missing: a line is like"),
            ("10 1-0", "at, and the place in the file, is missing: a line is like"),
            ("10 at four 1-0", "at cannot be four: a line is like"),
            ("10 at 0 1-0 club", "behind club a number is missing: a line is like"),
            ("10 at 0 1-0 file two", "file cannot be two: a line is like"),
            ("10 at 0 at 4 1-0", "at stands twice: a line is like"),
            ("10 at 0 1-0 clib 2", "what is clib? a line is like"),
            ("10 at 0 \"1-0", "a quotation mark is missing"),
            ("10 at 0 \"\"", "an empty text is nothing to write: take the line away"),
            (
                "10 at 0 \"1-0 0-1 1\"",
                "\"1-0 0-1 1\" has 9 bytes, and a line writes 1 to 8: split it over two lines, each with its place",
            ),
        ] {
            let told = order(&four(), line, false).expect_err("a line that is wrong");
            assert!(told.starts_with(problem), "{line}: {told}");
        }
        assert_eq!(order(&four(), "10 at 0 1-0", true), Err("1-0 are no bytes, as in 312d30".into()));
    }
}
