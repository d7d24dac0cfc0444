//! Notices: what they say, what can be read off them again, and which refusals the pages and the header list.

use dyngrid::{raw, Call, Refusal, Refused, Rows, Shape, Table};
use std::collections::BTreeSet;
use std::ops::RangeInclusive;

const BYTES: usize = 160;
/// What a buffer holds before a notice is laid in it.
const BEFORE: u8 = 9;
const NAMES: [u16; 3] = [0, 1, u16::MAX];
const REFUSALS: RangeInclusive<u32> = 1..=20;
/// The words of calls 1 to 10.
const WORDS: [&str; 10] =
    ["founding", "read", "write", "send", "check", "joining", "round", "move", "chart", "notice"];

fn numbers() -> impl Iterator<Item = u32> {
    (0..=25).chain([u32::MAX])
}

fn shows_its_name(call: u64) -> bool {
    [2, 3, 5, 7].contains(&call)
}

/// The refusal number and the value of a notice, and the buffer of so many bytes after it.
fn ask(call: u64, name: u16, number: u32, bytes: usize) -> (u32, usize, Vec<u8>) {
    raw::assert_interface();
    let mut buffer = vec![BEFORE; bytes];
    // SAFETY: the buffer is live for the call, and its only slice.
    let result = unsafe { raw::grid_notice(call, name, number, buffer.as_mut_ptr(), buffer.len()) };
    ((result >> 32) as u32, result as u32 as usize, buffer)
}

/// The sentence of a notice that is done.
fn sentence(call: u64, name: u16, number: u32) -> String {
    let (refusal, value, mut buffer) = ask(call, name, number, BYTES);
    assert_eq!(refusal, 0, "call {call}, name {name}, number {number}");
    buffer.truncate(value);
    String::from_utf8(buffer).expect("ASCII")
}

/// Call, name and number: the first three runs of figures in a text.
fn figures(text: &str) -> [u64; 3] {
    let mut runs = text.split(|c: char| !c.is_ascii_digit()).filter(|run| !run.is_empty());
    [(); 3].map(|()| runs.next().and_then(|run| run.parse().ok()).expect("three numbers"))
}

/// What a sentence says behind its figures and the call's word.
fn reason(sentence: &str) -> &str {
    let call = figures(sentence)[0] as usize;
    let (_, behind) = sentence.split_once(": ").expect("a colon behind the figures");
    behind.strip_prefix(WORDS[call - 1]).expect("the call's own word")
}

/// Is it a refusal, as the archive tells it?
fn is_refusal(number: u32) -> bool {
    reason(&sentence(2, 17, number)).starts_with(" refused: ")
}

#[test]
fn call_name_and_number_are_read_off_again() {
    for call in 1..=10 {
        for name in NAMES {
            for number in numbers() {
                let (refusal, value, buffer) = ask(call, name, number, BYTES);
                assert_eq!(refusal, 0, "call {call}, name {name}, number {number}");
                let text = std::str::from_utf8(&buffer).expect("ASCII");
                let shown = if shows_its_name(call) { name } else { 0 };
                assert_eq!(figures(text), [call, shown.into(), number.into()], "{text}");
                let (sentence, rest) = text.split_at(value);
                assert!(sentence.is_ascii() && sentence.ends_with('.'), "{text}");
                assert!(rest.bytes().all(|byte| byte == b' '), "{text}");
            }
        }
    }
}

/// Figures stand at places of their own, and the reason is the number's, whatever the call and the name.
#[test]
fn a_sentence_is_heading_word_and_reason() {
    for number in numbers() {
        let first = sentence(1, 0, number);
        for (call, word) in (1..).zip(WORDS) {
            for name in NAMES {
                let shown = if shows_its_name(call) { name } else { 0 };
                let expected = format!(
                    "Call {call:02} by machine {shown:05}, number {number:010}: {word}{}",
                    reason(&first)
                );
                assert_eq!(sentence(call, name, number), expected);
            }
        }
    }
}

#[test]
fn each_refusal_has_a_reason_of_its_own() {
    let reasons: BTreeSet<String> = REFUSALS.map(|number| reason(&sentence(3, 17, number)).into()).collect();
    assert_eq!(reasons.len(), REFUSALS.count());
    let none = ": no refusal has this number; 0 stands for a call that was done.";
    for number in numbers() {
        assert_eq!(is_refusal(number), REFUSALS.contains(&number), "{number}");
        assert_eq!(reason(&sentence(3, 17, number)) == none, !REFUSALS.contains(&number), "{number}");
    }
}

#[test]
fn refused_notices_leave_the_buffer() {
    let calls = (0..=12).chain([1 << 32, (1 << 32) + 1, u64::MAX]);
    for call in calls {
        for name in NAMES {
            for number in numbers() {
                for bytes in [0, 159, 160, 161] {
                    let expected = match (call, bytes) {
                        (0 | 11.., _) => 4,
                        (_, BYTES) => 0,
                        _ => 5,
                    };
                    let (refusal, value, buffer) = ask(call, name, number, bytes);
                    let at = format!("call {call}, name {name}, number {number}, {bytes} bytes");
                    assert_eq!(refusal, expected, "{at}");
                    if refusal != 0 {
                        assert_eq!((value, buffer), (0, vec![BEFORE; bytes]), "{at}");
                    }
                }
            }
        }
    }
}

#[test]
fn the_wrapper_shows_the_sentence_of_the_archive() {
    assert_eq!(Call::ALL.map(Call::number).to_vec(), (1..=10).collect::<Vec<_>>());
    for call in Call::ALL {
        for name in NAMES {
            for number in numbers().skip(1) {
                let refusal = Refusal::from_number(number).expect("not 0");
                let (notice, expected) =
                    (refusal.notice(call, name), sentence(call.number().into(), name, number));
                assert_eq!(notice.as_str(), expected);
                assert_eq!(notice.to_string(), expected);
                assert_eq!(format!("{notice:?}"), format!("Notice({expected:?})"));
            }
        }
    }
}

/// Alone, a refusal shows its number and the reason, which is cut off from the archive's sentence.
#[test]
fn a_refusal_shows_its_reason() {
    for number in numbers().skip(1) {
        let refusal = Refusal::from_number(number).expect("not 0");
        let whole = sentence(2, 17, number);
        let reason = reason(&whole).trim_start_matches(" refused").trim_start_matches(": ");
        assert_eq!(refusal.to_string(), format!("refused by {number}: {reason}"));
        assert_eq!(Refused { refusal, called: 3 }.to_string(), refusal.to_string());
    }
}

#[test]
fn a_refused_read_is_told_to_its_members() {
    let table = Table::found(4, 16, &[10, 20, 30, 40], Shape::Wide).expect("a plain founding");
    let alone = table.file(1).read(4, Rows::from_bits(8), 0, &mut [0; 3]).expect_err("no quorum");
    let told = "Call 02 by machine 00040, number 0000000006: read refused: too few machines answered, or not the right ones; \
                switch on more of them and try again.";
    assert_eq!(alone.refusal.notice(Call::Read, 40).as_str(), told);
}

/// The numbers of a table of refusals: those that begin the rows below the line of its titles.
fn numbers_in_page(page: &str) -> Vec<u32> {
    let mut lines = page.lines().skip_while(|line| !line.starts_with("| refusal | because |"));
    assert!(lines.next().is_some() && lines.next() == Some("|---|---|---|"), "there is no table of refusals");
    let number = |row: &str| row.split('|').nth(1)?.trim().parse().ok();
    lines.take_while(|line| line.starts_with('|')).map(|row| number(row).expect("a number")).collect()
}

/// The numbers of `enum grid_refusals`: those behind the names.
fn numbers_in_header(header: &str) -> Vec<u32> {
    let (_, list) = header.split_once("enum grid_refusals {").expect("the list of refusals");
    let (list, _) = list.split_once("};").expect("its end");
    let number = |line: &str| {
        let (name, behind) = line.trim().split_once(" = ")?;
        let figures = behind.split(|c: char| !c.is_ascii_digit()).next()?;
        name.starts_with("GRID_").then(|| figures.parse().expect("a number"))
    };
    list.lines().filter_map(number).collect()
}

/// Every number that is a refusal has its row in the page of the calls, in the header and in the wrapper, and no other number has one.
#[test]
fn the_tables_list_every_refusal_and_no_other_number() {
    let told: Vec<u32> = (0..=1_000).filter(|&number| is_refusal(number)).collect();
    assert_eq!(told, REFUSALS.collect::<Vec<_>>());
    assert_eq!(numbers_in_page(include_str!("../../../docs/CALLS.md")), told);
    let header = numbers_in_header(include_str!("../../include/dyngrid.h"));
    assert_eq!(header.split_first(), Some((&0, &told[..])), "0 is done");
    assert_eq!(Refusal::ALL.map(Refusal::number).to_vec(), told);
}

/// The header's calls have the numbers of the wrapper's, and the words of their sentences.
#[test]
fn the_header_numbers_the_calls() {
    let header = include_str!("../../include/dyngrid.h");
    for (call, word) in Call::ALL.into_iter().zip(WORDS) {
        let line = format!("    GRID_CALL_{} = {}", word.to_uppercase(), call.number());
        let stands =
            |found: &str| found.strip_prefix(&line).is_some_and(|behind| behind.starts_with([',', ' ']));
        assert_eq!(header.lines().filter(|found| stands(found)).count(), 1, "{line}");
        assert_eq!(format!("{call:?}").to_lowercase(), word);
    }
    assert_eq!(header.lines().filter(|line| line.starts_with("    GRID_CALL_")).count(), Call::ALL.len());
    assert!(header.contains(&format!("GRID_NOTICE_BYTES = {BYTES} ")));
}

/// The page of the calls has their numbers and words, says whose name is shown, and has `choice` besides, which is in none of the papers.
#[test]
fn the_page_numbers_the_calls() {
    let page = include_str!("../../../docs/CALLS.md");
    let cells = |line: &'static str| line.split('|').map(str::trim).collect::<Vec<_>>();
    let rows: Vec<_> =
        page.lines().map(cells).filter(|row| row.len() == 7 && row[1].parse::<u64>().is_ok()).collect();
    for (call, word) in Call::ALL.into_iter().zip(WORDS) {
        let number = u64::from(call.number());
        let found: Vec<_> = rows.iter().filter(|row| row[1] == number.to_string()).collect();
        assert_eq!(found.len(), 1, "call {number}");
        assert_eq!(found[0][2], word);
        assert_eq!(found[0][4], if shows_its_name(number) { "yes" } else { "no" }, "call {number}");
    }
    assert_eq!(rows.len(), Call::ALL.len() + 1);
    assert_eq!(rows[Call::ALL.len()][2], "choice");
}

/// The lines of the page's tables of bytes: where a field begins, and its name in C.
fn offsets_in_page(page: &str) -> Vec<(String, u32)> {
    let offset = |line: &str| {
        let cells: Vec<&str> = line.split('|').map(str::trim).collect();
        let name =
            cells.get(3)?.strip_prefix('`')?.strip_suffix('`').filter(|name| name.starts_with("GRID_AT_"))?;
        let first = cells[2].trim_start_matches("from ").split(' ').next()?;
        Some((name.to_string(), first.parse().expect("a byte")))
    };
    page.lines().filter_map(offset).collect()
}

/// The page and the header have the same offsets, in the same order.
#[test]
fn the_page_has_the_headers_offsets() {
    let header = include_str!("../../include/dyngrid.h");
    let (_, list) = header.split_once("enum grid_offsets {").expect("the offsets");
    let (list, _) = list.split_once("};").expect("their end");
    let offset = |line: &str| {
        let (name, value) = line.trim().trim_end_matches(',').split_once(" = ")?;
        Some((name.to_string(), value.parse().expect("an offset")))
    };
    let in_header: Vec<(String, u32)> = list.lines().filter_map(offset).collect();
    assert!(in_header.len() > 15, "{in_header:?}");
    assert_eq!(offsets_in_page(include_str!("../../../docs/CALLS.md")), in_header);
}
