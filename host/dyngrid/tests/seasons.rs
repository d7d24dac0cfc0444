//! Tables of form 1 as the library of an earlier season left them: carried up and down again. Their calls are made anew on a table of
//! one file, with the same answers.
//!
//! `season/NAME.calls` has calls from the founding on, with the answers of the library at commit db1ed72, which founded tables of
//! form 1: behind `=` the refusal number, the value, and what was read. Sets have bit i - 1 for row i; what is written and read is
//! in hexadecimal. That library left the table `NAME.table` where it says `kept`, and `NAME.after` at the end.

use dyngrid::{raw, Form3Table, OlderForm, Refusal, Rows, Shape, Table};

const HEADER: usize = 16;
const HEAD: usize = 32;
const COPY_HEAD: usize = 12;
const RECORDS: usize = 576;
const GRID_MARK: usize = 24;
const COUNTY: usize = 26;

struct Season {
    name: &'static str,
    calls: &'static str,
    table: &'static [u8],
    after: &'static [u8],
}

macro_rules! season {
    ($name:literal) => {
        Season {
            name: $name,
            calls: include_str!(concat!("season/", $name, ".calls")),
            table: include_bytes!(concat!("season/", $name, ".table")),
            after: include_bytes!(concat!("season/", $name, ".after")),
        }
    };
}

const FIVE: Season = season!("five");
/// In these no list of five was laid.
const OTHERS: [Season; 3] = [season!("four"), season!("nine"), season!("sixty-four")];

fn all() -> impl Iterator<Item = Season> {
    OTHERS.into_iter().chain([FIVE])
}

impl Season {
    /// The calls before the table was kept, the founding first, and those after.
    fn parts(&self) -> [Vec<&'static str>; 2] {
        let (before, after) = self.calls.split_once("kept\n").expect("it says kept");
        [before, after].map(|part| part.lines().filter(|line| !line.starts_with('#')).collect())
    }
}

fn number<T: TryFrom<u64>>(word: &str) -> T {
    let read = match word.strip_prefix("0x") {
        Some(digits) => u64::from_str_radix(digits, 16),
        None => word.parse(),
    };
    read.ok().and_then(|number| number.try_into().ok()).unwrap_or_else(|| panic!("{word} is no such number"))
}

fn set(word: &str) -> Rows {
    Rows::from_bits(number(word))
}

fn bytes(word: &str) -> Vec<u8> {
    (0..word.len()).step_by(2).map(|at| number(&format!("0x{}", &word[at..at + 2]))).collect()
}

fn answer(result: Result<u32, Refusal>) -> String {
    result.map_or_else(|refusal| format!("{} 0", refusal.number()), |value| format!("0 {value}"))
}

/// Founds the table of the first call.
fn founded(line: &str) -> Table {
    let words: Vec<&str> = line.split(' ').collect();
    let ["found", capacity, file_len, names, "=", "0", used] = words[..] else {
        panic!("no founding: {line}")
    };
    let names: Vec<u16> = names.split(',').map(number).collect();
    assert_eq!(names.len(), number(used));
    Table::found(number(capacity), number(file_len), &names, Shape::Wide).expect("a plain founding")
}

/// Makes a call, whose answer must be the one that it had.
fn call(table: &mut Table, line: &str) {
    let (asked, answered) = line.split_once(" = ").expect("an answer");
    let words: Vec<&str> = asked.split(' ').collect();
    let got = match words[..] {
        ["read", by, up, offset, length] => {
            let mut buffer = vec![0; number(length)];
            let result = table.file(1).read(number(by), set(up), number(offset), &mut buffer);
            let read: String = buffer.iter().map(|byte| format!("{byte:02x}")).collect();
            let answer = answer(result.map(|done| done.version).map_err(Refusal::from));
            if result.is_ok() {
                format!("{answer} {read}")
            } else {
                answer
            }
        }
        ["write", by, up, offset, patch] => {
            let result = table.file_mut(1).write(number(by), set(up), number(offset), &bytes(patch));
            answer(result.map(|done| done.version).map_err(Refusal::from))
        }
        ["send", from, to, up] => answer(table.file_mut(1).send(number(from), number(to), set(up))),
        ["check", by, up] => answer(table.check(number(by), set(up))),
        _ => panic!("no such call: {line}"),
    };
    assert_eq!(got, answered, "{line}");
}

fn up(older: &[u8]) -> Form3Table {
    Form3Table::carry_up(older).expect("a table of an older form")
}

/// The same rows in form 3: what is in the one copy of a row lay in its head.
fn in_form_3(table: &Table) -> Form3Table {
    assert_eq!(table.files(), 1);
    let (header, rows) = table.as_bytes().split_at(HEADER);
    let mut bytes = header.to_vec();
    (bytes[0], bytes[6]) = (3, 0);
    for row in rows.chunks(rows.len() / table.capacity()) {
        let (head, copy) = row.split_at(HEAD);
        let mut head = head.to_vec();
        (head[3], head[25], head[COUNTY]) = (copy[0], copy[1], 0);
        head[4..12].copy_from_slice(&copy[4..COPY_HEAD]);
        bytes.extend_from_slice(&head);
        bytes.extend_from_slice(&copy[COPY_HEAD..]);
    }
    Form3Table::from_bytes(bytes).expect("the rules are the same")
}

/// The same rows in form 4, which had no counties.
fn in_form_4(table: &Table) -> Vec<u8> {
    let mut bytes = table.as_bytes().to_vec();
    bytes[0] = 4;
    let stride = (bytes.len() - HEADER) / table.capacity();
    bytes[HEADER..].chunks_mut(stride).for_each(|row| row[COUNTY] = 0);
    bytes
}

/// The same lists in the published grid, as a season before laid them.
fn published(table: Table) -> Table {
    let mut bytes = table.into_bytes();
    let (capacity, used) = (usize::from(bytes[1]), usize::from(bytes[2]));
    let rows = &mut bytes[HEADER..];
    let stride = rows.len() / capacity;
    rows.chunks_mut(stride).take(used).for_each(|row| row[GRID_MARK] = 0);
    Table::from_bytes(bytes).expect("well formed")
}

/// Up and down gives the original bytes; on the way down to form 2 only the first byte is another.
#[test]
fn up_and_down_gives_the_original_bytes() {
    for (name, kept) in all().flat_map(|season| [(season.name, season.table), (season.name, season.after)]) {
        let table = up(kept);
        assert_eq!(table.carry_down(OlderForm::One).as_deref(), Ok(kept), "{name}");
        let form_2 = table.carry_down(OlderForm::Two).expect("form 2 holds every table");
        assert_eq!((form_2[0], &form_2[1..]), (2, &kept[1..]), "{name}");
        assert_eq!(up(&form_2), table, "{name}");
        // Each row is the same, and its window is empty.
        let bytes = table.as_bytes();
        assert_eq!((bytes[0], &bytes[1..HEADER]), (3, &kept[1..HEADER]), "{name}");
        let stride = (kept.len() - HEADER) / usize::from(kept[1]);
        for (new, old) in bytes[HEADER..].chunks(stride + RECORDS).zip(kept[HEADER..].chunks(stride)) {
            assert_eq!((&new[..stride], &new[stride..]), (old, &[0; RECORDS][..]), "{name}");
        }
    }
}

/// Founded now, the same calls have the same answers and leave the same rows.
#[test]
fn the_season_from_its_founding_on() {
    let mut by_window = 0;
    for season in all() {
        let [before, after] = season.parts();
        let mut table = published(founded(before[0]));
        let mut calls = |lines: &[&str], left: &[u8]| {
            for line in lines {
                let then = table.clone();
                call(&mut table, line);
                if let ["send", from, to, ..] = line.split(' ').collect::<Vec<_>>()[..] {
                    let [from, to] = [from, to].map(|row| then.file(1).copy(number(row)).expect("in use"));
                    by_window += u32::from(table != then && from.reaches_back_to() <= to.version);
                }
            }
            assert_eq!(in_form_3(&table).carry_down(OlderForm::One).as_deref(), Ok(left), "{}", season.name);
        };
        calls(&before[1..], season.table);
        calls(&after, season.after);
    }
    println!("{by_window} sends by window");
    assert!(by_window > 5, "{by_window}");
    // Five are laid in another grid now, which form 1 does not know.
    let five = in_form_3(&founded(FIVE.parts()[0][0]));
    assert_eq!(five.carry_down(OlderForm::One), Err(Refusal::NotForm1));
}

/// In the published grid the third machine is a column by itself until two checks that it answers have laid the five anew.
#[test]
fn five_are_laid_anew_by_two_checks() {
    let [before, _] = FIVE.parts();
    let mut table = published(founded(before[0]));
    before[1..].iter().for_each(|line| call(&mut table, line));
    let but_the_third = Rows::of(&[1, 2, 4, 5]).expect("rows");
    let refused =
        |table: &Table| table.file(1).read(1, but_the_third, 0, &mut [0; 15]).map_err(Refusal::from);
    assert_eq!(refused(&table), Err(Refusal::NoQuorum));
    assert_eq!(table.check(1, Rows::first(5)), Ok(0), "they are the list in force");
    assert_eq!(refused(&table), Err(Refusal::NoQuorum));
    assert_eq!((table.check(1, Rows::first(4)), table.check(1, Rows::first(5))), (Ok(1), Ok(2)));
    assert_eq!(refused(&table).map(|done| done.version), Ok(2));
    assert_eq!(in_form_3(&table).carry_down(OlderForm::One), Err(Refusal::NotForm1));
}

/// Down and up: the same rows with empty windows. A machine that joined, and a tall table, go down to form 2 alone.
#[test]
fn down_and_up_empties_the_windows() {
    for shape in [Shape::Wide, Shape::Tall] {
        let mut table = Table::found(6, 16, &[10, 20, 30, 40], shape).expect("a plain founding");
        table.file_mut(1).write(1, Rows::first(4), 0, b"1-0").expect("a quorum answers");
        let three = Rows::of(&[1, 2, 4]).expect("rows");
        table.file_mut(1).write(1, three, 8, b"0-1").expect("a quorum answers");
        assert!(table.file(1).copy(1).is_some_and(|copy| copy.patches == 2));
        let plain = shape == Shape::Wide;
        assert_eq!(in_form_3(&table).carry_down(OlderForm::One).is_ok(), plain);
        table.join(50).expect("room");
        let table = in_form_3(&table);
        assert_eq!(table.carry_down(OlderForm::One), Err(Refusal::NotForm1));
        assert_eq!(table.carry_down(OlderForm::Three), Err(Refusal::BadSize), "it is there already");
        let again = up(&table.carry_down(OlderForm::Two).expect("form 2 holds every table"));
        let [then, now] = [&table, &again].map(|table| table.as_bytes().split_at(HEADER));
        assert_eq!(then.0, now.0);
        let stride = HEAD + 16 + RECORDS;
        for (now, then) in now.1.chunks(stride).zip(then.1.chunks(stride)) {
            assert_eq!((&now[..25], &now[26..HEAD + 16]), (&then[..25], &then[26..HEAD + 16]));
            assert_eq!((now[25], &now[HEAD + 16..]), (0, &[0; RECORDS][..]));
        }
    }
}

/// The error names the form; only a move takes the bytes.
#[test]
fn a_table_of_an_older_form_is_told() {
    let kept = OTHERS[0].table;
    let form_3 = up(kept);
    for form in [OlderForm::One, OlderForm::Two, OlderForm::Three] {
        let bytes = form_3.carry_down(form).unwrap_or_else(|_| form_3.as_bytes().to_vec());
        assert_eq!(bytes[0], form.number());
        let error = Table::from_bytes(bytes.clone()).expect_err("an older form");
        assert_eq!((error.refusal(), error.older_form()), (Refusal::Malformed, Some(form)));
        let text = format!(
            "{} bytes are a table of form {}, which no call but a move takes: found a new table, and write its files into that",
            bytes.len(),
            form.number()
        );
        assert_eq!(error.to_string(), text);
        assert_eq!(error.into_bytes(), bytes);
        let taken = Form3Table::from_bytes(bytes.clone());
        match form {
            OlderForm::Three => {
                assert_eq!(taken.as_ref(), Ok(&form_3));
                assert_eq!(Form3Table::carry_up(&bytes), Err(Refusal::BadSize), "it is there already");
            }
            _ => {
                assert_eq!(taken.map_err(|error| error.older_form()), Err(Some(form)));
                assert_eq!(up(&bytes), form_3);
            }
        }
        // With a rule broken, or of another form, it is no table of that form.
        for (byte, value) in [(0, 0), (0, 4), (0, 5), (1, 5), (HEADER + 3, 2), (HEADER + 25, 17)] {
            let mut bytes = bytes.clone();
            bytes[byte] = value;
            assert_eq!(Form3Table::carry_up(&bytes), Err(Refusal::Malformed));
            for error in [
                Table::from_bytes(bytes.clone()).expect_err("damaged"),
                Form3Table::from_bytes(bytes.clone()).expect_err("damaged"),
            ] {
                assert_eq!(error.older_form(), None);
                let text = format!("{} bytes are no table: refused by 1: ", bytes.len());
                assert!(error.to_string().starts_with(&text), "{error}");
            }
        }
    }
    assert_eq!(format!("{form_3:?}"), "Form3Table { length: 2512, .. }");
    // Tables of forms 4 and 5 are none of form 3, and nothing carries them there, or one to the other.
    let table = founded(OTHERS[0].parts()[0][0]);
    let form_4 = in_form_4(&table);
    for (bytes, older) in [(&form_4[..], Some(OlderForm::Four)), (table.as_bytes(), None)] {
        assert_eq!(Form3Table::carry_up(bytes), Err(Refusal::BadSize));
        let error = Form3Table::from_bytes(bytes.to_vec()).expect_err("no form 3");
        assert_eq!(error.older_form(), older);
    }
    assert_eq!(form_3.carry_down(OlderForm::Four), Err(Refusal::BadSize));
    let error = Table::from_bytes(form_4.clone()).expect_err("form 4");
    assert_eq!((error.refusal(), error.older_form()), (Refusal::Malformed, Some(OlderForm::Four)));
    assert!(error.to_string().ends_with("found a new table, and write its files into that"), "{error}");
    // With the county of form 5 it is no table of form 4, and without it none of form 5.
    for (form, county) in [(4, 1), (5, 0)] {
        let mut bytes = form_4.clone();
        (bytes[0], bytes[HEADER + COUNTY]) = (form, county);
        assert_eq!(Table::from_bytes(bytes).map_err(|error| error.older_form()), Err(None));
    }
}

/// Between two seasons a table of form 1 could have machines that joined: it is one of form 2 but for the first byte.
#[test]
fn a_table_of_form_1_that_a_machine_joined() {
    let mut table = Table::found(5, 4, &[10, 20, 30, 40], Shape::Wide).expect("a plain founding");
    table.join(50).expect("room");
    let table = in_form_3(&table);
    let mut kept = table.carry_down(OlderForm::Two).expect("form 2 holds every table");
    kept[0] = 1;
    assert_eq!(Form3Table::carry_up(&kept), Err(Refusal::Malformed));
    let error = Table::from_bytes(kept.clone()).expect_err("form 1");
    assert_eq!((error.older_form(), error.refusal()), (None, Refusal::Malformed));
    assert!(error.to_string().ends_with("to carry it up to form 3, set byte 0 to 2"), "{error}");
    assert_eq!(error.as_bytes(), kept);
    kept[0] = 2;
    assert_eq!(up(&kept), table);
}

/// Every length and every single bit: it is carried up and comes down the same, or is refused by 1.
#[test]
fn damaged_tables_are_refused() {
    let kept = OTHERS[0].table;
    let (mut carried, mut refused) = (0, 0);
    let lengths = (0..kept.len()).map(|length| kept[..length].to_vec());
    let bits = (0..8 * kept.len()).map(|bit| {
        let mut bytes = kept.to_vec();
        bytes[bit / 8] ^= 1 << (bit % 8);
        bytes
    });
    for bytes in lengths.chain(bits) {
        match Form3Table::carry_up(&bytes) {
            Ok(table) => {
                let form = if bytes[0] == 1 { OlderForm::One } else { OlderForm::Two };
                assert_eq!(table.carry_down(form).as_deref(), Ok(&bytes[..]));
                carried += 1;
            }
            Err(refusal) => {
                assert_eq!(refusal, Refusal::Malformed);
                refused += 1;
            }
        }
    }
    println!("{carried} carried, {refused} refused");
    assert!(carried > 500 && refused > 500, "{carried} {refused}");
}

/// As C calls it: 15 before 12, and a refusal leaves the second buffer. No table goes to form 4 or 5, or from them.
#[test]
fn moves_are_refused_by_number() {
    let five = founded(FIVE.parts()[0][0]);
    let (newest, marked) = (published(five.clone()), in_form_3(&five));
    let form_3 = in_form_3(&newest);
    let [form_1, form_2] = [(&form_3, OlderForm::One), (&marked, OlderForm::Two)]
        .map(|(table, form)| table.carry_down(form).expect("the form holds it"));
    let (short, long) = (form_1.len(), form_3.as_bytes().len());
    let [plain_4, marked_4] = [&newest, &five].map(in_form_4);
    let newer = [newest.as_bytes(), five.as_bytes(), &plain_4, &marked_4];
    let tables = [[&form_1, &form_2, form_3.as_bytes(), marked.as_bytes()], newer].concat();
    for form in [0, 1, 2, 3, 4, 5, 6, 255, 256 + 3, (1 << 32) + 3, u64::MAX] {
        for (which, &table) in (0..).zip(&tables) {
            for length in [0, short - 1, short, short + 1, long - 1, long, long + 1, newest.as_bytes().len()]
            {
                let mut to = vec![0xa5; length];
                // SAFETY: both slices are live for the call, and they are two.
                let result =
                    unsafe { raw::grid_move(table.as_ptr(), table.len(), form, to.as_mut_ptr(), to.len()) };
                let goes = matches!((table[0], form, length), (1 | 2, 3, length) if length == long)
                    || matches!((table[0], form, length), (3, 1 | 2, length) if length == short);
                let expected: u64 = match (which, form) {
                    (1 | 3 | 5 | 7, 1) => 15 << 32,
                    _ if goes => 5,
                    _ => 12 << 32,
                };
                assert_eq!(result, expected, "table {which} to form {form} and {length} bytes");
                if !goes || expected >> 32 != 0 {
                    assert!(to.iter().all(|&byte| byte == 0xa5), "a refusal leaves the buffer");
                } else if form == 3 {
                    assert_eq!(to, up(table).as_bytes(), "whatever the buffer held");
                } else {
                    let form = if form == 1 { OlderForm::One } else { OlderForm::Two };
                    let table = Form3Table::from_bytes(table.to_vec()).expect("of form 3");
                    assert_eq!(Ok(to), table.carry_down(form), "whatever the buffer held");
                }
            }
        }
    }
}
