//! What a table tells of its rows, which sends it says would be done, and how it is shown.

mod random;

use dyngrid::{Kind, NotAssembled, Patch, Refusal, RowView, Rows, Shape, Table};
use random::Random;

/// Behind the head of a row come its copies, here of files of 16 bytes.
const HEAD: usize = 32;
const COPY: usize = 588 + 16;
/// The bytes of a row with a copy of one file.
const ROW: usize = HEAD + COPY;

fn rows(rows: &[usize]) -> Rows {
    Rows::of(rows).expect("rows")
}

fn found(capacity: usize, names: &[u16], shape: Shape) -> Table {
    Table::found(capacity, 16, names, shape).expect("a plain founding")
}

/// The table that docs/RELAY.md shows: 5 has joined, 3 was away, 4 lacks two writes of file 1.
fn shown_in_the_page() -> Table {
    known(&[1, 2, 3, 4], 5)
}

/// The same with these names.
fn known(names: &[u16; 4], joined: u16) -> Table {
    let mut table = Table::found_group(6, 16, names, Shape::Wide, 2).expect("a plain founding");
    table.file_mut(1).write(1, rows(&[1, 2, 3]), 0, b"1-0").expect("a quorum answers");
    table.file_mut(2).write(1, rows(&[1, 2, 4]), 0, b"0:47").expect("a quorum answers");
    table.check(1, rows(&[1, 2, 4])).expect("a quorum answers");
    table.file_mut(1).write(1, rows(&[1, 2]), 0, b"0-1").expect("a quorum answers");
    table.join(joined).expect("room");
    table
}

/// No founding leads to it: row 4 has the epoch that the check gives to the others, and another list.
fn damaged() -> Table {
    let mut bytes = found(4, &[10, 20, 30, 40], Shape::Wide).into_bytes();
    let fourth = &mut bytes[16 + 3 * ROW..];
    (fourth[12], fourth[16]) = (1, 0b1000);
    let mut table = Table::from_bytes(bytes).expect("well formed");
    assert_eq!(table.check(1, Rows::first(3)), Ok(1));
    assert_eq!(table.choice(1, Kind::Read), Err(Refusal::Malformed));
    table
}

/// Nothing of it panics, and no part of it contradicts another.
fn look_at(table: &Table) {
    let views: Vec<RowView> = table.views().collect();
    assert_eq!(views.len(), table.used());
    for (row, view) in (1..).zip(&views) {
        let told = [table.row(row), table.row_named(view.name)];
        assert_eq!(
            (view.row, view.copies.len(), told),
            (row, table.files(), [Some(view.clone()), Some(view.clone())])
        );
        for (file, copy) in (1..).zip(&view.copies) {
            assert_eq!((copy.file, table.file(file).copy(row)), (file, Some(*copy)));
            assert_eq!(table.file(file).window(row).len(), copy.patches);
        }
    }
    for file in (1..=table.files()).map(|file| table.file(file)) {
        let sends = file.sends();
        assert!(sends.is_sorted_by_key(|&(from, to)| (to, from)));
        assert!(file.sends_from_newest().iter().all(|send| sends.contains(send)));
    }
    assert!(table.to_string().lines().count() >= 2 + views.len() * table.files());
}

/// Numbers whose bytes all differ, in the last of three copies of a row beyond 32, whose list has rows at both ends.
#[test]
fn a_view_tells_every_field() {
    let names: Vec<u16> = (1..=64).map(|rank| 1000 * rank).collect();
    let founded = Table::found_group(64, 16, &names, Shape::Wide, 3).expect("a plain founding");
    let mut bytes = founded.into_bytes();
    let list: u64 = 0x8163_0245_c06f_21a9 | 1 << 40;
    let row = &mut bytes[16 + 40 * (HEAD + 3 * COPY)..][..HEAD + 3 * COPY];
    row[12..16].copy_from_slice(&[0xbc, 0xde, 0x0e, 0]);
    row[16..24].copy_from_slice(&list.to_le_bytes());
    let third = &mut row[HEAD + 2 * COPY..];
    third[..12].copy_from_slice(&[1, 2, 0, 0, 0x12, 0x34, 0x05, 0, 0x67, 0x89, 0x0a, 0]);
    // Record 2 is the older one.
    third[12 + 16..][..6].copy_from_slice(&[0, 2, 9, 0, 0x61, 0x62]);
    third[12 + 16 + 36..][..5].copy_from_slice(&[1, 1, 15, 0, 0x63]);
    let table = Table::from_bytes(bytes).expect("well formed");
    let view = table.row(41).expect("in use");
    assert_eq!((view.row, view.name, view.epoch), (41, 41_000, 0x0e_debc));
    assert_eq!((view.list, view.grid_mark), (Rows::from_bits(list), 0));
    let [first, second, third] = view.copies[..] else { panic!("{view:?}") };
    assert_eq!((third.file, third.stale, third.version, third.desired), (3, true, 0x05_3412, 0x0a_8967));
    assert_eq!((third.patches, third.reaches_back_to()), (2, 0x05_3410));
    let window = table.file(3).window(41);
    let patch = |version, offset, bytes| Patch { version, offset, bytes };
    assert_eq!(window, [patch(0x05_3411, 15, &b"c"[..]), patch(0x05_3412, 9, b"ab")]);
    let other = table.row_named(40_000).expect("in use");
    assert_eq!((other.row, other.epoch, other.list), (40, 0, Rows::first(64)));
    assert_eq!(other.copies[..2], [first, second]);
    for (file, copy) in (1..).zip(other.copies) {
        assert_eq!((copy.file, copy.stale, copy.version, copy.desired, copy.patches), (file, false, 0, 0, 0));
    }
    assert_eq!([0, 4, 9, usize::MAX].map(|file| table.file(file).copy(41)), [None; 4]);
    look_at(&table);
}

#[test]
fn rows_by_number_and_by_name() {
    let table = known(&[10, 20, 30, 40], 25);
    let names: Vec<u16> = table.views().map(|view| view.name).collect();
    assert_eq!(names, [10, 20, 30, 40, 25]);
    for row in [0, 6, 7, 64, 65, usize::MAX] {
        assert_eq!(table.row(row), None);
    }
    for name in [0, 1, 26, u16::MAX] {
        assert_eq!(table.row_named(name), None, "{name}: row 6 is unused, and has no name");
    }
    let joined = table.row_named(25).expect("in use");
    assert_eq!((joined.row, joined.list, joined.grid_mark), (5, Rows::EMPTY, 0));
    let marks = |names: &[u16], shape| -> Vec<u8> {
        found(names.len(), names, shape).views().map(|view| view.grid_mark).collect()
    };
    assert_eq!(marks(&[1, 2, 3, 4, 5], Shape::Wide), [1; 5]);
    assert_eq!(marks(&[1, 2, 3, 4], Shape::Tall), [2; 4]);
    // Of the rows that did not answer there is name and link only.
    let four = table.row_bytes(4).expect("in use");
    let assembled = Table::assemble(&table.frame(), [(4, four)]).expect("a row of the table");
    assert_eq!(assembled.row(4), table.row(4));
    let away = assembled.row(1).expect("in use");
    assert_eq!((away.name, away.copies[0].version, away.list), (10, 0, Rows::EMPTY));
}

#[test]
fn sends_of_a_known_table() {
    let mut table = shown_in_the_page();
    let all = table.rows();
    assert_eq!(table.file(1).sends(), [(1, 4), (2, 4), (3, 4)], "row 4 desires 1, which row 3 has");
    assert_eq!(table.file(1).sends_from_newest(), [(1, 4)]);
    assert_eq!(
        [0, 2, 3].map(|file| table.file(file).sends()),
        [const { Vec::new() }; 3],
        "no copy of file 2 is marked"
    );
    // Of the rows 3 and 4 alone, and of 4 and the new one.
    let among = |answering: &[usize]| {
        let answered = answering.iter().map(|&row| (row, table.row_bytes(row).expect("in use")));
        Table::assemble(&table.frame(), answered).expect("rows of the table").file(1).sends()
    };
    assert_eq!((among(&[3, 4]), among(&[4, 5])), (vec![(3, 4)], vec![]));
    // The newest is not the lowest row, and two have it.
    table.check(1, all).expect("a quorum answers");
    assert_eq!(table.file(1).sends(), [3, 4, 5].map(|to| [(1, to), (2, to)]).as_flattened());
    assert_eq!(table.file(2).sends(), [3, 5].map(|to| [(1, to), (2, to), (4, to)]).as_flattened());
    table.file_mut(1).send(2, 5, all).expect("row 5 is stale");
    assert_eq!(table.file(1).sends_from_newest(), [(1, 3), (1, 4)]);
    assert_eq!(table.file(2).sends_from_newest(), [(1, 3), (1, 5)]);
    let mut bytes = table.into_bytes();
    bytes[16 + HEAD + 4] = 9; // of file 1, row 1 has version 9
    bytes[16 + 4 * (HEAD + 2 * COPY) + HEAD + 4] = 10; // and row 5 version 10
    let table = Table::from_bytes(bytes).expect("well formed");
    assert_eq!(table.file(1).sends_from_newest(), [(5, 3), (5, 4)]);
    assert_eq!(table.file(1).sends(), [3, 4].map(|to| [(1, to), (2, to), (5, to)]).as_flattened());
    assert_eq!(table.file(2).sends_from_newest(), [(1, 3), (1, 5)]);
}

/// A row that is behind without a mark: a check by the list in force leaves it so, a write with it in its set marks it.
#[test]
fn a_row_behind_is_no_receiver_until_it_is_marked() {
    let mut table = found(4, &[10, 20, 30, 40], Shape::Wide);
    let all = table.rows();
    let desired = |table: &Table| table.file(1).copy(4).map(|copy| (copy.stale, copy.desired));
    table.file_mut(1).write(4, all, 0, b"1-0").expect("a quorum answers");
    assert_eq!(table.check(4, all), Ok(0));
    assert!(table.to_string().contains("   40    4        0  in force     1        0  behind\n"), "{table}");
    assert_eq!((desired(&table), table.file(1).sends()), (Some((false, 0)), vec![]));
    table.file_mut(1).write(4, rows(&[1, 2, 4]), 0, b"0-1").expect("a quorum answers");
    assert_eq!((desired(&table), table.file(1).sends()), (Some((true, 2)), vec![(1, 4), (2, 4)]));
}

/// In histories with joinings, wide and tall: a send is listed exactly if the copies say so (9 and 10 of the scope), and exactly if it
/// is done; the short form leaves none to be done.
#[test]
fn sends_are_those_that_would_be_done() {
    let mut listed = 0;
    for seed in 1..=60_u64 {
        let mut random = Random::new(seed);
        let (machines, files) = (1 + random.below(12), 1 + random.below(3));
        let names: Vec<u16> = (1..=machines as u16).map(|rank| 40 * rank).collect();
        let shape = [Shape::Wide, Shape::Tall][random.below(2)];
        let mut table = Table::found_group(machines + 3, 16, &names, shape, files).expect("a plain founding");
        for step in 0..40 {
            let up = Rows::from_bits((random.below(1 << 30) | random.below(1 << 30)) as u64) & table.rows();
            let (by, file, all) = (1 + random.below(table.used()), 1 + random.below(files), table.rows());
            // Refused calls alter nothing.
            match random.below(8) {
                0 => _ = table.join(random.below(600) as u16),
                1 | 2 => _ = table.check(by, up | rows(&[by])),
                3 => _ = table.file_mut(file).send(1 + random.below(all.len()), by, all),
                _ => _ = table.file_mut(file).write(by, up | rows(&[by]), 0, &[step]),
            }
            for file in 1..=files {
                listed += sends_of(&table, file, &format!("seed {seed}, step {step}, file {file}:\n{table}"));
            }
            look_at(&table);
        }
    }
    println!("{listed} sends");
    assert!(listed > 5_000, "{listed}");
}

/// Looks at the sends of a file; gives how many are listed.
fn sends_of(table: &Table, file: usize, at: &str) -> usize {
    let (all, sends) = (table.rows(), table.file(file).sends());
    let copy = |row| table.file(file).copy(row).expect("in use");
    for send in all.iter().flat_map(|to| all.iter().map(move |from| (from, to))) {
        let (from, to) = (copy(send.0), copy(send.1));
        let by_the_copies = !from.stale && to.stale && to.desired <= from.version;
        assert_eq!(sends.contains(&send), by_the_copies, "{send:?}, {at}");
        let done = table.clone().file_mut(file).send(send.0, send.1, all).is_ok();
        assert_eq!(done, by_the_copies, "{send:?}, {at}");
    }
    let mut after = table.clone();
    for (from, to) in table.file(file).sends_from_newest().into_iter().rev() {
        let newest = sends.iter().filter(|send| send.1 == to).map(|send| copy(send.0).version).max();
        assert_eq!(newest, Some(copy(from).version), "to {to}, {at}");
        assert_eq!(after.file_mut(file).send(from, to, all).ok(), newest, "{at}");
    }
    assert_eq!(after.file(file).sends(), [], "{at}");
    sends.len()
}

/// Every length, every form, every single bit: a `Table` comes of it that can be looked at, or an error that says so.
#[test]
fn damaged_bytes_are_told_and_nothing_panics() {
    let whole = shown_in_the_page().into_bytes();
    for length in 0..whole.len() {
        let error = Table::from_bytes(whole[..length].to_vec()).expect_err("truncated");
        assert!(error.to_string().starts_with(&format!("{length} bytes are no table: refused by 1")));
    }
    let (mut tables, mut errors) = (0, 0);
    for at in 0..whole.len() {
        for bit in 0..8 {
            let mut bytes = whole.clone();
            bytes[at] ^= 1 << bit;
            match Table::from_bytes(bytes) {
                Ok(table) => {
                    look_at(&table);
                    tables += 1;
                }
                Err(error) => {
                    assert!(error.to_string().contains("no table"), "{error}");
                    errors += 1;
                }
            }
        }
    }
    assert!(tables > 500 && errors > 500, "{tables} {errors}");
    // What one machine holds.
    let table = shown_in_the_page();
    let mut row = table.row_bytes(4).expect("in use").to_vec();
    row[HEAD] = 2;
    let error = Table::assemble(&table.frame(), [(4, row)]).expect_err("a mark of 2");
    assert!(matches!(error, NotAssembled::Malformed(_)), "{error}");
}

/// The page shows it as it is.
#[test]
fn the_table_in_the_page() {
    let shown = shown_in_the_page().to_string();
    let page = include_str!("../../../docs/RELAY.md");
    assert!(page.contains(&format!("```\n{shown}\n```\n")), "RELAY.md should have\n{shown}");
}

#[test]
fn a_table_that_a_check_left_malformed_is_shown_as_damaged() {
    let table = damaged();
    look_at(&table);
    assert_eq!((table.file(1).sends(), table.file(1).sends_from_newest()), (vec![], vec![]));
    assert_eq!(table.row(4).map(|row| (row.epoch, row.list)), Some((1, rows(&[4]))));
    assert_eq!(
        table.to_string(),
        "\
DAMAGED: not well formed, every call on it is refused by 1; use a good copy of it
4 of 4 rows in use, 1 file of length 16
 name  row    epoch  list      file  version  state
   10    1        1  a list       1        0  current
   20    2        1  a list       1        0  current
   30    3        1  a list       1        0  current
   40    4        1  a list       1        0  current"
    );
}

/// No list, and so no grid: a frame. Versions at their limit, names of one to five digits, five in either grid, tall.
#[test]
fn tables_as_they_are_shown() {
    let mut table = found(5, &[7, 77, 777, 7777], Shape::Wide);
    table.join(65_535).expect("room");
    let heads =
        "5 of 5 rows in use, 1 file of length 16\n name  row    epoch  list      file  version  state\n";
    assert_eq!(
        table.frame().to_string(),
        format!(
            "{heads}    7    1        0  no list      1        0  current
   77    2        0  no list      1        0  current
  777    3        0  no list      1        0  current
 7777    4        0  no list      1        0  current
65535    5        0  no list      1        0  current
no row has a list"
        )
    );
    let mut bytes = table.into_bytes();
    // Row 2 desires a version that no row has: nobody is current.
    bytes[16 + ROW + HEAD..][..12].copy_from_slice(&[1, 0, 0, 0, 9, 0, 0, 0, 0x40, 0x42, 0x0f, 0]);
    bytes[16 + HEAD + 4..][..4].copy_from_slice(&[0x3f, 0x42, 0x0f, 0]);
    for row in 0..4 {
        bytes[16 + ROW * row + 12..16 + ROW * row + 15].copy_from_slice(&[0x40, 0x42, 0x0f]);
    }
    assert_eq!(
        Table::from_bytes(bytes).expect("well formed").to_string(),
        format!(
            "{heads}    7    1  1000000  in force     1   999999  behind
   77    2  1000000  in force     1        9  stale, desires 1000000
  777    3  1000000  in force     1        0  behind
 7777    4  1000000  in force     1        0  behind
65535    5        0  no list      1        0  behind
list in force, of epoch 1000000, in its grid:
    7     77
  777   7777"
        )
    );
    let grid = |table: &Table| {
        let shown = table.to_string();
        shown.lines().skip(2 + table.used()).map(str::to_string).collect::<Vec<_>>()
    };
    let five = found(5, &[1, 20, 300, 4000, 50_000], Shape::Wide);
    let new = ["list in force, of epoch 0, in its grid:", "    1     20", "  300   4000", "50000"];
    assert_eq!(grid(&five), new);
    let mut published = five.into_bytes();
    published[16..].chunks_mut(ROW).for_each(|row| row[24] = 0);
    let published = Table::from_bytes(published).expect("five in the published grid");
    assert_eq!(grid(&published), [new[0], "    1     20    300", " 4000  50000"]);
    let six = found(6, &[1, 2, 3, 4, 5, 6], Shape::Tall);
    let lines =
        ["list in force, of epoch 0, in its tall grid:", "    1      2", "    3      4", "    5      6"];
    assert_eq!(grid(&six), lines);
}

/// For 1 to 64 machines, wide and tall, some joined: lines are aligned, and the columns drawn are those that the library counts by.
#[test]
fn what_is_drawn_is_the_grid_of_the_library() {
    for (machines, shape) in (1..=64).flat_map(|machines| [(machines, Shape::Wide), (machines, Shape::Tall)])
    {
        // From one digit to five.
        let names: Vec<u16> = (1..=machines as u16).map(|rank| rank * rank * 15 - 14).collect();
        let joined = 64.min(machines + 2) - machines;
        let mut table = found(64, &names, shape);
        for name in &[40_000, 2][..joined] {
            table.join(*name).expect("room");
        }
        let shown = table.to_string();
        let lines: Vec<&str> = shown.lines().collect();
        let (listed, drawn) = lines[1..].split_at(1 + table.used());
        let [list, state] = ["list", "state"].map(|head| listed[0].find(head).expect("a head"));
        let numbers = ["row", "epoch", "file", "version"]
            .map(|head| listed[0].find(head).expect("a head") + head.len());
        let mut before = 0;
        for line in &listed[1..] {
            let fields: Vec<&str> = line.split_whitespace().collect();
            let view = table.row(fields[1].parse().expect("a row")).expect("in use");
            assert!(view.name > before, "{shown}");
            before = view.name;
            assert_eq!(fields[0], view.name.to_string());
            let ends =
                |&end: &usize| line.as_bytes()[end - 1].is_ascii_digit() && line.as_bytes()[end] == b' ';
            assert!(numbers.iter().all(ends), "{shown}");
            let place = if view.list.is_empty() { "no list " } else { "in force" };
            assert_eq!((&line[list..list + 8], &line[state..]), (place, "current"), "{shown}");
        }
        assert!(lines.iter().all(|line| line.trim_end() == *line && line.len() < 80), "{shown}");
        let mut columns: Vec<Rows> = Vec::new();
        for line in &drawn[1..] {
            for (column, name) in line.as_bytes().chunks(7).enumerate() {
                let name = std::str::from_utf8(name).expect("digits").trim().parse().expect("a name");
                let row = rows(&[table.row_named(name).expect("in use").row]);
                match columns.get_mut(column) {
                    Some(rows) => *rows |= row,
                    None => columns.push(row),
                }
            }
        }
        let all = columns.iter().fold(Rows::EMPTY, |all, &column| all | column);
        assert_eq!(all, Rows::first(machines), "{shown}");
        for (column, &whole) in columns.iter().enumerate() {
            let without = all - whole;
            if let Some(by) = without.iter().next() {
                let refused = table.file(1).read(by, without, 0, &mut [0]).expect_err("a column is missing");
                assert_eq!(refused.refusal, Refusal::NoQuorum, "without column {column} of\n{shown}");
            }
            // One of each other column; without one of the whole column it is enough for a read only.
            let others = columns.iter().enumerate().filter(|(other, _)| *other != column);
            let few: Rows = others.filter_map(|(_, rows)| rows.iter().next()).collect();
            let by = (whole | few).iter().next().expect("not empty");
            assert!(
                table.clone().file_mut(1).write(by, whole | few, 0, &[1]).is_ok(),
                "column {column} of\n{shown}"
            );
            let part = (whole | few) - rows(&[whole.iter().next().expect("not empty")]);
            if let (true, Some(by)) =
                (whole.len() > 1 && columns.iter().all(|rows| rows.len() > 1), part.iter().next())
            {
                let refused =
                    table.clone().file_mut(1).write(by, part, 0, &[1]).expect_err("no whole column");
                assert_eq!(refused.refusal, Refusal::NoQuorum, "column {column} of\n{shown}");
                assert!(table.file(1).read(by, part, 0, &mut [0]).is_ok(), "column {column} of\n{shown}");
            }
        }
    }
}
