//! Tables in short: the frame in few bytes, the grid of a list, and the outline that tells what would happen to a call.

mod random;

use dyngrid::{Grid, Kind, Layout, Refusal, Rows, Shape, Table};
use random::Random;

const SEEDS: u64 = 40;

/// A table of some machines and files after some calls, whether they were done or refused.
fn after_calls(seed: u64) -> Table {
    let mut random = Random::new(seed + 1);
    let machines = 1 + random.below(12);
    let names: Vec<u16> = (1..=machines as u16).map(|place| 7 * place).collect();
    let shape = if random.below(2) == 0 { Shape::Wide } else { Shape::Tall };
    let files = 1 + random.below(3);
    let of = 1 + random.below(3) as u8;
    let counties: Vec<u8> = names.iter().map(|_| 1 + random.below(of.into()) as u8).collect();
    let mut table =
        Table::found_counties(machines + 2, 40, &names, shape, files, &counties).expect("a plain founding");
    for _ in 0..60 {
        let (by, up) = caller(&mut random, &table);
        let file = 1 + random.below(files);
        let (from, all) = (1 + random.below(table.used()), table.rows());
        let patch = vec![seed as u8; 1 + random.below(36)];
        let _whether_done = match random.below(12) {
            0 => table.join_in(1 + random.below(90) as u16, of).is_ok(),
            1 | 2 => table.check(by, up).is_ok(),
            3 => table.file_mut(file).send(from, by, all).is_ok(),
            _ => table.file_mut(file).write(by, up, random.below(4), &patch).is_ok(),
        };
    }
    table
}

/// A coordinator, and those who answer it: most of them.
fn caller(random: &mut Random, table: &Table) -> (usize, Rows) {
    let by = 1 + random.below(table.used());
    let away: Rows = (0..random.below(table.used())).map(|_| 1 + random.below(table.used())).collect();
    (by, (table.rows() - away) | Rows::one(by).expect("a row"))
}

#[test]
fn an_outline_answers_as_the_table() {
    let (mut done, mut refused) = (0, 0);
    for seed in 0..SEEDS {
        let table = after_calls(seed);
        let outline = table.outline();
        assert_eq!((outline.file_len(), outline.files(), outline.rows()), (1, table.files(), table.rows()));
        let mut random = Random::new(seed + 1_000);
        for _ in 0..60 {
            let (by, up) = caller(&mut random, &table);
            let file = 1 + random.below(table.files());
            let (to, kind) = (1 + random.below(table.used()), random.below(4));
            let ask = |mut table: Table| match kind {
                0 => {
                    table.file(file).read(by, up, 0, &mut [0]).map(|done| done.version).map_err(Refusal::from)
                }
                1 => table
                    .file_mut(file)
                    .write(by, up, 0, b"1")
                    .map(|done| done.version)
                    .map_err(Refusal::from),
                2 => table.file_mut(file).send(by, to, up),
                _ => table.check(by, up),
            };
            let answer = ask(table.clone());
            assert_eq!(ask(outline.clone()), answer, "seed {seed}: {kind} by {by}, {up} answering");
            *if answer.is_ok() { &mut done } else { &mut refused } += 1;
        }
        for row in table.rows() {
            assert_eq!(outline.choice(row, Kind::Write), table.choice(row, Kind::Write));
        }
    }
    assert!(done > 100 && refused > 100, "{done} done, {refused} refused");
}

/// A place is the member's alone, lines and columns have no hole but at the end, and a read's choice has one of each column.
#[test]
fn every_member_has_its_place_in_the_grid() {
    for (machines, shape) in (1..=64).flat_map(|machines| [(machines, Shape::Wide), (machines, Shape::Tall)])
    {
        let names: Vec<u16> = (1..=machines as u16).rev().map(|place| 100 - place).collect();
        let table = Table::found(machines, 1, &names, shape).expect("a plain founding");
        let layout = table.layout(1).expect("a list");
        assert_eq!(table.layout_in_force(table.rows()), Some(layout.clone()));
        let grid = layout.grid().expect("one county");
        assert_eq!((layout.list(), grid.members().len()), (table.rows(), machines));
        assert_eq!(grid.lines().flatten().collect::<Vec<_>>(), grid.members().iter().collect::<Vec<_>>());
        for (position, &row) in grid.members().iter().enumerate() {
            let place = (position / grid.columns() + 1, position % grid.columns() + 1);
            assert_eq!(grid.place(row), Some(place));
            assert!(place.0 <= grid.rows() && grid.column(place.1).any(|member| member == row));
        }
        let choice = table.choice(1, Kind::Read).expect("a choice");
        for column in 1..=grid.columns() {
            assert_eq!(grid.column(column).filter(|&row| choice.contains(row)).count(), 1);
        }
        assert_eq!((grid.place(machines + 1), grid.column(grid.columns() + 1).count()), (None, 0));
    }
    let joined = {
        let mut table = Table::found(3, 1, &[10, 20], Shape::Wide).expect("a plain founding");
        table.join(15).expect("room");
        table
    };
    assert_eq!((joined.layout(3), joined.layout(4)), (None, None));
    assert_eq!(joined.layout_in_force(Rows::one(3).expect("a row")), None);
    assert_eq!(joined.layout_in_force(joined.rows()).map(|layout| layout.list()), Some(Rows::first(2)));
}

/// One member of each column, and for a write a whole column.
fn held(grid: &Grid, kind: Kind, has: impl Fn(usize) -> bool) -> bool {
    let columns = || (1..=grid.columns()).map(|column| grid.column(column));
    columns().all(|mut column| column.any(&has))
        && (kind == Kind::Read || columns().any(|mut column| column.all(&has)))
}

/// Are the counties in which these rows hold a quorum one above?
fn held_on_both(layout: &Layout, kind: Kind, rows: Rows) -> bool {
    let counties: Vec<usize> = layout
        .grids()
        .filter(|(_, grid)| held(grid, kind, |row| rows.contains(row)))
        .map(|(county, _)| county)
        .collect();
    held(layout.counties(), kind, |county| counties.contains(&county))
}

/// By the grids of a layout a set is enough just where the library takes it, of one county and of several.
#[test]
fn layouts_tell_which_sets_are_enough() {
    let (mut enough, mut few) = (0, 0);
    for counties in
        [&[1, 1, 1, 1, 1][..], &[1, 2, 1, 2, 2, 1], &[7, 3, 3, 5, 3, 3, 3, 8], &[4, 4, 2, 6, 2, 4, 6, 1, 4]]
    {
        for shape in [Shape::Wide, Shape::Tall] {
            let names: Vec<u16> = (1..=counties.len() as u16).collect();
            let table =
                Table::found_counties(names.len(), 1, &names, shape, 1, counties).expect("a plain founding");
            let layout = table.layout(1).expect("a list");
            let mut of: Vec<usize> = counties.iter().map(|&county| county.into()).collect();
            of.sort_unstable();
            of.dedup();
            assert_eq!(layout.counties().members(), of);
            assert_eq!((layout.grid().is_some(), layout.list()), (of.len() == 1, table.rows()));
            for rows in (1..1 << names.len()).map(Rows::from_bits) {
                let by = rows.iter().next().expect("a row");
                let (read, mut copy) = (table.file(1).read(by, rows, 0, &mut [0]), table.clone());
                let write = copy.file_mut(1).write(by, rows, 0, &[1]);
                for (kind, answer) in [(Kind::Read, read), (Kind::Write, write)] {
                    let told = held_on_both(&layout, kind, rows);
                    let answer = answer.map(|_| ()).map_err(Refusal::from);
                    let expected = if told { Ok(()) } else { Err(Refusal::NoQuorum) };
                    assert_eq!(answer, expected, "{kind:?} by {rows} of {counties:?}, {shape:?}");
                    *if told { &mut enough } else { &mut few } += 1;
                }
            }
        }
    }
    assert!(enough > 100 && few > 100, "{enough} enough, {few} too few");
}

#[test]
fn a_short_frame_goes_both_ways() {
    for seed in 0..SEEDS {
        let table = after_calls(seed);
        let short = table.short_frame();
        assert_eq!(short.len(), 16 + 4 * table.used());
        assert_eq!(Table::from_short_frame(&short).expect("a frame"), table.frame());
    }
}

/// What is taken is a frame of these very bytes; a byte less or more, and a broken chain, is refused.
#[test]
fn a_damaged_short_frame_is_refused() {
    let table = Table::found(6, 40, &[10, 20, 30, 40], Shape::Wide).expect("a plain founding");
    let short = table.short_frame();
    for length in 0..short.len() {
        assert!(Table::from_short_frame(&short[..length]).is_err(), "{length} bytes");
    }
    assert!(Table::from_short_frame(&[&short[..], &[0]].concat()).is_err());
    let mut refused = 0;
    for (at, value) in (0..short.len()).flat_map(|at| (0..=255).map(move |value| (at, value))) {
        let mut damaged = short.clone();
        damaged[at] = value;
        match Table::from_short_frame(&damaged) {
            Ok(frame) => assert_eq!(frame.short_frame(), damaged),
            Err(error) => {
                assert_eq!((error.refusal(), error.as_bytes()), (Refusal::Malformed, &damaged[..]));
                refused += 1;
            }
        }
        // Form, rows used, first row, reserved bytes and links have one right value each, a county has eight.
        let (in_row, taken) = (at >= 16, Table::from_short_frame(&damaged).is_ok());
        let fixed = matches!(at, 0 | 2 | 3 | 7..=15) || in_row && at % 4 == 2;
        let county = in_row && at % 4 == 3;
        assert!(!fixed || taken == (value == short[at]), "byte {at} is {value}");
        assert!(!county || taken == (1..=8).contains(&value), "the county in byte {at} is {value}");
    }
    assert!(refused > 0);
}

#[test]
fn a_whole_file_is_written_and_read() {
    let mut table = Table::found_group(4, 6, &[10, 20, 30, 40], Shape::Wide, 2).expect("a plain founding");
    let all = table.rows();
    table.file_mut(2).write_whole(1, all, b"123456").expect("all answer");
    assert_eq!(table.file(2).read_whole(2, all).expect("all answer").0, b"123456");
    table.file_mut(2).write_whole(1, all, b"").expect("all answer");
    let (bytes, done) = table.file(2).read_whole(3, all).expect("all answer");
    assert_eq!((bytes, done.version), (vec![0; 6], 2));
    assert_eq!(table.file(1).read_whole(1, all).expect("all answer").1.version, 0);
    let before = table.clone();
    let refused = table.file_mut(2).write_whole(1, all, b"1234567").unwrap_err();
    assert_eq!((refused.refusal, refused.called), (Refusal::OutOfRange, 0));
    assert_eq!(table.file_mut(3).write_whole(1, all, b"1").unwrap_err().refusal, Refusal::NoSuchFile);
    assert_eq!(table.file(1).read_whole(1, Rows::first(1)).unwrap_err().refusal, Refusal::NoQuorum);
    assert_eq!(table, before);
}

#[test]
fn one_row_is_a_set() {
    for row in 1..=64 {
        assert_eq!(Rows::one(row), Rows::of(&[row]));
        assert_eq!(Rows::one(row).map(|set| set.iter().collect()), Ok(vec![row]));
    }
    assert_eq!((Rows::one(0), Rows::one(65)), (Err(Refusal::NoSuchRow), Err(Refusal::NoSuchRow)));
}

/// What others have is shown neither as their own nor in what counts.
#[test]
fn machines_that_did_not_answer_are_shown_as_away() {
    let mut table = Table::found(4, 16, &[10, 20, 30, 40], Shape::Wide).expect("a plain founding");
    table.file_mut(1).write(1, Rows::of(&[1, 2, 3]).expect("rows"), 0, b"1-0").expect("a quorum answers");
    table.check(1, Rows::of(&[1, 2, 3]).expect("rows")).expect("a quorum answers");
    let left = Rows::one(4).expect("a row");
    let shown = table.show(left).to_string();
    assert_eq!(
        shown,
        "\
4 of 4 rows in use, 1 file of length 16
 name  row    epoch  list      file  version  state
   10    1                                    away
   20    2                                    away
   30    3                                    away
   40    4        0  in force     1        0  current
list in force, of epoch 0, in its grid:
   10     20
   30     40"
    );
    let by_names = format!("{:#}", table.show(left));
    assert_eq!(
        by_names,
        "\
4 of 4 rows in use, 1 file of length 16
 name    epoch  list      file  version  state
   10                                    away
   20                                    away
   30                                    away
   40        0  in force     1        0  current"
    );
    let rows = [(4, table.row_bytes(4).expect("in use").to_vec())];
    let assembled = Table::assemble(&table.frame(), rows).expect("they fit");
    assert_eq!(assembled.show(left).to_string(), shown);
    assert_eq!(table.show(table.rows()).to_string(), table.to_string());
    assert!(table.show(Rows::EMPTY).to_string().ends_with("\nno row has a list"));
}
