//! Machines of several counties: who has which, marks and refusals, lists on two levels, and the losses that they bear.

use dyngrid::{raw, Done, Kind, NotAssembled, Refusal, Rows, Shape, Table};

const COUNTY: usize = 26;
const SHAPES: [Shape; 2] = [Shape::Wide, Shape::Tall];

fn rows(rows: &[usize]) -> Rows {
    Rows::of(rows).expect("rows")
}

/// Machines 1 upward, one in each of these counties, with two rows to spare.
fn laid(counties: &[u8], shape: Shape) -> Table {
    let names: Vec<u16> = (1..=counties.len() as u16).collect();
    Table::found_counties(counties.len() + 2, 4, &names, shape, 1, counties).expect("a plain founding")
}

fn counties(table: &Table) -> Vec<u8> {
    table.views().map(|view| view.county).collect()
}

fn marks(table: &Table) -> Vec<u8> {
    table.views().map(|view| view.grid_mark).collect()
}

/// Would it be done? Nothing but a missing quorum may refuse it.
fn done(kind: Kind, table: &Table, answering: Rows) -> bool {
    let Some(by) = answering.iter().next() else { return false };
    let answer = match kind {
        Kind::Read => table.file(1).read(by, answering, 0, &mut [0]),
        Kind::Write => table.clone().file_mut(1).write(by, answering, 0, &[1]),
    };
    match answer.map_err(Refusal::from) {
        Ok(_) => true,
        Err(refusal) => {
            assert_eq!(refusal, Refusal::NoQuorum, "{answering} of\n{table}");
            false
        }
    }
}

/// The machines without each of which the others cannot do it.
fn needed(kind: Kind, table: &Table) -> Rows {
    table.rows().iter().filter(|&row| !done(kind, table, table.rows() - rows(&[row]))).collect()
}

#[test]
fn a_founding_gives_each_machine_its_county() {
    let several = [1, 8, 1, 3, 8];
    for shape in SHAPES {
        let table = laid(&several, shape);
        assert_eq!(counties(&table), several);
        assert_eq!((1..=5).map(|row| table.county(row)).collect::<Vec<_>>(), several.map(Some));
        assert_eq!([0, 6, 7, 65].map(|row| table.county(row)), [None; 4]);
        assert!(table
            .rows()
            .iter()
            .all(|row| table.row_bytes(row).map(|row| row[COUNTY]) == table.county(row)));
        assert_eq!(marks(&table), [if shape == Shape::Wide { 3 } else { 2 }; 5]);
        // But for counties and marks it is the table of one county.
        let mut one = Table::found(7, 4, &[1, 2, 3, 4, 5], shape).expect("a plain founding").into_bytes();
        for row in 1..=5 {
            let at = 16 + (row - 1) * (32 + 588 + 4);
            (one[at + COUNTY], one[at + 24]) = (several[row - 1], marks(&table)[0]);
        }
        assert_eq!(table.as_bytes(), one);
    }
}

/// Whichever county it is, marks, quorums and choices are those of county 1.
#[test]
fn one_county_is_as_before() {
    for (machines, shape) in (1..=9).flat_map(|machines| SHAPES.map(|shape| (machines, shape))) {
        let [first, last] = [1, 8].map(|county| laid(&vec![county; machines], shape));
        assert_eq!(marks(&first), marks(&last));
        for row in first.rows() {
            for kind in [Kind::Read, Kind::Write] {
                assert_eq!(first.choice(row, kind), last.choice(row, kind));
            }
        }
        for answering in (0..1 << machines).map(Rows::from_bits) {
            for kind in [Kind::Read, Kind::Write] {
                assert_eq!(done(kind, &first, answering), done(kind, &last, answering), "{answering}");
            }
        }
    }
    assert_eq!([4, 5, 6].map(|machines| marks(&laid(&vec![7; machines], Shape::Wide))[0]), [0, 1, 0]);
}

/// After 11 and 12 of a founding, after 13 and 14 of a joining; a refused call alters nothing.
#[test]
fn refused_by_20() {
    let found = |capacity, names: &[u16], counties: &[u8]| {
        Table::found_counties(capacity, 4, names, Shape::Wide, 1, counties).map(|table| table.used())
    };
    let bad: [&[u8]; 8] = [&[], &[1], &[1, 2, 3], &[0, 1], &[1, 0], &[9, 1], &[1, 9], &[1, 255]];
    for counties in bad {
        assert_eq!(found(2, &[10, 20], counties), Err(Refusal::BadCounties), "{counties:?}");
        assert_eq!(found(1, &[10, 20], counties), Err(Refusal::BadSize), "{counties:?}");
        assert_eq!(found(1, &[20, 10], counties), Err(Refusal::BadNames), "{counties:?}");
    }
    assert_eq!(found(2, &[10, 20], &[8, 1]), Ok(2));

    let mut table = Table::found(3, 4, &[10, 20], Shape::Wide).expect("a plain founding");
    let founded = table.clone();
    for county in [0, 9, 255] {
        assert_eq!(table.join_in(30, county), Err(Refusal::BadCounties));
        assert_eq!([0, 10].map(|name| table.join_in(name, county)), [Err(Refusal::NameNotFree); 2]);
    }
    for county in [0, 9, 256 + 1, (1 << 32) + 1, u64::MAX] {
        let bytes = founded.as_bytes().to_vec();
        let mut lent = bytes.clone();
        // SAFETY: the table is live for the call, and its only slice.
        let result = unsafe { raw::grid_join(lent.as_mut_ptr(), lent.len(), 30, county) };
        assert_eq!((result, lent), (20 << 32, bytes), "{county}");
    }
    assert_eq!(table, founded);
    assert_eq!((table.join_in(30, 8), table.county(3)), (Ok(3), Some(8)));
    let full = table.clone();
    assert_eq!([0, 1].map(|county| table.join_in(40, county)), [Err(Refusal::NoRoom); 2]);
    assert_eq!(table, full);
}

/// Joined, a machine of a second county changes nothing; taken in by a check it cannot be spared, and cannot be checked out either.
#[test]
fn one_machine_of_a_second_county() {
    for shape in SHAPES {
        let mut table = laid(&[1; 4], shape);
        let four = table.rows();
        assert_eq!(table.join_in(50, 2), Ok(5));
        assert_eq!(marks(&table)[4], 0, "it has no list");
        assert_eq!(needed(Kind::Write, &table), Rows::EMPTY);
        assert_eq!(table.check(1, Rows::first(5)), Ok(1));
        assert_eq!(marks(&table), [if shape == Shape::Wide { 3 } else { 2 }; 5]);
        let only = rows(&[5]);
        assert_eq!(needed(Kind::Write, &table), only);
        assert_eq!(needed(Kind::Read, &table), if shape == Shape::Wide { only } else { Rows::EMPTY });
        assert_eq!(table.clone().check(1, four), Err(Refusal::NoQuorum));
        // With the machine on, a check by the four with it and without another is done; it stays in the list.
        assert_eq!(table.check(1, rows(&[1, 2, 3, 5])), Ok(2));
    }
}

/// A list within one county has the mark that it had, in a table of several counties too.
#[test]
fn a_mark_goes_by_the_counties_of_the_list() {
    let mut table = laid(&[2; 6], Shape::Wide);
    assert_eq!(table.join_in(70, 1), Ok(7));
    for (answering, mark) in [(Rows::first(5), 1), (Rows::first(7), 3), (Rows::first(5) | rows(&[7]), 3)] {
        table.check(1, answering).expect("a write quorum");
        assert!(answering.iter().all(|row| marks(&table)[row - 1] == mark), "{answering} of\n{table}");
    }
}

/// Marks that a list cannot have by its counties are refused by 1.
#[test]
fn other_marks_are_malformed() {
    let cases: [(&[u8], Shape, [bool; 5]); 6] = [
        (&[1, 1, 1, 2], Shape::Wide, [false, false, true, true, false]),
        (&[1, 1, 1, 1], Shape::Wide, [true, false, true, false, false]),
        (&[3, 3, 3, 3, 3], Shape::Wide, [true, true, true, false, false]),
        (&[1, 2, 3, 4, 5], Shape::Tall, [false, false, true, true, false]),
        (&[3, 3, 3, 3, 3], Shape::Tall, [true, true, true, false, false]),
        (&[8], Shape::Tall, [true, false, true, false, false]),
    ];
    for (counties, shape, right) in cases {
        for (mark, right) in (0..).zip(right) {
            let mut bytes = laid(counties, shape).into_bytes();
            let stride = (bytes.len() - 16) / (counties.len() + 2);
            bytes[16..].chunks_mut(stride).take(counties.len()).for_each(|row| row[24] = mark);
            assert_eq!(Table::from_bytes(bytes).is_ok(), right, "mark {mark}, counties {counties:?}");
        }
    }
    for county in [0, 9, 255] {
        let mut bytes = laid(&[1, 1], Shape::Wide).into_bytes();
        bytes[16 + COUNTY] = county;
        assert!(Table::from_bytes(bytes).is_err(), "county {county}");
    }
}

/// The lines that crates/counties computes from the definitions (`loss_lines` of `Shown`): which machines the others cannot do without.
#[test]
fn losses_as_the_definitions_have_them() {
    use Kind::{Read, Write};
    use Shape::{Tall, Wide};
    let lines: [(Shape, &[u8], Kind, &[usize]); 14] = [
        (Wide, &[1, 1, 1, 1, 2], Read, &[5]),
        (Tall, &[1, 1, 1, 1, 2], Write, &[5]),
        (Wide, &[1, 1, 1, 2], Read, &[2, 4]),
        (Wide, &[1, 1, 2, 2], Read, &[1, 2, 3, 4]),
        (Tall, &[1, 1, 2, 2], Write, &[1, 2, 3, 4]),
        (Wide, &[1, 1, 1, 1, 2, 2, 2, 2], Write, &[]),
        (Tall, &[1, 1, 1, 1, 2, 2, 2, 2], Write, &[]),
        (Wide, &[1, 1, 1, 2, 2, 2, 2], Write, &[2]),
        (Wide, &[1, 2, 2, 2, 2, 3], Write, &[]),
        (Tall, &[1, 2, 2, 2, 2, 3], Write, &[]),
        (Wide, &[1, 2, 2, 2, 3], Write, &[3]),
        (Wide, &[8, 5, 3, 1], Write, &[]),
        (Tall, &[8, 5, 3, 1], Write, &[]),
        (Wide, &[1, 2, 3], Write, &[2]),
    ];
    for (shape, counties, kind, expected) in lines {
        let table = laid(counties, shape);
        assert_eq!(needed(kind, &table), rows(expected), "{kind:?} of\n{table}");
    }
}

/// Counties for machines, as many as there are in each.
fn in_each(sizes: &[usize]) -> Vec<u8> {
    (1..).zip(sizes).flat_map(|(county, &size)| vec![county; size]).collect()
}

/// The rule that docs/COUNTIES.md gives: of one or two each is needed, of three the second, of four or more none; a machine is needed
/// where its county needs it and the counties need that county. One rule for machines and for counties, wide and tall.
#[test]
fn the_rule_of_the_page_tells_every_loss() {
    let needs = |of: usize, place: usize| of < 3 || of == 3 && place == 1;
    let mut tried = 0;
    for counties in 1..=8_usize {
        let most: usize = if counties < 4 { 6 } else { 2 };
        for number in 0..most.pow(counties as u32) {
            let sizes: Vec<usize> =
                (0..counties).map(|place| 1 + number / most.pow(place as u32) % most).collect();
            for shape in SHAPES {
                let table = laid(&in_each(&sizes), shape);
                let by_the_rule = sizes.iter().enumerate().flat_map(|(county, &size)| {
                    (0..size).map(move |place| needs(counties, county) && needs(size, place))
                });
                let expected: Rows =
                    (1..).zip(by_the_rule).filter(|&(_, needed)| needed).map(|(row, _)| row).collect();
                assert_eq!(needed(Kind::Write, &table), expected, "{sizes:?}, {shape:?}");
                tried += 1;
            }
        }
    }
    println!("{tried} tables");
}

/// The lines of `choice_lines`, and every choice with the coordinator is enough, and no more are called.
#[test]
fn choices_on_two_levels() {
    let two_of_five = [1, 2].repeat(5);
    let lines: [(Shape, &[u8], u16, Kind, &[usize]); 8] = [
        (Shape::Wide, &[8, 5, 3, 1], 2, Kind::Read, &[4, 3]),
        (Shape::Wide, &[8, 5, 3, 1], 3, Kind::Read, &[2, 1]),
        (Shape::Wide, &[8, 5, 3, 1], 2, Kind::Write, &[4, 3, 2]),
        (Shape::Wide, &two_of_five, 1, Kind::Read, &[5, 7, 6, 8]),
        (Shape::Wide, &two_of_five, 1, Kind::Write, &[3, 5, 7, 4, 6, 8]),
        (Shape::Tall, &two_of_five, 1, Kind::Read, &[6, 8]),
        (Shape::Wide, &[1, 1, 1, 2], 1, Kind::Write, &[2, 3, 4]),
        (Shape::Wide, &[1, 1, 1, 2], 2, Kind::Write, &[1, 2, 3, 4]),
    ];
    for (shape, counties, name, kind, expected) in lines {
        let table = laid(counties, shape);
        assert_eq!(table.choice(name.into(), kind), Ok(rows(expected)), "{kind:?} by {name} of\n{table}");
    }
    for (counties, shape) in lines.iter().flat_map(|line| SHAPES.map(|shape| (line.1, shape))) {
        let table = laid(counties, shape);
        for by in table.rows() {
            let [read, write] = [Kind::Read, Kind::Write].map(|kind| table.choice(by, kind).expect("in use"));
            let answer = table.file(1).read(by, read | rows(&[by]), 0, &mut [0]);
            assert_eq!(answer, Ok(Done { version: 0, called: read.len() }), "by {by} of\n{table}");
            let mut written = table.clone();
            let answer = written.file_mut(1).write(by, write | rows(&[by]), 0, &[1]);
            assert_eq!(answer, Ok(Done { version: 1, called: write.len() }), "by {by} of\n{table}");
            assert_eq!(written.changed(&table), write);
        }
    }
}

/// Each line tells the county, and the list in force is drawn on two levels; a table of one county is shown as ever.
#[test]
fn counties_as_they_are_shown() {
    let mut table = Table::found_counties(6, 16, &[10, 20, 30, 40, 50], Shape::Wide, 2, &[3, 1, 1, 3, 1])
        .expect("a plain founding");
    table.join_in(25, 8).expect("room");
    assert_eq!(
        table.to_string(),
        "\
6 of 6 rows in use, 2 files of length 16
 name  row  county    epoch  list      file  version  state
   10    1       3        0  in force     1        0  current
                                          2        0  current
   20    2       1        0  in force     1        0  current
                                          2        0  current
   25    6       8        0  no list      1        0  current
                                          2        0  current
   30    3       1        0  in force     1        0  current
                                          2        0  current
   40    4       3        0  in force     1        0  current
                                          2        0  current
   50    5       1        0  in force     1        0  current
                                          2        0  current
list in force, of epoch 0, in grids on two levels; its counties:
    1      3
county 1:
   20     30
   50
county 3:
   10     40"
    );
    let drawn = |table: Table| {
        let shown = table.to_string();
        shown.lines().skip(2 + table.used()).map(str::to_string).collect::<Vec<_>>()
    };
    let tall = drawn(laid(&[1, 2, 1, 2, 2], Shape::Tall));
    let lines = ["    1", "    2", "county 1:", "    1", "    3", "county 2:", "    2      4", "    5"];
    assert_eq!(tall[0], "list in force, of epoch 0, in tall grids on two levels; its counties:");
    assert_eq!(tall[1..], lines);
    // The list in force is within one county; another machine is of a second.
    let mut table = laid(&[1; 4], Shape::Wide);
    table.join_in(50, 2).expect("room");
    assert_eq!(drawn(table), ["list in force, of epoch 0, in its grid:", "    1      2", "    3      4"]);
    let one = [1, 7].map(|county| laid(&[county; 5], Shape::Wide).to_string());
    assert_eq!(one[0], one[1]);
}

/// The numbers of a drawn grid, column by column.
fn columns(lines: &[&str]) -> Vec<Vec<u16>> {
    let mut columns: Vec<Vec<u16>> = Vec::new();
    for line in lines {
        for (place, number) in line.as_bytes().chunks(7).enumerate() {
            let number = std::str::from_utf8(number).expect("digits").trim().parse().expect("a number");
            if place == columns.len() {
                columns.push(Vec::new());
            }
            columns[place].push(number);
        }
    }
    columns
}

/// Is it a quorum of a drawn grid?
fn holds(kind: Kind, grid: &[Vec<u16>], held: impl Fn(u16) -> bool) -> bool {
    let every = grid.iter().all(|column| column.iter().any(|&number| held(number)));
    let whole = grid.iter().any(|column| column.iter().all(|&number| held(number)));
    every && (kind == Kind::Read || whole)
}

/// Every set of machines: what the drawn grids say by the rule of two levels is what the library answers.
#[test]
fn what_is_drawn_is_the_grids_of_the_library() {
    let layings: [&[u8]; 11] = [
        &[1, 2],
        &[2, 1, 1],
        &[1, 1, 2, 2],
        &[8, 5, 3, 1],
        &[1, 2, 3, 4, 5],
        &[5, 4, 3, 2, 1, 1],
        &[1, 2, 2, 2, 2, 3],
        &[2, 2, 2, 2, 2, 7],
        &[1, 2, 1, 2, 1, 2, 1],
        &[3, 3, 3, 3, 3, 1, 1, 1],
        &[1, 2, 3, 4, 5, 6, 7, 8],
    ];
    let (mut quorums, mut others) = (0, 0);
    for (counties, shape) in layings.into_iter().flat_map(|counties| SHAPES.map(|shape| (counties, shape))) {
        let table = laid(counties, shape);
        let shown = table.to_string();
        let lines: Vec<&str> = shown.lines().skip(2 + table.used() + 1).collect();
        let parts: Vec<&[&str]> = lines.chunk_by(|_, next| !next.starts_with("county ")).collect();
        let above = columns(parts[0]);
        let below = |county: u16| {
            let title = format!("county {county}:");
            let part = parts.iter().find(|part| part[0] == title).expect("each county is drawn");
            columns(&part[1..])
        };
        for answering in (1..1 << counties.len()).map(Rows::from_bits) {
            for kind in [Kind::Read, Kind::Write] {
                let in_county = |county| holds(kind, &below(county), |name| answering.contains(name.into()));
                let drawn = holds(kind, &above, in_county);
                assert_eq!(done(kind, &table, answering), drawn, "{kind:?} by {answering} of\n{shown}");
                *if drawn { &mut quorums } else { &mut others } += 1;
            }
        }
    }
    println!("{quorums} quorums, {others} others");
    assert!(quorums > 500 && others > 500, "{quorums} {others}");
}

/// Of the machines that did not answer the frame has name, link and county, and that is enough.
#[test]
fn a_table_of_several_counties_is_assembled() {
    for (counties, shape) in [[1, 1, 2, 2, 2], [1, 2, 3, 4, 5], [2, 1, 2, 1, 1]]
        .into_iter()
        .flat_map(|counties| SHAPES.map(|shape| (counties, shape)))
    {
        let mut table = laid(&counties, shape);
        table.file_mut(1).write(1, Rows::first(5), 0, b"1-0").expect("all answer");
        table.join_in(60, 6).expect("room");
        let frame = table.frame();
        assert_eq!(self::counties(&frame), self::counties(&table));
        for answering in (1..1 << table.used()).map(Rows::from_bits) {
            let answered = answering.iter().map(|row| (row, table.row_bytes(row).expect("in use")));
            let assembled = Table::assemble(&frame, answered).expect("rows of one table");
            assert_eq!(assembled.frame(), frame);
            for by in answering {
                for kind in [Kind::Read, Kind::Write] {
                    assert_eq!(assembled.choice(by, kind), table.choice(by, kind));
                }
                let [mut whole, mut part] = [&table, &assembled].map(Table::clone);
                let read = [&whole, &part].map(|table| table.file(1).read(by, answering, 0, &mut [0; 3]));
                assert_eq!(read[0], read[1], "read by {by}, {answering} of\n{table}");
                let checked = [&mut whole, &mut part].map(|table| table.check(by, answering));
                assert_eq!(checked[0], checked[1], "check by {by}, {answering} of\n{table}");
                let wrote =
                    [&mut whole, &mut part].map(|table| table.file_mut(1).write(by, answering, 0, b"0-1"));
                assert_eq!(wrote[0], wrote[1], "write by {by}, {answering} of\n{table}");
                assert!(answering.iter().all(|row| whole.row_bytes(row) == part.row_bytes(row)));
            }
        }
    }
}

/// The county of a machine that did not answer counts: the same two rows are a quorum, or none, by the county of the third.
#[test]
fn the_county_of_a_row_that_did_not_answer_counts() {
    let [one, several] = [[1, 1, 1], [1, 1, 2]].map(|counties| laid(&counties, Shape::Tall));
    let answered = |table: &Table| [1, 2].map(|row| (row, table.row_bytes(row).expect("in use").to_vec()));
    assert_eq!(answered(&one), answered(&several));
    let checked = [&one, &several].map(|table| {
        let mut assembled = Table::assemble(&table.frame(), answered(table)).expect("rows of one table");
        assembled.check(1, Rows::first(2))
    });
    assert_eq!(checked, [Ok(1), Err(Refusal::NoQuorum)]);
    // A row keeps its county.
    let third = several.row_bytes(3).expect("in use");
    let error = Table::assemble(&one.frame(), [(3, third)]).expect_err("another county");
    assert_eq!(error, NotAssembled::OtherCounty { row: 3, county: 2 });
    assert_eq!(
        error.to_string(),
        "the bytes of row 3 are of county 2, and the frame has another: ask that machine anew, or leave it out"
    );
    assert_eq!(Refusal::from(error), Refusal::Malformed);
}
