//! The wrapper keeps its promises: nothing panics, refusals have the right number, tables keep their length.

use dyngrid::{chart, Done, Kind, NotAssembled, Refusal, Refused, Rows, Shape, Table};

/// The bytes of a row with a copy of one file of 4 bytes.
const ROW: usize = 32 + 588 + 4;
/// Where a row has its county.
const COUNTY: usize = 26;

/// The bytes behind name and link of a row of county 1 that is zero otherwise.
fn bare() -> [u8; ROW - 3] {
    let mut bytes = [0; ROW - 3];
    bytes[COUNTY - 3] = 1;
    bytes
}

/// The version, or the refusal, of a read or write.
fn version_of(answer: Result<Done, Refused>) -> Result<u32, Refusal> {
    Ok(answer?.version)
}

fn four() -> Table {
    Table::found(4, 4, &[1, 2, 3, 4], Shape::Wide).expect("a plain founding")
}

#[test]
fn refusals_are_numbered_1_to_20() {
    let numbers: Vec<u32> = Refusal::ALL.iter().map(|refusal| refusal.number()).collect();
    assert_eq!(numbers, (1..=20).collect::<Vec<_>>());
    for refusal in Refusal::ALL {
        assert_eq!(Refusal::from_number(refusal.number()), Some(refusal));
    }
}

#[test]
fn a_number_without_a_name_is_kept() {
    assert_eq!(Refusal::from_number(0), None);
    for number in [21, 22, u32::MAX] {
        let refusal = Refusal::from_number(number).expect("a refusal");
        assert_eq!((refusal, refusal.number()), (Refusal::Unknown(number), number));
        assert!(refusal
            .to_string()
            .starts_with(&format!("refused by {number}: no refusal has this number; ")));
    }
}

#[test]
fn a_table_of_wrong_length_cannot_be_made() {
    let bytes = four().into_bytes();
    let long = [bytes.clone(), vec![0]].concat();
    for length in [0, 1, 15, 16, 17, bytes.len() - 1, long.len()] {
        let error = Table::from_bytes(long[..length].to_vec()).expect_err("no table");
        assert_eq!(error.refusal(), Refusal::Malformed);
        assert_eq!(error.into_bytes(), long[..length]);
    }
    assert_eq!(Table::from_bytes(bytes).map(Table::into_bytes), Ok(four().into_bytes()));
}

#[test]
fn what_is_shown_is_short() {
    let table = Table::found(64, 4096, &[1, 2], Shape::Wide).expect("a plain founding");
    assert_eq!(format!("{table:?}"), "Table { capacity: 64, used: 2, file_len: 4096, files: 1, .. }");
    let error = Table::from_bytes(vec![0; 100_000]).expect_err("no table");
    assert_eq!(format!("{error:?}"), "NotATable { length: 100000, refusal: Malformed, .. }");
    assert!(error.to_string().starts_with("100000 bytes are no table: refused by 1: the tournament table"));
}

#[test]
fn five_bear_the_loss_of_any_one() {
    let five = Table::found(5, 4, &[1, 2, 3, 4, 5], Shape::Wide).expect("a plain founding");
    assert!(five.rows().iter().all(|row| five.row_bytes(row).is_some_and(|row| row[24] == 1)));
    for lost in five.rows() {
        let left = five.rows() - Rows::of(&[lost]).expect("a row");
        let by = left.iter().next().expect("four rows");
        let mut table = five.clone();
        assert_eq!(version_of(table.file(1).read(by, left, 0, &mut [0; 3])), Ok(0));
        assert_eq!(version_of(table.file_mut(1).write(by, left, 0, b"1-0")), Ok(1));
        assert_eq!(table.check(by, left), Ok(1));
        assert!(left.iter().all(|row| table.row_bytes(row).is_some_and(|row| row[24] == 0)));
    }
}

/// Of two either machine reads, and both are needed to write; of six a read needs two where a wide table needs three. A check
/// keeps the shape, also by a row that joined.
#[test]
fn a_tall_table_stays_tall() {
    let marks = |table: &Table| -> Vec<u8> {
        table.rows().iter().filter_map(|row| table.row_bytes(row)).map(|row| row[24]).collect()
    };
    let mut table = Table::found(6, 4, &[10, 20], Shape::Tall).expect("a plain founding");
    let mut got = [0; 3];
    assert_eq!(
        [1, 2].map(|row| version_of(table.file(1).read(row, Rows::from_bits(row as u64), 0, &mut got))),
        [Ok(0); 2]
    );
    assert_eq!(version_of(table.file_mut(1).write(1, Rows::first(1), 0, b"1-0")), Err(Refusal::NoQuorum));
    assert_eq!(version_of(table.file_mut(1).write(1, Rows::first(2), 0, b"1-0")), Ok(1));
    assert_eq!(
        version_of(table.file(1).read(2, Rows::from_bits(2), 0, &mut got)).map(|version| (version, &got)),
        Ok((1, b"1-0"))
    );
    assert_eq!([30, 40, 50, 60].map(|name| table.join(name)), [3, 4, 5, 6].map(Ok));
    assert_eq!(marks(&table), [2, 2, 0, 0, 0, 0]);
    assert_eq!(table.check(6, table.rows()), Ok(1));
    assert_eq!(marks(&table), [2; 6]);
    assert_eq!(version_of(table.file(1).read(1, Rows::first(2), 0, &mut got)), Ok(1));
    let mut wide = Table::found(6, 4, &[10, 20, 30, 40, 50, 60], Shape::Wide).expect("a plain founding");
    assert_eq!(version_of(wide.file(1).read(1, Rows::first(2), 0, &mut got)), Err(Refusal::NoQuorum));
    // Columns {1, 4}, {2, 5} and {3, 6} against {1, 3, 5} and {2, 4, 6}.
    assert_eq!(version_of(wide.file_mut(1).write(1, Rows::first(4), 0, b"0-1")), Ok(1));
    assert_eq!(version_of(table.file_mut(1).write(1, Rows::first(4), 0, b"0-1")), Err(Refusal::NoQuorum));
    assert_eq!(version_of(table.file_mut(1).write(1, Rows::first(5), 0, b"0-1")), Ok(2));
}

#[test]
fn charts_of_each_length_and_mark() {
    assert_eq!(chart(4, 0), Ok(vec![7, 11, 13, 14]));
    assert_eq!(chart(5, 0), Ok(vec![7, 14, 21, 28]));
    assert_eq!(
        [1, 2].map(|mark| chart(5, mark)),
        [Ok(vec![11, 14, 23, 26, 29]), Ok(vec![11, 14, 23, 26, 29])]
    );
    let counts = |mark| [1, 2, 3, 4, 5, 6, 7, 8, 9].map(|length| chart(length, mark).map(|sets| sets.len()));
    assert_eq!(counts(0), [1, 1, 2, 4, 4, 12, 16, 21, 27].map(Ok));
    assert_eq!(counts(2), [1, 1, 2, 4, 5, 6, 16, 21, 27].map(Ok));
    for (length, mark) in [(0, 0), (10, 0), (10, 2), (usize::MAX, 0), (4, 1), (6, 1), (5, 3), (9, 255)] {
        assert_eq!(chart(length, mark), Err(Refusal::NoChart), "{length} members, mark {mark}");
    }
}

/// Every set of machines of a founded table: a write by it is done if it has all of some set of the chart, and else refused by 6.
#[test]
fn a_chart_says_who_can_write() {
    for (machines, shape) in (1..=9).flat_map(|machines| [(machines, Shape::Wide), (machines, Shape::Tall)]) {
        let names: Vec<u16> = (1..=machines as u16).map(|rank| 7 * rank).collect();
        let founded = Table::found(machines, 1, &names, shape).expect("a plain founding");
        let mark = founded.row_bytes(1).expect("in use")[24];
        let quorums = chart(machines, mark).expect("a chart of each length");
        for bits in 1..1 << machines {
            let answering = Rows::from_bits(bits);
            let by = answering.iter().next().expect("not empty");
            let enough = quorums.iter().any(|&quorum| u64::from(quorum) & !bits == 0);
            let expected = if enough { Ok(1) } else { Err(Refusal::NoQuorum) };
            assert_eq!(
                version_of(founded.clone().file_mut(1).write(by, answering, 0, &[1])),
                expected,
                "{answering}, {shape:?}"
            );
        }
    }
}

/// On tables of 1 to 64 machines, wide and tall, for every coordinator: those chosen and the coordinator are enough, nobody else
/// is called, and a write alters rows of the choice only; without one of a read's choice all are called.
#[test]
fn the_choice_and_the_coordinator_are_enough() {
    for (machines, shape) in (1..=64).flat_map(|machines| [(machines, Shape::Wide), (machines, Shape::Tall)])
    {
        let names: Vec<u16> = (1..=machines as u16).map(|rank| 3 * rank + rank % 2).collect();
        let founded = Table::found(machines, 1, &names, shape).expect("a plain founding");
        for by in founded.rows() {
            let own = Rows::from_bits(1 << (by - 1));
            let [read, write] =
                [Kind::Read, Kind::Write].map(|kind| founded.choice(by, kind).expect("in use"));
            assert!(!read.is_empty() && read.is_subset(write) && write.is_subset(founded.rows()));
            let answer = founded.file(1).read(by, read | own, 0, &mut [0]);
            assert_eq!(answer, Ok(Done { version: 0, called: read.len() }));
            let mut written = founded.clone();
            let answer = written.file_mut(1).write(by, write | own, 0, &[1]);
            assert_eq!(answer, Ok(Done { version: 1, called: write.len() }));
            let altered: Rows = founded
                .rows()
                .iter()
                .filter(|&row| founded.row_bytes(row) != written.row_bytes(row))
                .collect();
            assert_eq!(altered, write);
            let away = Rows::from_bits(1 << (read.iter().find(|&row| row != by).unwrap_or(by) - 1));
            if away != own && read != founded.rows() {
                let answer = founded.file(1).read(by, founded.rows() - away, 0, &mut [0]);
                assert!(matches!(
                    answer,
                    Ok(Done { called, .. }) | Err(Refused { called, .. }) if called == machines
                ));
            }
        }
        assert_eq!(founded.choice(0, Kind::Read), Err(Refusal::NoSuchRow));
        assert_eq!(founded.choice(machines + 1, Kind::Write), Err(Refusal::NoSuchRow));
    }
}

/// A row that joined has none until a check takes it in; one that missed a check has that of its old list.
#[test]
fn choices_over_the_own_list() {
    let mut table = Table::found(5, 4, &[10, 20, 30, 40], Shape::Wide).expect("a plain founding");
    let rows = |rows: &[usize]| Rows::of(rows).expect("rows");
    assert_eq!(
        (1..=4).map(|by| table.choice(by, Kind::Write)).collect::<Vec<_>>(),
        [Ok(rows(&[1, 2, 3])); 4]
    );
    assert_eq!(table.join(15), Ok(5));
    assert_eq!([Kind::Read, Kind::Write].map(|kind| table.choice(5, kind)), [Ok(Rows::EMPTY); 2]);
    assert_eq!(table.check(1, rows(&[1, 2, 4])), Ok(1));
    assert_eq!(
        [1, 2, 3, 4].map(|by| table.choice(by, Kind::Write)),
        [&[1, 2, 4], &[1, 2, 4], &[1, 2, 3], &[1, 2, 4]].map(|set| Ok(rows(set)))
    );
    assert_eq!(table.check(5, rows(&[1, 2, 3, 4, 5])), Ok(2));
    // In name order 1, 5, 2, 3, 4: columns {1, 2, 4} and {5, 3}; by 15 the first row and the whole second column.
    assert_eq!(table.choice(5, Kind::Read), Ok(rows(&[1, 3])));
    assert_eq!(table.choice(5, Kind::Write), Ok(rows(&[1, 3, 5])));
}

#[test]
fn a_row_is_what_its_machine_holds() {
    let mut table = four();
    table.file_mut(1).write(1, Rows::first(3), 1, b"ab").expect("a quorum answers");
    assert_eq!(table.row_bytes(1).map(|row| (row.len(), &row[44..48])), Some((ROW, &b"\0ab\0"[..])));
    let rows: Vec<u8> =
        table.rows().iter().flat_map(|row| table.row_bytes(row).expect("in use").to_vec()).collect();
    assert_eq!(rows, table.as_bytes()[16..]);
    assert_eq!((table.row_bytes(0), table.row_bytes(5)), (None, None));
}

/// With any rows it is the whole table, but that the others are zero besides name, link and county; a frame is what all of them share.
#[test]
fn a_table_is_assembled_from_the_rows_that_answered() {
    let mut table = Table::found(6, 4, &[10, 20, 30, 40], Shape::Wide).expect("a plain founding");
    table.file_mut(1).write(1, Rows::of(&[1, 2, 4]).expect("rows"), 0, b"1-0").expect("a quorum answers");
    table.join(25).expect("room");
    table.check(1, Rows::of(&[1, 2, 3, 5]).expect("rows")).expect("a quorum answers");
    for bits in 0..1 << table.used() {
        let answering = Rows::from_bits(bits);
        let rows = answering.iter().map(|row| (row, table.row_bytes(row).expect("in use")));
        let assembled = Table::assemble(&table.frame(), rows.clone()).expect("rows of one table");
        assert_eq!(
            Table::assemble(&table, rows),
            Ok(assembled.clone()),
            "only header, names, links and counties count"
        );
        assert_eq!(assembled.as_bytes()[..16], table.as_bytes()[..16]);
        for row in table.rows() {
            let [whole, part] = [&table, &assembled].map(|table| table.row_bytes(row).expect("in use"));
            if answering.contains(row) {
                assert_eq!(whole, part);
            } else {
                assert_eq!((&part[..3], &part[3..]), (&whole[..3], &bare()[..]));
            }
        }
        assert_eq!(assembled.as_bytes()[16 + ROW * table.used()..], [0; ROW]);
        assert_eq!(assembled.frame(), table.frame());
    }
    // Row 2 was before row 3 until row 5 joined between them: the frame's link counts.
    let mut away = table.row_bytes(2).expect("in use").to_vec();
    assert_eq!(away[2], 5);
    away[2] = 3;
    let assembled = Table::assemble(&table.frame(), [(2, away)]).expect("an old link");
    assert_eq!(assembled.row_bytes(2), table.row_bytes(2));
}

#[test]
fn rows_that_do_not_fit_are_told() {
    let (table, other) = (four(), Table::found(4, 4, &[1, 2, 3, 9], Shape::Wide).expect("a plain founding"));
    let row = |row: usize| (row, table.row_bytes(row).expect("in use").to_vec());
    let assemble = |rows: Vec<(usize, Vec<u8>)>| Table::assemble(&table.frame(), rows);
    for row in [0, 5, 64, 65, usize::MAX] {
        assert_eq!(assemble(vec![(row, Vec::new())]), Err(NotAssembled::NoSuchRow { row }));
    }
    assert_eq!(assemble(vec![row(1), row(2), row(1)]), Err(NotAssembled::Twice { row: 1 }));
    for length in [0, 1, 2, 36, ROW - 1, ROW + 1] {
        let bytes = vec![1; length];
        assert_eq!(assemble(vec![row(2), (1, bytes)]), Err(NotAssembled::WrongLength { row: 1, length }));
    }
    let of_another = other.row_bytes(4).expect("in use").to_vec();
    assert_eq!(assemble(vec![(4, of_another)]), Err(NotAssembled::OtherName { row: 4, name: 9 }));
    // Two lists in one epoch.
    let (one, mut two) = (row(1), row(2));
    two.1[16] = 0b0011;
    let refused = assemble(vec![one, two]).expect_err("two lists in one epoch");
    assert!(matches!(&refused, NotAssembled::Malformed(error) if error.refusal() == Refusal::Malformed));
    assert_eq!(
        refused.to_string(),
        "the rows do not fit together: take the newest frame; if that is not it, leave out one machine after the other"
    );
    assert_eq!(Refusal::from(refused), Refusal::Malformed);
    assert_eq!(Refusal::from(NotAssembled::NoSuchRow { row: 7 }), Refusal::NoSuchRow);
    assert_eq!(assemble(Vec::new()), Ok(table.frame()));
}

#[test]
fn changed_rows_are_to_be_shipped() {
    let founded = Table::found(5, 4, &[10, 20, 30, 40], Shape::Wide).expect("a plain founding");
    let rows = |rows: &[usize]| Rows::of(rows).expect("rows");
    assert_eq!(
        (founded.changed(&founded), founded.changed(&founded.frame())),
        (Rows::EMPTY, rows(&[1, 2, 3, 4]))
    );
    let mut table = founded.clone();
    // The choice of 10; then all that answered; then the row that a send brings up.
    table.file_mut(1).write(1, Rows::first(4), 0, b"1-0").expect("a quorum answers");
    assert_eq!(table.changed(&founded), rows(&[1, 2, 3]));
    let before = table.clone();
    table.file_mut(1).write(1, rows(&[1, 2, 4]), 0, b"1-0").expect("a quorum answers");
    assert_eq!(table.changed(&before), rows(&[1, 2, 4]));
    let before = table.clone();
    table.file_mut(1).send(1, 4, rows(&[1, 4])).expect("row 4 is stale");
    assert_eq!(table.changed(&before), rows(&[4]));
    assert_eq!(table.check(1, table.rows()), Ok(0));
    assert_eq!(table.file(1).read(1, table.rows(), 0, &mut [0; 3]).map(|done| done.version), Ok(2));
    assert_eq!(table.changed(&before), rows(&[4]), "neither changes anything");
    // A joining: the new row, and the row whose link leads to it. In the other direction too, and for another size all.
    let before = table.clone();
    assert_eq!(table.join(35), Ok(5));
    assert_eq!((table.changed(&before), before.changed(&table)), (rows(&[3, 5]), rows(&[3, 5])));
    let longer = Table::found(5, 5, &[10, 20, 30, 40], Shape::Wide).expect("a plain founding");
    assert_eq!(founded.changed(&longer), rows(&[1, 2, 3, 4]));
}

#[test]
fn several_threads_read_one_table() {
    fn shared<T: Send + Sync>(value: T) -> T {
        value
    }
    let mut table =
        Table::found(9, 100, &[1, 2, 3, 4, 5, 6, 7, 8, 9], Shape::Wide).expect("a plain founding");
    let file: Vec<u8> = (0..100).collect();
    assert_eq!(version_of(table.file_mut(1).write(5, Rows::first(9), 0, &file)), Ok(1));
    let (table, before) = (shared(table.clone()), table);
    std::thread::scope(|scope| {
        for coordinator in table.rows() {
            let (table, file) = (&table, &file);
            scope.spawn(move || {
                for offset in (0..file.len()).cycle().take(20_000) {
                    let mut got = vec![0; file.len() - offset];
                    assert_eq!(
                        version_of(table.file(1).read(coordinator, table.rows(), offset, &mut got)),
                        Ok(1)
                    );
                    assert_eq!(got, file[offset..]);
                }
            });
        }
    });
    assert_eq!(table, before);
}

#[test]
fn a_table_knows_its_size() {
    let table = Table::found(9, 300, &[5, 6], Shape::Wide).expect("a plain founding");
    assert_eq!((table.capacity(), table.used(), table.file_len(), table.files()), (9, 2, 300, 1));
}

#[test]
fn foundings_are_refused_by_number() {
    assert_eq!(Table::found(4, 4, &[], Shape::Wide), Err(Refusal::BadNames));
    assert_eq!(Table::found(4, 4, &[2, 1], Shape::Wide), Err(Refusal::BadNames));
    assert_eq!(Table::found(4, 4, &[0, 1], Shape::Tall), Err(Refusal::BadNames));
    assert_eq!(Table::found(1, 4, &[1, 2], Shape::Wide), Err(Refusal::BadSize));
    assert_eq!(Table::found(usize::MAX, usize::MAX, &[1], Shape::Wide), Err(Refusal::BadSize));
    assert_eq!(Table::found(4, 4097, &[1], Shape::Wide), Err(Refusal::BadSize));
}

#[test]
fn refused_calls_alter_nothing() {
    let mut table = four();
    let all = Rows::first(4);
    let mut buffer = [7; 2];
    assert_eq!(version_of(table.file(1).read(0, all, 0, &mut buffer)), Err(Refusal::NoSuchRow));
    assert_eq!(version_of(table.file(1).read(1, Rows::EMPTY, 0, &mut buffer)), Err(Refusal::NotAnswering));
    assert_eq!(version_of(table.file(1).read(1, all, usize::MAX, &mut buffer)), Err(Refusal::OutOfRange));
    assert_eq!(version_of(table.file(1).read(1, Rows::first(1), 0, &mut buffer)), Err(Refusal::NoQuorum));
    assert_eq!(version_of(table.file_mut(1).write(1, all, 0, &[])), Err(Refusal::OutOfRange));
    assert_eq!(table.file_mut(1).send(1, 2, all), Err(Refusal::ReceiverNotBehind));
    assert_eq!(buffer, [7; 2]);
    assert_eq!(table, four());
}

#[test]
fn a_joining_links_the_row_in_name_order() {
    let mut table = Table::found(5, 4, &[20, 30], Shape::Wide).expect("a plain founding");
    // Above all names, below them, and between.
    assert_eq!([40, 10, 25].map(|name| table.join(name)), [Ok(3), Ok(4), Ok(5)]);
    assert_eq!((table.used(), table.rows()), (5, Rows::first(5)));
    let bytes = table.as_bytes();
    assert_eq!(bytes[..4], [5, 5, 5, 4], "form 5, and the chain begins with row 4");
    let names_and_links = table.rows().iter().map(|row| table.row_bytes(row).expect("in use")[..3].to_vec());
    let expected = [[20, 0, 5], [30, 0, 3], [40, 0, 0], [10, 0, 1], [25, 0, 2]];
    assert_eq!(names_and_links.collect::<Vec<_>>(), expected);
    for row in [3, 4, 5] {
        assert_eq!(table.row_bytes(row).map(|row| &row[3..]), Some(&bare()[..]), "the list too");
    }
}

#[test]
fn joinings_are_refused_by_number() {
    let mut table = Table::found(3, 4, &[10, 20], Shape::Wide).expect("a plain founding");
    let founded = table.clone();
    assert_eq!([0, 10, 20].map(|name| table.join(name)), [Err(Refusal::NameNotFree); 3]);
    assert_eq!(table, founded);
    assert_eq!(table.join(u16::MAX), Ok(3));
    let full = table.clone();
    assert_eq!([0, 10, u16::MAX].map(|name| table.join(name)), [Err(Refusal::NameNotFree); 3]);
    assert_eq!([1, 15, 65_534].map(|name| table.join(name)), [Err(Refusal::NoRoom); 3]);
    assert_eq!(table, full);
}

#[test]
fn a_joined_row_counts_once_a_check_takes_it_in() {
    let mut table = Table::found(3, 4, &[10, 20], Shape::Wide).expect("a plain founding");
    let (both, all) = (Rows::first(2), Rows::first(3));
    let mut got = [0; 3];
    assert_eq!(version_of(table.file_mut(1).write(1, both, 0, b"1-0")), Ok(1));
    assert_eq!(table.join(30), Ok(3));
    assert_eq!(version_of(table.file(1).read(3, Rows::from_bits(4), 0, &mut got)), Err(Refusal::NoQuorum));
    assert_eq!(
        version_of(table.file(1).read(3, all, 0, &mut got)).map(|version| (version, &got)),
        Ok((1, b"1-0"))
    );
    assert_eq!(version_of(table.file_mut(1).write(3, Rows::from_bits(6), 0, b"0-1")), Err(Refusal::NoQuorum));
    assert_eq!(table.file_mut(1).send(1, 3, all), Err(Refusal::ReceiverNotBehind));
    assert_eq!(table.check(3, all), Ok(1));
    assert_eq!(table.file_mut(1).send(1, 3, all), Ok(1));
    // Of three, the first and the second in name order hold a write quorum, and the second and the third a read quorum.
    assert_eq!(version_of(table.file_mut(1).write(1, both, 0, b"0-1")), Ok(2));
    assert_eq!(
        version_of(table.file(1).read(3, Rows::from_bits(6), 0, &mut got)).map(|version| (version, &got)),
        Ok((2, b"0-1"))
    );
}

/// By the choice of 10, {1, 2, 3} for a write and {1, 2} for a read, or by all.
#[test]
fn reads_and_writes_say_how_many_were_called() {
    let mut table = Table::found(6, 4, &[10, 20, 30, 40], Shape::Wide).expect("a plain founding");
    let (all, three) = (Rows::first(4), Rows::of(&[1, 2, 4]).expect("rows"));
    assert_eq!(table.file_mut(1).write(1, all, 0, b"1-0"), Ok(Done { version: 1, called: 3 }));
    assert_eq!(table.file(1).read(1, all, 0, &mut [0; 3]), Ok(Done { version: 1, called: 2 }));
    assert_eq!(table.file_mut(1).write(1, three, 0, b"0-1"), Ok(Done { version: 2, called: 4 }));
    let refused = |refusal, called| Err(Refused { refusal, called });
    assert_eq!(
        table.file(1).read(3, Rows::from_bits(0b1100), 0, &mut [0; 3]),
        refused(Refusal::NotCurrent, 4)
    );
    assert_eq!(table.file_mut(1).write(1, Rows::first(2), 0, b"1-0"), refused(Refusal::NoQuorum, 4));
    assert_eq!(table.file_mut(1).write(1, all, 4, b"1"), refused(Refusal::OutOfRange, 0));
    assert_eq!(table.file(1).read(5, all, 0, &mut [0; 3]), refused(Refusal::NoSuchRow, 0));
    // A row that joined is in use at once, and has no choice of its own.
    assert_eq!(table.join(15), Ok(5));
    assert_eq!(table.file(1).read(5, Rows::first(5), 0, &mut [0; 3]), Ok(Done { version: 2, called: 5 }));
    assert_eq!(Refused { refusal: Refusal::NoQuorum, called: 4 }.to_string(), Refusal::NoQuorum.to_string());
}

#[test]
fn sets_of_rows() {
    assert_eq!(Rows::of(&[1, 2, 4]).map(Rows::bits), Ok(0b1011));
    assert_eq!(Rows::of(&[0]), Err(Refusal::NoSuchRow));
    assert_eq!(Rows::of(&[65]), Err(Refusal::NoSuchRow));
    assert_eq!([0, 1, 64, 99].map(|count| Rows::first(count).bits()), [0, 1, u64::MAX, u64::MAX]);
    let (low, ends) = (Rows::first(3), Rows::from_bits(1 << 63 | 1));
    assert_eq!((low | ends, low & ends), (Rows::from_bits(1 << 63 | 7), Rows::first(1)));
    assert_eq!((low - ends).iter().collect::<Vec<_>>(), [2, 3]);
    assert_eq!((ends - low).iter().next(), Some(64));
    assert_eq!(ends.iter().rev().collect::<Vec<_>>(), [64, 1]);
    assert_eq!((ends.len(), ends.is_empty(), Rows::EMPTY.is_empty()), (2, false, true));
    assert_eq!([0, 1, 2, 64, 65].map(|row| ends.contains(row)), [false, true, false, true, false]);
    assert!(Rows::EMPTY.is_subset(low) && low.is_subset(low) && !ends.is_subset(low));
    assert_eq!((1..=64).collect::<Rows>().into_iter().sum::<usize>(), 64 * 65 / 2);
    assert_eq!(format!("{ends} {ends:?} {}", Rows::EMPTY), "{1, 64} Rows {1, 64} {}");
}

#[test]
#[should_panic(expected = "65 is no row")]
fn collected_rows_must_be_rows() {
    let _ = [1, 65].into_iter().collect::<Rows>();
}

#[test]
fn a_million_writes_and_no_more() {
    let mut table = Table::found(1, 1, &[1], Shape::Wide).expect("a plain founding");
    let all = Rows::first(1);
    for version in 1..=1_000_000 {
        assert_eq!(version_of(table.file_mut(1).write(1, all, 0, &[version as u8])), Ok(version));
    }
    assert_eq!(version_of(table.file_mut(1).write(1, all, 0, &[0])), Err(Refusal::AtLimit));
    let mut last = [0];
    assert_eq!(version_of(table.file(1).read(1, all, 0, &mut last)), Ok(1_000_000));
    assert_eq!(last, [1_000_000_u32 as u8]);
}

#[test]
fn a_million_epochs_and_no_more() {
    let mut table = Table::found(3, 1, &[1, 2, 3], Shape::Wide).expect("a plain founding");
    let (two, three) = (Rows::first(2), Rows::first(3));
    for epoch in 1..=1_000_000 {
        assert_eq!(table.check(1, if epoch % 2 == 1 { two } else { three }), Ok(epoch));
    }
    assert_eq!(table.check(1, two), Err(Refusal::AtLimit));
    assert_eq!(table.check(1, three), Ok(1_000_000));
}
