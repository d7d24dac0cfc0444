//! Histories with known answers, and all short ones on few machines: archive, reference and book agree on each.

use crate::archive::Archive;
use crate::call::Call;
use crate::generate::Plan;
use crate::guard::Edge;
use crate::ledger::Ledger;
use crate::random::Random;
use crate::tables::{self, names_in_bytes, Picture};
use crate::trial::{Case, Trial};
use reference::round::Order;
use reference::sheet::Line;
use reference::{rows, Engine, Rules, Sheet, Table, SEVERAL, TALL};

fn set(members: &[usize]) -> u64 {
    members.iter().fold(0, |set, &row| set | rows::only(row))
}

/// The choices of a founding.
const WIDE_TABLE: u64 = 0;
const TALL_TABLE: u64 = 1;

/// The founding of a table of one file.
fn found(capacity: usize, names: &[u16], file_len: usize, choice: u64) -> Call {
    found_group(capacity, names, file_len, choice, 1)
}

fn found_group(capacity: usize, names: &[u16], file_len: usize, choice: u64, files: usize) -> Call {
    let (capacity, file_len, files) = (capacity as u64, file_len as u64, files as u64);
    let counties = vec![1; names.len()];
    Call::Found { capacity, file_len, names: names_in_bytes(names), choice, files, counties }
}

/// The founding with these counties.
fn in_counties(mut founding: Call, of: &[u8]) -> Call {
    if let Call::Found { counties, .. } = &mut founding {
        *counties = of.to_vec();
    }
    founding
}

/// Of the first file, as are the calls below.
fn read(coordinator: u64, answering: &[usize]) -> Call {
    let (answering, buffer, called) = (set(answering), vec![0], vec![0xee]);
    Call::Read { coordinator, answering, offset: 0, length: 1, buffer, called, file: 1 }
}

fn write(coordinator: u64, answering: &[usize]) -> Call {
    let (answering, patch, called) = (set(answering), vec![b'a'], vec![0xee]);
    Call::Write { coordinator, answering, offset: 0, patch, called, file: 1, sheet: open(), club: 1 }
}

fn send(from: u64, to: u64, answering: &[usize]) -> Call {
    Call::Send { from, to, answering: set(answering), file: 1 }
}

/// The same call with another file.
fn of(file: u64, mut call: Call) -> Call {
    call.rename_files(|_| file);
    call
}

fn check(coordinator: u64, answering: &[usize]) -> Call {
    Call::Check { coordinator, answering: set(answering), sheet: open() }
}

/// A sheet that turns nobody down.
fn open() -> Vec<u8> {
    Sheet::OPEN.bytes().to_vec()
}

fn round(answering: &[usize], orders: &[Order]) -> Call {
    Call::Round {
        answering: set(answering),
        orders: orders.iter().flat_map(Order::bytes).collect(),
        sheet: open(),
    }
}

/// As `write`.
fn order(coordinator: u8) -> Order {
    Order { coordinator, length: 1, offset: 0, patch: [b'a'; 8], file: 1, club: 1 }
}

fn join(name: u16) -> Call {
    join_in(name, 1)
}

fn join_in(name: u16, county: u64) -> Call {
    Call::Join { name, county }
}

fn blank(capacity: usize, file_len: usize) -> Case {
    blank_group(capacity, file_len, 1)
}

fn blank_group(capacity: usize, file_len: usize, files: usize) -> Case {
    let table = vec![0; Table::length(capacity, file_len, files)];
    Case { table, ledger: Ledger::default(), calls: Vec::new(), edge: Edge::End }
}

/// Founds the names and makes the calls; each must give its refusal number and value. Gives the grid marks that are left.
fn expect(names: &[u16], calls: &[(Call, u64, u64)]) -> Vec<u8> {
    expect_in(names.len(), names, calls)
}

/// The same in a table of so many rows.
fn expect_in(capacity: usize, names: &[u16], calls: &[(Call, u64, u64)]) -> Vec<u8> {
    expect_founded(capacity, names, WIDE_TABLE, calls)
}

/// The same in a tall table.
fn expect_tall(capacity: usize, names: &[u16], calls: &[(Call, u64, u64)]) -> Vec<u8> {
    expect_founded(capacity, names, TALL_TABLE, calls)
}

fn expect_founded(capacity: usize, names: &[u16], choice: u64, calls: &[(Call, u64, u64)]) -> Vec<u8> {
    let founding = (found(capacity, names, 4, choice), 0, names.len() as u64);
    expect_from(&blank(capacity, 4), &[&[founding], calls].concat())
}

/// The same, founded by the scope's rules alone before there were requests.
fn expect_from_the_scope(names: &[u16], calls: &[(Call, u64, u64)]) -> Vec<u8> {
    let case = from_the_scope(names, 4);
    assert_eq!(marks(&case.table), vec![0; names.len()]);
    expect_from(&case, calls)
}

/// The same on two files of four machines.
fn expect_of_two_files(calls: &[(Call, u64, u64)]) {
    let founding = (found_group(5, &[10, 20, 30, 40], 4, WIDE_TABLE, 2), 0, 4);
    expect_from(&blank_group(5, 4, 2), &[&[founding], calls].concat());
}

fn expect_from(case: &Case, calls: &[(Call, u64, u64)]) -> Vec<u8> {
    let mut archive = Archive::new();
    let mut trial = Trial::new(&mut archive, Engine::default(), case);
    for (call, refusal, value) in calls {
        let result = trial.step(call).map(|step| step.result);
        assert_eq!(result, Ok((refusal << 32) + value), "{call}");
    }
    marks(trial.table())
}

/// The machines as a founding by the scope's rules alone leaves them, in the newest form.
fn from_the_scope(names: &[u16], file_len: usize) -> Case {
    let founding = found(names.len(), names, file_len, WIDE_TABLE);
    let engine = Engine { rules: Rules::Published, ..Engine::default() };
    let mut table = vec![0; engine.rules.table_length(names.len(), file_len, 1)];
    let mut ledger = Ledger::published();
    let answer = founding.refer(engine, &mut table);
    ledger.hear(&founding, &answer).expect("a plain founding");
    ledger.go_on_with_requests();
    Case { table: tables::alone(&table, 1, Rules::Newest), ledger, ..blank(names.len(), file_len) }
}

/// The grid mark of each row.
fn marks(table: &[u8]) -> Vec<u8> {
    let table = Picture::of(table).expect("a history leaves a well-formed table");
    table.rows.iter().map(|row| row.list.mark).collect()
}

#[test]
fn the_walk() {
    expect(
        &[1, 2, 3, 4],
        &[
            (write(1, &[1, 2, 3]), 0, 1),
            (read(4, &[3, 4]), 0, 1),
            (write(2, &[1, 2, 4]), 0, 2),
            (read(4, &[3, 4]), 7, 0),
            (send(3, 4, &[3, 4]), 10, 0),
            (check(1, &[1, 2, 4]), 0, 1),
            (write(3, &[3]), 6, 0),
        ],
    );
}

/// Founds the names and makes the calls; each must give its refusal number, and the number of machines called.
fn expect_called(capacity: usize, names: &[u16], choice: u64, calls: &[(Call, u64, u8)]) {
    let mut archive = Archive::new();
    let mut trial = Trial::new(&mut archive, Engine::default(), &blank(capacity, 4));
    trial.step(&found(capacity, names, 4, choice)).expect("no difference");
    for (call, refusal, called) in calls {
        let step = trial.step(call).unwrap_or_else(|what| panic!("{call}: {what}"));
        assert_eq!((step.result >> 32, step.called), (*refusal, Some(*called)), "{call}");
    }
}

#[test]
fn machines_called_in_the_walk() {
    // Too few of each own choice answer, so that all four are called.
    let calls = [
        (write(1, &[1, 2, 3]), 0, 4),
        (read(4, &[3, 4]), 0, 4),
        (write(2, &[1, 2, 4]), 0, 4),
        (read(4, &[3, 4]), 7, 4),
        (write(3, &[3]), 6, 4),
        (write(5, &[3]), 2, 0),
        (read(1, &[2]), 3, 0),
    ];
    expect_called(4, &[1, 2, 3, 4], WIDE_TABLE, &calls);
}

/// In columns {1, 3, 5} and {2, 4, 6} a write by 15 has the second and row 1, a read rows 1 and 2; in a wide table, columns
/// {1, 4}, {2, 5} and {3, 6}, a write has the first and rows 5 and 6, a read rows 4, 5 and 6.
#[test]
fn machines_called_wide_and_tall() {
    let (names, all) = ([15, 20, 30, 40, 50, 60], [1, 2, 3, 4, 5, 6]);
    let tall = [
        (write(1, &all), 0, 4),
        (write(1, &[1, 2, 4, 6]), 0, 4),
        (write(1, &[1, 2, 3, 5]), 0, 6),
        (read(1, &all), 0, 2),
        (read(1, &[1, 4]), 0, 6),
        // Rows 3 and 4 are the choice of 40, and behind.
        (read(4, &[3, 4]), 7, 6),
    ];
    expect_called(6, &names, TALL_TABLE, &tall);
    let wide = [(write(1, &all), 0, 4), (read(1, &all), 0, 3), (read(1, &[1, 2, 3]), 0, 6)];
    expect_called(6, &names, WIDE_TABLE, &wide);
}

/// Row 4 missed the check by the others. Of its choice of four, {1, 2, 3}, rows 1 and 2 answer, and they are a quorum of three.
#[test]
fn a_choice_counts_as_called_though_some_of_it_did_not_answer() {
    let names = [10, 20, 30, 40];
    expect_called(4, &names, WIDE_TABLE, &[(write(4, &[1, 2, 4]), 0, 4)]);
    let mut archive = Archive::new();
    let mut trial = Trial::new(&mut archive, Engine::default(), &blank(4, 4));
    let opening = [found(4, &names, 4, WIDE_TABLE), check(1, &[1, 2, 3])];
    opening.iter().for_each(|call| assert_eq!(trial.step(call).map(|step| step.result >> 32), Ok(0)));
    assert_eq!(trial.step(&write(4, &[1, 2, 4])).map(|step| step.called), Ok(Some(3)));
}

#[test]
fn quorums_of_the_club_room() {
    let fourteen: Vec<u16> = (1..=14).collect();
    expect(&fourteen, &[(write(1, &[1, 3, 4, 6, 7, 11]), 0, 1)]);
    expect(&fourteen, &[(write(1, &[1, 3, 4, 6, 7]), 6, 0), (read(1, &[1, 3, 4, 6, 7]), 0, 0)]);
    expect(&[1, 2, 3], &[(read(1, &[1, 3]), 6, 0), (write(1, &[1, 2]), 0, 1)]);
    expect_from_the_scope(&[1, 2, 3, 4, 5], &[(read(1, &[1, 2, 4, 5]), 6, 0)]);
    expect(&[1, 2, 3, 4, 5], &[(write(1, &[1, 2, 4, 5]), 0, 1)]);
}

/// Columns {1, 3, 5} and {2, 4}, in a wide table and in a tall one.
#[test]
fn five_bear_the_loss_of_the_third() {
    let names = [10, 20, 30, 40, 50];
    let calls = [
        (read(1, &[1, 2, 4, 5]), 0, 0),
        (write(5, &[1, 2, 4, 5]), 0, 1),
        (read(4, &[4, 5]), 0, 1),
        (read(1, &[1, 3, 5]), 6, 0),
        (write(1, &[1, 2, 3]), 6, 0),
        (read(1, &[1, 2, 3]), 0, 1),
        (check(1, &[1, 2, 4, 5]), 0, 1),
        (write(1, &[1, 2, 4]), 0, 2),
    ];
    assert_eq!(expect(&names, &calls), [0, 0, 1, 0, 0], "the row that is away keeps its list and grid");
    assert_eq!(expect_tall(5, &names, &calls), [TALL; 5]);
}

/// Which rows a write took shows in the rows that the next one marks.
#[test]
fn a_choice_goes_by_the_grid_of_the_own_list() {
    let names = [12, 21, 30, 40, 50];
    let all = [1, 2, 3, 4, 5];
    // In the new grid, columns {1, 3, 5} and {2, 4}, a write by 12 has the first, and row 2; by 21 the second, and row 1.
    let by_12 = [(write(1, &all), 0, 1), (write(1, &[1, 2, 4, 5]), 0, 2)];
    let behind = [(send(1, 4, &all), 0, 2), (send(1, 5, &all), 10, 0)];
    expect(&names, &[by_12, behind].concat());
    let by_21 = [(write(2, &all), 0, 1), (write(1, &[1, 3, 4, 5]), 0, 2)];
    let behind = [(send(1, 3, &all), 0, 2), (send(1, 5, &all), 0, 2)];
    expect(&names, &[by_21, behind].concat());
    // In the published grid, columns {1, 4}, {2, 5} and {3}, a write by 12 has the first, and rows 2 and 3.
    let by_12 = [(write(1, &all), 0, 1), (write(1, &[1, 3, 4, 5]), 0, 2)];
    let behind = [(send(1, 4, &all), 10, 0), (send(1, 5, &all), 0, 2)];
    expect_from_the_scope(&names, &[by_12, behind].concat());
    // Row 5 missed the check. The choice of 50 is over five in the new grid, {1, 2, 3, 5}; the quorum is one of four.
    let by_50 = [(check(1, &[1, 2, 3, 4]), 0, 1), (write(5, &all), 0, 1), (write(1, &[1, 2, 4, 5]), 0, 2)];
    let behind = [(send(1, 4, &all), 0, 2), (send(1, 5, &all), 10, 0)];
    expect(&names, &[&by_50[..], &behind].concat());
}

#[test]
fn five_are_laid_anew_by_a_check_that_takes_the_fifth_in_again() {
    let names = [1, 2, 3, 4, 5];
    let away = (check(1, &[1, 2, 3, 4]), 0, 1);
    let back = (check(1, &[1, 2, 3, 4, 5]), 0, 2);
    assert_eq!(expect(&names, &[]), [1; 5]);
    assert_eq!(expect(&names, std::slice::from_ref(&away)), [0, 0, 0, 0, 1]);
    assert_eq!(expect(&names, &[away, back, (read(1, &[1, 2, 4, 5]), 0, 0)]), [1; 5]);
}

#[test]
fn a_joining_makes_five() {
    let all = [1, 2, 3, 4, 5];
    let joined = [(join(25), 0, 5), (read(1, &[1, 2]), 0, 0)];
    let checked = [(check(5, &all), 0, 1), (read(1, &[1, 2, 3, 4]), 0, 0), (read(1, &[1, 5, 4]), 6, 0)];
    assert_eq!(expect_in(5, &[10, 20, 30, 40], &joined), [0; 5]);
    assert_eq!(expect_in(5, &[10, 20, 30, 40], &[&joined[..], &checked].concat()), [1; 5]);
}

/// A published five in force dies with its third machine, and a check by all five leaves it in its grid. Two checks with the
/// third machine on lay it anew.
#[test]
fn a_five_of_the_scope_keeps_its_grid_until_it_is_laid_anew() {
    let names = [1, 2, 3, 4, 5];
    let but_the_third = [1, 2, 4, 5];
    let kept = [
        (read(1, &but_the_third), 6, 0),
        (write(1, &but_the_third), 6, 0),
        (check(1, &but_the_third), 6, 0),
        (read(1, &[1, 2, 3]), 0, 0),
        (write(1, &[1, 2, 3]), 0, 1),
        (check(1, &[1, 2, 3, 4, 5]), 0, 0),
        (read(1, &but_the_third), 6, 0),
    ];
    let anew = [
        (check(1, &[1, 2, 3, 4]), 0, 1),
        (check(1, &[1, 2, 3, 4, 5]), 0, 2),
        (read(1, &but_the_third), 0, 1),
        (write(1, &but_the_third), 0, 2),
    ];
    assert_eq!(expect_from_the_scope(&names, &kept), [0; 5]);
    assert_eq!(expect_from_the_scope(&names, &[&kept[..], &anew].concat()), [1; 5]);
}

/// One column: either machine reads, and both are needed to write or check.
#[test]
fn tall_two() {
    let left = expect_tall(
        2,
        &[10, 21],
        &[
            (read(1, &[1]), 0, 0),
            (read(2, &[2]), 0, 0),
            (write(1, &[1]), 6, 0),
            (check(2, &[2]), 6, 0),
            (write(1, &[1, 2]), 0, 1),
            (read(2, &[2]), 0, 1),
            (check(1, &[1, 2]), 0, 0),
        ],
    );
    assert_eq!(left, [TALL; 2]);
    // One row and two columns: nobody reads alone.
    expect(&[10, 21], &[(read(1, &[1]), 6, 0), (read(2, &[2]), 6, 0), (write(1, &[1, 2]), 0, 1)]);
}

/// Columns {1, 3, 5} and {2, 4, 6}; in a wide table {1, 4}, {2, 5} and {3, 6}.
#[test]
fn tall_six() {
    let names = [10, 20, 30, 40, 50, 60];
    let left = expect_tall(
        6,
        &names,
        &[
            (read(1, &[1, 2]), 0, 0),
            (write(1, &[1, 2, 3, 4]), 6, 0),
            (write(1, &[1, 2, 3, 5]), 0, 1),
            (read(6, &[3, 6]), 0, 1),
            (read(6, &[2, 4, 6]), 6, 0),
            (check(1, &[1, 2, 3, 4, 5]), 0, 1),
            (write(1, &[2, 4, 1]), 0, 2),
        ],
    );
    assert_eq!(left, [TALL; 6]);
    expect(&names, &[(read(1, &[1, 2]), 6, 0), (write(1, &[1, 2, 3, 4]), 0, 1), (read(6, &[2, 4, 6]), 0, 1)]);
}

/// Which rows a write took shows in the rows that the next one marks. In columns {1, 3, 5} and {2, 4, 6} a write by 15 has the
/// second, and row 1.
#[test]
fn a_tall_choice_goes_by_the_tall_grid() {
    let all = [1, 2, 3, 4, 5, 6];
    let by_15 = [(write(1, &all), 0, 1), (write(2, &[1, 2, 3, 4, 5]), 0, 2)];
    let behind = [(send(1, 3, &all), 0, 2), (send(1, 5, &all), 0, 2), (send(1, 6, &all), 10, 0)];
    assert_eq!(expect_tall(6, &[15, 20, 30, 40, 50, 60], &[&by_15[..], &behind].concat()), [TALL; 6]);
}

/// Whoever checks: a row that joined, and has no list yet, too.
#[test]
fn a_check_keeps_a_tall_table_tall() {
    let (pair, three) = ([1, 2], [1, 2, 3]);
    let names = [10, 20];
    let joined = [(join(30), 0, 3), (read(3, &[1, 3]), 0, 0), (read(3, &[3]), 6, 0)];
    assert_eq!(expect_tall(3, &names, &joined), [TALL, TALL, 0]);
    let taken_in = [(check(3, &three), 0, 1), (read(1, &[1]), 6, 0), (read(1, &pair), 0, 0)];
    assert_eq!(expect_tall(3, &names, &[&joined[..], &taken_in].concat()), [TALL; 3]);
    // Two again, in one column; row 3 keeps the list of three.
    let left = [(check(1, &pair), 0, 2), (read(2, &[2]), 0, 0), (write(2, &[2]), 6, 0)];
    assert_eq!(expect_tall(3, &names, &[&joined[..], &taken_in, &left].concat()), [TALL; 3]);
}

#[test]
fn foundings_are_refused_for_another_choice() {
    let (names, wide, tall) = ([1, 2, 3], WIDE_TABLE, TALL_TABLE);
    let others = [2, 3, 255, 256, 257, 1 << 32, (1 << 32) + 1, 1 << 63, u64::MAX];
    let refused = others.map(|choice| (found(3, &names, 4, choice), 11, 0));
    let done = [wide, tall].map(|choice| (found(3, &names, 4, choice), 0, 3));
    assert_eq!(expect_from(&blank(3, 4), &[&refused[..], &done].concat()), [TALL; 3]);
    // Before the sizes are asked for.
    let size_too = (found(2, &names, 0, 2), 11, 0);
    assert_eq!(
        expect_from(&blank(3, 4), &[size_too, (found(2, &names, 0, tall), 12, 0), done[0].clone()]),
        [0; 3]
    );
}

#[test]
fn a_stale_row_keeps_an_old_score_from_being_read() {
    expect(
        &[10, 20, 30, 40],
        &[
            (write(1, &[1, 2, 3]), 0, 1),
            (write(1, &[1, 2, 4]), 0, 2),
            (read(3, &[3, 4]), 7, 0),
            (send(3, 4, &[3, 4]), 10, 0),
            (read(3, &[3, 4]), 7, 0),
            (send(1, 4, &[1, 4]), 0, 2),
            (read(3, &[3, 4]), 0, 2),
        ],
    );
}

#[test]
fn a_check_marks_the_rows_behind() {
    expect(
        &[10, 20, 30, 40],
        &[
            (check(1, &[1, 2, 3]), 0, 1),
            (write(1, &[1, 2]), 0, 1),
            (check(2, &[2, 3, 4]), 0, 2),
            (read(3, &[3, 4]), 7, 0),
        ],
    );
}

#[test]
fn the_newest_list_counts_and_not_the_coordinators() {
    expect(
        &[10, 20, 30],
        &[(check(1, &[1, 2]), 0, 1), (write(3, &[2, 3]), 6, 0), (write(1, &[1, 2, 3]), 0, 1)],
    );
}

#[test]
fn the_list_in_force_may_answer_and_a_read_still_be_refused() {
    expect(
        &[1, 2, 3, 4],
        &[
            (write(1, &[1, 2, 3]), 0, 1),
            (write(1, &[1, 2, 4]), 0, 2),
            (check(1, &[1, 3, 4]), 0, 1),
            (write(2, &[2, 3, 4]), 0, 3),
            (read(1, &[1, 3, 4]), 7, 0),
        ],
    );
}

/// Each file has its own versions, and its own rows that are behind.
#[test]
fn files_go_their_own_ways() {
    expect_of_two_files(&[
        (of(2, write(1, &[1, 2, 3])), 0, 1),
        (of(2, write(1, &[1, 2, 4])), 0, 2),
        (of(1, write(1, &[2, 1, 4])), 0, 1),
        (of(1, read(3, &[3, 4])), 0, 1),
        (of(2, read(3, &[3, 4])), 7, 0),
        (of(1, send(1, 4, &[1, 4])), 10, 0),
        (of(2, send(4, 3, &[3, 4])), 9, 0),
        (of(2, send(1, 4, &[1, 4])), 0, 2),
        (of(2, read(3, &[3, 4])), 0, 2),
        (of(1, read(3, &[3, 4])), 0, 1),
    ]);
}

/// Row 4 misses the first write of a file and row 3 the second; then rows 2 and 1 go away. The other file is current throughout.
#[test]
fn one_stale_file_keeps_a_check_from_all() {
    for (stale, other) in [(1, 2), (2, 1)] {
        expect_of_two_files(&[
            (of(stale, write(1, &[1, 2, 3])), 0, 1),
            (of(stale, write(1, &[1, 2, 4])), 0, 2),
            (check(1, &[1, 3, 4]), 0, 1),
            (of(other, read(3, &[3, 4])), 0, 0),
            (of(stale, read(3, &[3, 4])), 7, 0),
            (check(3, &[3, 4]), 7, 0),
            (check(1, &[1, 3, 4]), 0, 1),
            (of(other, write(3, &[3, 4])), 0, 1),
            (of(stale, send(1, 3, &[1, 3])), 0, 2),
            (check(3, &[3, 4]), 0, 2),
            // The check before marked both rows in that file.
            (of(stale, send(3, 4, &[3, 4])), 0, 2),
            (of(other, send(3, 4, &[3, 4])), 10, 0),
        ]);
    }
}

#[test]
fn files_that_the_group_does_not_have() {
    let all = [1, 2, 3, 4];
    for file in [0, 3, 9, 257, (1 << 32) + 1, (1 << 32) + 2, u64::MAX] {
        let beyond = |mut call: Call| {
            if let Call::Read { offset, .. } | Call::Write { offset, .. } = &mut call {
                *offset = 4;
            }
            of(file, call)
        };
        expect_of_two_files(&[
            (of(file, read(1, &all)), 16, 0),
            (of(file, write(1, &all)), 16, 0),
            (of(file, send(1, 2, &all)), 16, 0),
            (beyond(read(1, &all)), 16, 0),
            (beyond(write(1, &all)), 16, 0),
            (of(file, read(5, &all)), 2, 0),
            (of(file, write(1, &[2])), 3, 0),
            (of(file, send(1, 1, &all)), 2, 0),
            (of(file, send(1, 2, &[1])), 3, 0),
            (of(2, read(1, &all)), 0, 0),
        ]);
    }
}

#[test]
fn foundings_are_refused_for_another_number_of_files() {
    let names = [1, 2, 3];
    for files in [0, 9] {
        let case = blank_group(3, 4, files);
        let refused = (found_group(3, &names, 4, WIDE_TABLE, files), 12, 0);
        let names_first = (found_group(3, &[2, 1], 4, WIDE_TABLE, files), 11, 0);
        let mut archive = Archive::new();
        let mut trial = Trial::new(&mut archive, Engine::default(), &case);
        for (call, refusal, value) in [names_first, refused] {
            assert_eq!(trial.step(&call).map(|step| step.result), Ok((refusal << 32) + value), "{call}");
        }
    }
    for files in 1..=8 {
        let founding = (found_group(3, &names, 4, WIDE_TABLE, files), 0, 3);
        let last = of(files as u64, write(1, &[1, 2]));
        assert_eq!(expect_from(&blank_group(3, 4, files), &[founding, (last, 0, 1)]), [0; 3]);
    }
}

/// Founds machines 10, 20, .. in these counties, with two rows to spare, and makes the calls. Gives the grid marks that are left.
fn expect_counties(counties: &[u8], choice: u64, calls: &[(Call, u64, u64)]) -> Vec<u8> {
    let names: Vec<u16> = (1..=counties.len() as u16).map(|rank| 10 * rank).collect();
    let capacity = names.len() + 2;
    let founding = (in_counties(found(capacity, &names, 4, choice), counties), 0, names.len() as u64);
    expect_from(&blank(capacity, 4), &[&[founding], calls].concat())
}

/// Three of county 1, columns {1, 3} and {2}, and one of county 2; above one row of two, in a tall table one column.
#[test]
fn counties_1_1_1_2() {
    let wide = [
        (read(1, &[1, 2, 3]), 6, 0),
        (read(1, &[1, 3, 4]), 6, 0),
        (read(1, &[1, 2, 4]), 0, 0),
        (write(1, &[1, 2, 4]), 0, 1),
        (write(2, &[2, 3, 4]), 0, 2),
        (check(1, &[1, 2, 3]), 6, 0),
        (check(1, &[1, 2, 4]), 0, 1),
        // Two of county 1 in one row, and row 4: all are needed.
        (read(1, &[1, 4]), 6, 0),
        (read(1, &[1, 2, 4]), 0, 2),
    ];
    assert_eq!(expect_counties(&[1, 1, 1, 2], WIDE_TABLE, &wide), [SEVERAL; 4]);
    let tall = [
        (read(4, &[4]), 0, 0),
        (read(1, &[1, 2]), 0, 0),
        (read(1, &[1, 3]), 6, 0),
        (write(1, &[1, 2, 3]), 6, 0),
        (write(1, &[1, 2, 4]), 0, 1),
        (read(4, &[4]), 0, 1),
    ];
    assert_eq!(expect_counties(&[1, 1, 1, 2], TALL_TABLE, &tall), [TALL; 4]);
}

/// Wide, all four are needed to read; tall, any one of them is enough.
#[test]
fn counties_1_1_2_2() {
    let all = [1, 2, 3, 4];
    let but = |away: usize| all.into_iter().filter(|&row| row != away).collect::<Vec<usize>>();
    for away in all {
        let (answering, by) = (but(away), but(away)[0] as u64);
        let refused = [(read(by, &answering), 6, 0), (check(by, &answering), 6, 0)];
        let done = [(write(by, &all), 0, 1), (read(by, &all), 0, 1)];
        expect_counties(&[1, 1, 2, 2], WIDE_TABLE, &[refused, done].concat());
        let tall =
            [(write(by, &answering), 6, 0), (write(by, &all), 0, 1), (read(away as u64, &[away]), 0, 1)];
        expect_counties(&[1, 1, 2, 2], TALL_TABLE, &tall);
    }
}

/// Columns {1, 3, 5} and {2, 4} of five counties, or of the machines of a county, with row 6 in another one.
#[test]
fn five_on_either_level() {
    let reads = [(read(1, &[1, 2]), 0, 0), (read(1, &[1, 3, 5]), 6, 0)];
    let writes =
        [(write(1, &[1, 2, 3]), 6, 0), (write(1, &[1, 2, 4]), 0, 1), (write(1, &[1, 2, 3, 5]), 0, 2)];
    let calls = [&reads[..], &writes].concat();
    let with_6 = |calls: &[(Call, u64, u64)]| {
        let mut calls = calls.to_vec();
        for (call, ..) in &mut calls {
            if let Call::Read { answering, .. } | Call::Write { answering, .. } = call {
                *answering |= set(&[6]);
            }
        }
        calls
    };
    let six = [3, 3, 3, 3, 3, 1];
    assert_eq!(expect_counties(&[2, 4, 5, 6, 8], WIDE_TABLE, &calls), [SEVERAL; 5]);
    assert_eq!(expect_counties(&[2, 4, 5, 6, 8], TALL_TABLE, &calls), [TALL; 5]);
    assert_eq!(expect_counties(&six, WIDE_TABLE, &with_6(&calls)), [SEVERAL; 6]);
    let without_6: Vec<(Call, u64, u64)> = calls.into_iter().map(|(call, ..)| (call, 6, 0)).collect();
    expect_counties(&six, WIDE_TABLE, &without_6);
    // In a tall table either county is enough to read.
    assert_eq!(expect_counties(&six, TALL_TABLE, &[&reads[..], &with_6(&writes)].concat()), [TALL; 6]);
    expect_counties(&six, TALL_TABLE, &[(read(6, &[6]), 0, 0), (read(6, &[1, 3, 5, 6]), 0, 0)]);
}

/// Counties 1, 2 and 7 lie above in columns {1, 7} and {2}, whatever the names: rows {3, 2} and {1}.
#[test]
fn counties_lie_in_rising_order() {
    let calls = [
        (read(2, &[2, 3]), 6, 0),
        (read(1, &[1, 2]), 0, 0),
        (write(1, &[1, 3]), 0, 1),
        (write(1, &[1, 2]), 0, 2),
    ];
    expect_counties(&[2, 7, 1], WIDE_TABLE, &calls);
}

/// A machine of a second county joins four and is checked in; with it off, nothing goes, and it cannot be removed.
#[test]
fn a_machine_of_another_county_joins() {
    let four = [1, 2, 3, 4];
    let joined = [(join_in(25, 2), 0, 5), (read(1, &four), 0, 0), (check(1, &[1, 2, 3]), 0, 1)];
    assert_eq!(expect_counties(&[1; 4], WIDE_TABLE, &joined), [0; 5]);
    let taken_in = [
        (join_in(25, 2), 0, 5),
        (check(1, &[1, 2, 3, 4, 5]), 0, 1),
        (read(1, &four), 6, 0),
        (write(1, &four), 6, 0),
        (check(1, &four), 6, 0),
        (read(1, &[1, 2, 5]), 0, 0),
        (write(1, &[1, 2, 3, 5]), 0, 1),
    ];
    assert_eq!(expect_counties(&[1; 4], WIDE_TABLE, &taken_in), [SEVERAL; 5]);
    // Five again, and all of one county.
    let of_one = [(join_in(25, 3), 0, 5), (check(1, &[1, 2, 3, 4, 5]), 0, 1), (read(1, &four), 0, 0)];
    assert_eq!(expect_counties(&[3; 4], WIDE_TABLE, &of_one), [1; 5]);
}

/// Which machines are called: in counties 1, 1, 1, 2 a write by an even name has all four, a read three.
#[test]
fn machines_called_in_counties() {
    let mut archive = Archive::new();
    let mut trial = Trial::new(&mut archive, Engine::default(), &blank(4, 4));
    let founding = found(4, &[10, 21, 30, 40], 4, WIDE_TABLE);
    trial.step(&in_counties(founding, &[1, 1, 1, 2])).expect("no difference");
    let all = [1, 2, 3, 4];
    for (call, called) in [(write(1, &all), 4), (read(1, &all), 3), (write(2, &all), 3), (read(2, &all), 3)] {
        let step = trial.step(&call).unwrap_or_else(|what| panic!("{call}: {what}"));
        assert_eq!((step.result >> 32, step.called), (0, Some(called)), "{call}");
    }
}

#[test]
fn foundings_and_joinings_are_refused_for_their_counties_last() {
    let names = [1, 2, 3];
    for counties in [&[][..], &[1, 1], &[1, 1, 1, 1], &[0, 1, 1], &[1, 9, 1], &[1, 1, 255]] {
        let with = |founding| in_counties(founding, counties);
        let calls = [
            (with(found(4, &[2, 1, 3], 4, WIDE_TABLE)), 11, 0),
            (with(found(4, &names, 4, 2)), 11, 0),
            (with(found(2, &names, 4, WIDE_TABLE)), 12, 0),
            (with(found(4, &names, 5, WIDE_TABLE)), 12, 0),
            (with(found(4, &names, 4, WIDE_TABLE)), 20, 0),
            (with(found(4, &names, 4, TALL_TABLE)), 20, 0),
            (in_counties(found(4, &names, 4, WIDE_TABLE), &[8, 1, 8]), 0, 3),
        ];
        expect_from(&blank(4, 4), &calls);
    }
    let wrong = [0, 9, 255, 256, 257, 1 << 32, (1 << 32) + 1, u64::MAX];
    let refused = wrong.map(|county| [(join_in(10, county), 13, 0), (join_in(15, county), 20, 0)]);
    let joined = [(join_in(15, 8), 0, 3), (join_in(16, 1), 0, 4)];
    let full = wrong.map(|county| [(join_in(0, county), 13, 0), (join_in(17, county), 14, 0)]);
    expect_counties(&[1, 2], WIDE_TABLE, &[refused.as_flattened(), &joined, full.as_flattened()].concat());
}

/// The call with this sheet, a write by this club.
fn lent(mut call: Call, sheet: &[u8], by: u64) -> Call {
    call.lend(sheet);
    if let Call::Write { club, .. } = &mut call {
        *club = by;
    }
    call
}

/// Founds four machines and makes the calls, a write by its club; each is lent what the one before left of a sheet on which clubs 1 and 2
/// have two and three assured, and ceilings of three and five, and share one.
fn expect_shares(calls: &[(Call, u64, u64)]) {
    let mut sheet = Sheet { lines: [Line::default(); 16], total: 6 };
    sheet.lines[0] = Line { assured: 2, ceiling: 3, count: 0 };
    sheet.lines[1] = Line { assured: 3, ceiling: 5, count: 0 };
    let mut archive = Archive::new();
    let mut trial = Trial::new(&mut archive, Engine::default(), &blank(4, 4));
    trial.step(&found(4, &[10, 20, 30, 40], 4, WIDE_TABLE)).expect("no difference");
    let mut left = sheet.bytes().to_vec();
    for (call, by, refusal) in calls {
        let step =
            trial.step(&lent(call.clone(), &left, *by)).unwrap_or_else(|what| panic!("{call}: {what}"));
        assert_eq!((step.result >> 32, step.summed.is_some()), (*refusal, true), "{call} by {by}");
        left = trial.sheet().to_vec();
    }
}

#[test]
fn clubs_take_their_own_and_then_what_they_share() {
    let all = [1, 2, 3, 4];
    let by = |club, refusal| (write(1, &all), club, refusal);
    let taken = [by(1, 0), by(1, 0), by(1, 0), by(1, 18), by(2, 0), by(2, 0), by(2, 0), by(2, 19)];
    expect_shares(
        &[&taken[..], &[by(3, 18), by(0, 18), by(17, 18), by(257, 18), by((1 << 32) + 1, 18)]].concat(),
    );
    // Whatever club 2 took, club 1 has its two.
    let flood = [by(2, 0), by(2, 0), by(2, 0), by(2, 0), by(2, 19), by(1, 0), by(1, 0), by(1, 19)];
    expect_shares(&flood);
    // A check of the list in force leaves the counts; one that changes it sets them to 0, and a refused one does not.
    let checks = [(check(1, &all), 0, 0), (check(1, &[1]), 0, 6), by(2, 19), (check(1, &[1, 2, 3]), 0, 0)];
    let anew = [(write(1, &[1, 2, 3]), 2, 0), (write(1, &[1]), 9, 6), (write(1, &[1, 2, 3]), 9, 18)];
    expect_shares(&[&flood[..], &checks, &anew].concat());
}

#[test]
fn a_wrong_sheet_is_refused_first() {
    let all = [1, 2, 3, 4];
    let right = open();
    let mut high = right.clone();
    high[195] = 1;
    for sheet in [&[][..], &right[..195], &[&right[..], &[0]].concat(), &high] {
        let wrong = |call| (lent(call, sheet, 1), 1, 0);
        let calls = [
            wrong(write(1, &all)),
            wrong(write(5, &all)),
            wrong(check(1, &all)),
            wrong(check(1, &[1, 2, 3])),
            wrong(check(1, &[2])),
            (check(1, &all), 0, 0),
        ];
        expect(&[10, 20, 30, 40], &calls);
    }
}

/// The walk with its writes in rounds, one of which is of two writes; what was done before a refusal is read.
#[test]
fn the_walk_in_rounds() {
    expect(
        &[1, 2, 3, 4],
        &[
            (round(&[1, 2, 3], &[order(1)]), 0, 1),
            (read(4, &[3, 4]), 0, 1),
            (round(&[1, 2, 4], &[order(2), order(1)]), 0, 2),
            (read(4, &[3, 4]), 7, 0),
            (read(1, &[1, 2]), 0, 3),
            (send(3, 4, &[3, 4]), 10, 0),
            (check(1, &[1, 2, 4]), 0, 1),
            (round(&[3], &[order(3)]), 6, 0),
            (round(&[1, 2, 4], &[order(1), order(3), order(1)]), 3, 1),
            (round(&[1, 2, 4], &[order(1), order(255), order(1)]), 2, 1),
            (round(&[1, 2, 4], &[order(2), Order { file: 2, ..order(1) }, order(1)]), 16, 1),
            (round(&[1, 2, 4], &[order(2), Order { offset: 4, ..order(1) }, order(1)]), 4, 1),
            (round(&[1, 2, 4], &[order(2), Order { length: 9, ..order(1) }, order(1)]), 4, 1),
            (read(1, &[1, 2]), 0, 8),
            (round(&[], &[]), 0, 0),
            (round(&[1, 5], &[]), 2, 0),
            (round(&[1, 5], &[order(1)]), 2, 0),
            (round(&[], &[order(1)]), 3, 0),
            (read(1, &[1, 2]), 0, 8),
        ],
    );
}

/// A row that joined coordinates an order by all that answered, since it has no choice; behind a write that it misses it is marked by the
/// next one.
#[test]
fn rounds_by_a_row_that_joined() {
    expect_in(
        5,
        &[10, 20, 30, 40],
        &[
            (join(25), 0, 5),
            (round(&[1, 2, 3, 5], &[order(1), order(5), order(5)]), 0, 3),
            (send(1, 5, &[1, 5]), 0, 3),
            (send(1, 4, &[1, 4]), 10, 0),
            (round(&[1, 2, 3, 4, 5], &[order(5)]), 0, 1),
            (send(1, 4, &[1, 4]), 0, 4),
        ],
    );
}

/// Orders of two files: rows 3 and 4 are behind in the first one alone.
#[test]
fn a_round_of_two_files() {
    let of = |file, by| Order { file, ..order(by) };
    expect_of_two_files(&[
        (round(&[1, 2, 3], &[of(2, 1), of(1, 1)]), 0, 2),
        (round(&[1, 2, 4], &[of(1, 1)]), 0, 1),
        (round(&[3, 4, 1], &[of(1, 3), of(1, 3), of(2, 3)]), 0, 3),
        (check(1, &[1, 3, 4]), 0, 1),
        (read(1, &[1, 3]), 0, 4),
    ]);
    expect_of_two_files(&[
        (round(&[1, 2, 3], &[of(1, 1)]), 0, 1),
        (round(&[1, 2, 4], &[of(1, 1)]), 0, 1),
        (check(1, &[1, 3, 4]), 0, 1),
        (round(&[3, 4], &[of(2, 3), of(2, 4), of(1, 3), of(2, 3)]), 7, 2),
    ]);
}

#[test]
fn at_most_sixty_four_orders() {
    let all = [1, 2, 3, 4];
    let calls = [
        (round(&all, &[order(1); 63]), 0, 63),
        (round(&all, &[order(1); 64]), 0, 64),
        (round(&all, &[order(1); 65]), 4, 64),
        (round(&all, &[vec![order(2); 64], vec![order(0); 6]].concat()), 4, 64),
        (round(&all, &[vec![order(2); 63], vec![order(0); 7]].concat()), 2, 63),
        (read(1, &all), 0, 63 + 3 * 64 + 63),
    ];
    expect(&[10, 20, 30, 40], &calls);
}

/// The counts of one sheet are the writes done, orders among them; an order meets what those before it counted.
#[test]
fn clubs_take_their_own_in_rounds() {
    let all = [1, 2, 3, 4];
    let by = |clubs: &[u8], refusal| {
        let orders: Vec<Order> = clubs.iter().map(|&club| Order { club, ..order(1) }).collect();
        (round(&all, &orders), 0, refusal)
    };
    expect_shares(&[by(&[1, 1, 1, 1], 18), by(&[], 0), by(&[2, 2, 2, 2], 19), by(&[3], 18), by(&[17], 18)]);
    expect_shares(&[
        by(&[2, 1, 2, 2, 2, 1, 2], 19),
        by(&[2], 19),
        by(&[1], 19),
        (check(1, &[1, 2, 3]), 0, 0),
        by(&[1, 2], 0),
    ]);
}

#[test]
fn a_round_with_a_wrong_sheet_or_list() {
    let right = open();
    let over = |mut call: Call, bytes: usize| {
        if let Call::Round { orders, .. } = &mut call {
            orders.resize(orders.len() + bytes, 1);
        }
        call
    };
    for sheet in [&[][..], &right[..195], &[&right[..], &[0]].concat()] {
        let wrong = |call| (lent(call, sheet, 1), 1, 0);
        let calls = [
            wrong(round(&[1, 2], &[])),
            wrong(round(&[5], &[])),
            wrong(over(round(&[5], &[order(1)]), 3)),
            wrong(round(&[1, 2], &[order(0), order(1)])),
        ];
        expect(&[10, 20], &calls);
    }
    for (orders, bytes) in [0, 1, 64, 65].into_iter().flat_map(|orders| [1, 15].map(|bytes| (orders, bytes)))
    {
        let list = vec![order(1); orders];
        let calls = [
            (over(round(&[1, 2], &list), bytes), 4, 0),
            (over(round(&[], &list), bytes), 4, 0),
            (over(round(&[1, 3], &list), bytes), 2, 0),
        ];
        expect(&[10, 20], &calls);
    }
}

#[test]
fn joinings_are_refused_for_the_name_first() {
    expect_in(
        6,
        &[10, 20, 30, 40],
        &[
            (join(0), 13, 0),
            (join(10), 13, 0),
            (join(25), 0, 5),
            (join(25), 13, 0),
            (join(65_535), 0, 6),
            (join(0), 13, 0),
            (join(65_535), 13, 0),
            (join(1), 14, 0),
        ],
    );
}

#[test]
fn a_joined_row_counts_once_a_check_takes_it_in() {
    expect_in(
        3,
        &[10, 20],
        &[
            (write(1, &[1, 2]), 0, 1),
            (join(15), 0, 3),
            (read(3, &[3]), 6, 0),
            (check(3, &[3]), 6, 0),
            (write(3, &[1, 3]), 6, 0),
            (read(3, &[1, 2, 3]), 0, 1),
            (send(1, 3, &[1, 3]), 10, 0),
            (check(1, &[1, 2, 3]), 0, 1),
            // The first row, and the second in name order.
            (write(1, &[1, 3]), 0, 2),
            (read(2, &[2, 3]), 7, 0),
            (send(1, 3, &[1, 3]), 0, 2),
            (read(2, &[2, 3]), 0, 2),
        ],
    );
}

/// Before the first write the new row has every done write: it takes the first one if it is in its set.
#[test]
fn a_joined_row_takes_the_first_write() {
    expect_in(
        3,
        &[10, 20],
        &[
            (join(5), 0, 3),
            (write(3, &[1, 2, 3]), 0, 1),
            (send(1, 3, &[1, 3]), 10, 0),
            (send(3, 2, &[2, 3]), 10, 0),
            (check(3, &[1, 2, 3]), 0, 1),
            (read(3, &[1, 3]), 0, 1),
        ],
    );
}

/// By its own choice the coordinator leaves the new row out; on all that answered it is marked.
#[test]
fn a_write_on_all_that_answered_marks_a_joined_row() {
    expect_in(
        3,
        &[10, 20],
        &[
            (write(1, &[1, 2]), 0, 1),
            (join(30), 0, 3),
            (write(1, &[1, 2, 3]), 0, 2),
            (send(1, 3, &[1, 3]), 10, 0),
            (write(3, &[1, 2, 3]), 0, 3),
            (send(1, 3, &[1, 3]), 0, 3),
        ],
    );
}

/// What row t gets from row f: how many versions it is behind, how many patches f's window has, and whether t's contents are then
/// the sender's.
fn sent(trial: &mut Trial, f: usize, t: usize) -> (usize, usize, bool) {
    let step = trial.step(&send(f as u64, t as u64, &[f, t])).expect("no difference");
    let sent = step.sent.unwrap_or_else(|| panic!("{} to {t} was refused by {}", f, step.result >> 32));
    (sent.behind, sent.patches, sent.like_whole)
}

/// Four machines and a file of 40 bytes. Row 4 stays away while the others write these patches, all of them taking part, and is
/// marked when it is back.
fn row_4_behind(archive: &mut Archive, patches: &[usize]) -> (Vec<u8>, Ledger) {
    let mut trial = Trial::new(archive, Engine::default(), &blank(4, 40));
    let mut make = |call: &Call| assert_eq!(trial.step(call).map(|step| step.result >> 32), Ok(0), "{call}");
    make(&found(4, &[10, 20, 30, 40], 40, WIDE_TABLE));
    make(&check(1, &[1, 2, 3]));
    for (number, &length) in (1..).zip(patches) {
        let (coordinator, answering, offset) = (1, set(&[1, 2, 3]), number % 8);
        let patch = vec![number as u8; length];
        let (called, sheet) = (vec![0], open());
        make(&Call::Write { coordinator, answering, offset, patch, called, file: 1, sheet, club: 1 });
    }
    make(&check(1, &[1, 2, 3, 4]));
    trial.into_state()
}

/// A window reaches back sixteen versions, or to the last long patch.
#[test]
fn sends_by_window_and_whole() {
    let mut archive = Archive::new();
    let (short, mut cut) = ([7; 17], [7; 17]);
    cut[12] = 33;
    for (patches, behind, kept) in [
        (&short[..1], 1, 1),
        (&short[..15], 15, 15),
        (&short[..16], 16, 16),
        (&short[..], 17, 16),
        (&cut[..], 17, 4),
        (&cut[..13], 13, 0),
    ] {
        let (table, ledger) = row_4_behind(&mut archive, patches);
        let mut trial = Trial::resume(&mut archive, Engine::default(), table, ledger);
        assert_eq!(sent(&mut trial, 1, 4), (behind, kept, true));
    }
}

/// Where the contents of a row that is behind are not what its version says, a send by window leaves what it does not touch.
#[test]
fn a_send_by_window_where_no_founding_leads() {
    let mut archive = Archive::new();
    for (count, like_whole) in [(1, false), (16, false), (17, true)] {
        let (mut table, _) = row_4_behind(&mut archive, &vec![7; count]);
        let judged = Table::decode(&table).expect("well formed");
        judged.contents_mut(&mut table, 4, 1).fill(0xee);
        let mut trial = Trial::resume(&mut archive, Engine::default(), table, Ledger::default());
        assert_eq!(sent(&mut trial, 1, 4), (count, count.min(16), like_whole));
        let after = trial.table();
        let kept = judged.contents(after, 4, 1).iter().filter(|&&byte| byte == 0xee).count();
        assert_eq!(kept > 0, !like_whole);
    }
}

/// A table of form 1 goes on by the scope's rules alone; in the newest form it gives the same answers and rows, until a list of five
/// is laid or a request's call is made.
#[test]
fn a_table_of_the_scope_answers_as_by_the_scope_alone() {
    let mut archive = Archive::new();
    let scope = Engine { rules: Rules::Published, ..Engine::default() };
    let (mut made, mut fives) = ([0; Call::KINDS.len()], 0);
    for case in 0..600 {
        let mut random = Random::new(12, case);
        let mut plan = Plan::from_the_scope(&mut random);
        let mut newest = plan.table();
        let mut older = tables::alone(&newest, 1, scope.rules);
        for _ in 0..plan.calls() {
            let call = plan.next(&mut random, &newest);
            if call.answering().is_none() || call.file().is_some_and(|file| file != 1) {
                continue;
            }
            let answer = archive.call(&mut newest, &call).expect("no stray write");
            let expected = call.refer(scope, &mut older);
            assert_eq!(answer, expected, "case {case}: {call}");
            made[call.kind()] += usize::from(answer.result >> 32 == 0);
            let table = Picture::of(&newest).expect("well formed");
            if table.rows.iter().any(|row| row.list.mark != 0) {
                fives += 1;
                break;
            }
            assert_eq!(tables::alone(&newest, 1, scope.rules), older, "case {case}: {call}");
        }
    }
    let such = [1, 2, 3, 4, 9].map(|kind| made[kind]);
    assert!(such.iter().all(|&done| done > 200) && fives > 50, "{made:?} {fives}");
}

#[test]
fn every_length_of_range_buffer_patch_and_number_called() {
    let names = [7, 70, 700, 7000];
    let (file_len, files) = (5, 2);
    let mut archive = Archive::new();
    for edge in [Edge::Start, Edge::End] {
        let case = Case { edge, ..blank_group(names.len(), file_len, files) };
        let mut trial = Trial::new(&mut archive, Engine::default(), &case);
        trial.step(&found_group(names.len(), &names, file_len, WIDE_TABLE, files)).expect("no difference");
        let (coordinator, answering) = (1, set(&[1, 2, 3]));
        for (offset, length) in (0..8).flat_map(|offset| (0..8).map(move |length| (offset, length))) {
            for called in [0, 1, 2, 3].map(|length| vec![0xc5; length]) {
                let patch = vec![0x5a; length as usize];
                for file in [1, 2, 3] {
                    let (patch, called, sheet, club) = (patch.clone(), called.clone(), open(), 1);
                    let write =
                        Call::Write { coordinator, answering, offset, patch, called, file, sheet, club };
                    trial.step(&write).expect("no difference");
                }
                for (buffer_len, file) in (0..8).flat_map(|length| [(length, 1), (length, 2), (length, 3)]) {
                    let (buffer, called) = (vec![0xa5; buffer_len], called.clone());
                    let read = Call::Read { coordinator, answering, offset, length, buffer, called, file };
                    trial.step(&read).expect("no difference");
                }
            }
        }
    }
}

/// Each coordinator has a picture of its own: rows that answer are fresh, the others are as it last saw them.
#[test]
fn gathered_pictures_give_the_same_as_the_whole_table() {
    let mut archive = Archive::new();
    for case in 0..400 {
        let mut random = Random::new(4, case);
        let mut plan = Plan::founded(&mut random);
        let mut whole = plan.table();
        let mut pictures: Vec<Vec<u8>> = Vec::new();
        for _ in 0..plan.calls() {
            let call = plan.next(&mut random, &whole);
            let Some(answering) = call.answering() else {
                let answer = archive.call(&mut whole, &call).expect("no stray write");
                match call {
                    Call::Found { .. } => pictures = vec![whole.clone(); 65],
                    // Everybody hears of it.
                    Call::Join { .. } => {
                        for picture in &mut pictures {
                            assert_eq!(archive.call(picture, &call).as_ref(), Ok(&answer), "{call}");
                        }
                    }
                    // A chart and a choice alter nothing.
                    _ => {}
                }
                continue;
            };
            let picture = &mut pictures[random.row(answering)];
            let shape = Table::decode(&whole).expect("a founded history");
            let rows = rows::members(answering & shape.all_used());
            let rows: Vec<_> = rows.map(|row| shape.row_at(row)..shape.row_at(row + 1)).collect();
            for row in &rows {
                picture[row.clone()].copy_from_slice(&whole[row.clone()]);
            }
            let answer = archive.call(&mut whole, &call).expect("no stray write");
            assert_eq!(archive.call(picture, &call), Ok(answer), "{call}");
            for row in rows {
                assert_eq!(picture[row.clone()], whole[row], "{call}");
            }
        }
    }
}

/// Every history of so many calls on few machines, reads and refused calls aside: those alter nothing.
struct Explorer {
    archive: Archive,
    calls: u64,
    /// The last call is a round.
    rounds: bool,
}

impl Explorer {
    /// Founds the machines in a table of so many rows, and tries all histories of `depth` calls; gives how many calls were
    /// made.
    fn explore(capacity: usize, files: usize, founding: &Call, depth: u8) -> u64 {
        let mut archive = Archive::new();
        let mut trial = Trial::new(&mut archive, Engine::default(), &blank_group(capacity, 1, files));
        trial.step(founding).expect("no difference");
        let (table, ledger) = trial.into_state();
        Explorer::explore_from(&table, &ledger, depth)
    }

    fn explore_from(table: &[u8], ledger: &Ledger, depth: u8) -> u64 {
        Explorer::explore_to(table, ledger, depth, false)
    }

    fn explore_to(table: &[u8], ledger: &Ledger, depth: u8, rounds: bool) -> u64 {
        let mut explorer = Explorer { archive: Archive::new(), calls: 0, rounds };
        explorer.descend(table, ledger, depth);
        explorer.calls
    }

    fn descend(&mut self, table: &[u8], ledger: &Ledger, depth: u8) {
        let last = self.rounds && depth == 1;
        for call in if last { every_round(table) } else { every_call(table, depth) } {
            let mut trial =
                Trial::resume(&mut self.archive, Engine::default(), table.to_vec(), ledger.clone());
            trial.step(&call).unwrap_or_else(|what| panic!("{call}: {what}"));
            let (after, ledger) = trial.into_state();
            self.calls += 1;
            if depth > 1 && after != table {
                self.descend(&after, &ledger, depth - 1);
            }
        }
    }
}

/// Every read, write and send of each file, every check and choice, and joinings in every gap between names, in the county of the row
/// before, and behind all in another one; a write lays down the byte `mark`.
fn every_call(table: &[u8], mark: u8) -> Vec<Call> {
    let table = Picture::of(table).expect("a founded history");
    let mut calls = Vec::new();
    for answering in 1..=table.all_used() {
        let first = rows::members(answering).next().unwrap_or(1) as u64;
        calls.push(Call::Check { coordinator: first, answering, sheet: open() });
        for (row, file) in
            rows::members(answering).flat_map(|row| files_of(&table).map(move |file| (row, file)))
        {
            let (coordinator, offset, length) = (row as u64, 0, 1);
            let (buffer, patch, called) = (vec![0], vec![mark], vec![0xee]);
            let copied = called.clone();
            calls.push(Call::Read { coordinator, answering, offset, length, buffer, called, file });
            let (called, sheet, club) = (copied, open(), 1);
            calls.push(Call::Write { coordinator, answering, offset, patch, called, file, sheet, club });
        }
    }
    for coordinator in 1..=table.used as u64 {
        calls.extend([0, 1].map(|kind| Call::Choice { coordinator, kind, set: vec![0xee; 8] }));
    }
    for from in 1..=table.used {
        for to in (1..=table.used).filter(|&to| to != from) {
            let sends = files_of(&table).map(|file| of(file, send(from as u64, to as u64, &[from, to])));
            calls.extend(sends);
        }
    }
    // The name 0, or the one below all, or the one above a name; it may be in use.
    let lowest = table.row(table.at(0)).name;
    calls.extend([0, lowest - 1].map(join));
    calls.extend(table.rows.iter().map(|row| join_in(row.name + 1, row.county.into())));
    let last = table.row(table.at(table.used - 1));
    calls.push(join_in(last.name + 1, u64::from(last.county) % 8 + 1));
    calls
}

/// Rounds of two orders by any rows, of any files, whoever answers.
fn every_round(table: &[u8]) -> Vec<Call> {
    let table = Picture::of(table).expect("a founded history");
    let orders = (1..=table.used as u8).flat_map(|row| files_of(&table).map(move |file| (row, file as u8)));
    let orders: Vec<Order> = orders.map(|(row, file)| Order { file, ..order(row) }).collect();
    let mut calls = Vec::new();
    for answering in 0..=table.all_used() {
        let members: Vec<usize> = rows::members(answering).collect();
        for (&first, &second) in orders.iter().flat_map(|one| orders.iter().map(move |other| (one, other))) {
            calls.push(round(&members, &[first, Order { patch: [b'b'; 8], ..second }]));
        }
    }
    calls
}

/// The numbers of a group's files.
fn files_of(table: &Picture) -> impl Iterator<Item = u64> {
    1..=table.files as u64
}

/// So many rows, names, the choice of the founding, and how many calls deep.
type Machines = (usize, &'static [u16], u64, u8);

fn explore_all(few: &[Machines]) {
    explore_groups(1, few);
}

fn explore_groups(files: usize, few: &[Machines]) {
    for &(capacity, names, choice, depth) in few {
        let founding = found_group(capacity, names, 1, choice, files);
        let calls = Explorer::explore(capacity, files, &founding, depth);
        let machines = names.len();
        println!(
            "{machines} machines, {capacity} rows, choice {choice}, {files} files, {depth} calls deep: {calls} calls"
        );
        assert!(calls > 0);
    }
}

#[test]
fn all_short_histories_on_few_machines() {
    explore_all(&[
        (1, &[900], WIDE_TABLE, 8),
        (2, &[5, 6], WIDE_TABLE, 8),
        (3, &[31, 500, 501], WIDE_TABLE, 5),
        (4, &[10, 21, 35, 64], WIDE_TABLE, 4),
        (5, &[10, 21, 35, 64, 70], WIDE_TABLE, 3),
    ]);
}

#[test]
fn all_short_histories_with_room_to_join() {
    explore_all(&[
        (3, &[900], WIDE_TABLE, 6),
        (3, &[5, 7], WIDE_TABLE, 6),
        (4, &[5, 7], WIDE_TABLE, 4),
        (4, &[31, 500, 502], WIDE_TABLE, 4),
        (5, &[10, 21, 35, 64], WIDE_TABLE, 3),
    ]);
}

#[test]
fn all_short_histories_on_few_tall_machines() {
    explore_all(&[
        (1, &[900], TALL_TABLE, 8),
        (2, &[5, 6], TALL_TABLE, 8),
        (3, &[5, 7], TALL_TABLE, 6),
        (5, &[10, 21, 35, 64, 70], TALL_TABLE, 2),
        (6, &[10, 21, 35, 64, 70, 81], TALL_TABLE, 2),
    ]);
}

#[test]
fn all_short_histories_of_two_files() {
    explore_groups(
        2,
        &[
            (1, &[900], WIDE_TABLE, 5),
            (2, &[5, 6], WIDE_TABLE, 5),
            (3, &[5, 7], TALL_TABLE, 3),
            (3, &[31, 500, 501], WIDE_TABLE, 4),
            (4, &[10, 21, 35, 64], WIDE_TABLE, 3),
        ],
    );
    explore_groups(3, &[(2, &[5, 6], WIDE_TABLE, 4), (3, &[31, 500, 501], WIDE_TABLE, 3)]);
}

#[test]
fn all_short_histories_of_several_counties() {
    for (counties, choice, depth) in [
        (&[2, 1][..], WIDE_TABLE, 6),
        (&[2, 1], TALL_TABLE, 6),
        (&[3, 1, 1], WIDE_TABLE, 4),
        (&[2, 7, 1], TALL_TABLE, 4),
        (&[1, 2, 1, 1], WIDE_TABLE, 3),
        (&[4, 3, 2, 1], WIDE_TABLE, 3),
        (&[1, 2, 1, 2], TALL_TABLE, 3),
        (&[5, 4, 3, 2, 1], WIDE_TABLE, 2),
        (&[2, 2, 1, 2, 2, 2], WIDE_TABLE, 2),
    ] {
        let names = &[10, 21, 35, 64, 70, 81][..counties.len()];
        let founding = in_counties(found(names.len(), names, 1, choice), counties);
        let calls = Explorer::explore(names.len(), 1, &founding, depth);
        println!("counties {counties:?}, choice {choice}, {depth} calls deep: {calls} calls");
        assert!(calls > 0);
    }
    // One of another county joins.
    let calls = Explorer::explore(4, 1, &found(4, &[10, 21, 35], 1, WIDE_TABLE), 3);
    println!("3 machines and one of another county, 3 calls deep: {calls} calls");
    assert!(calls > 0);
}

#[test]
fn all_rounds_of_two_orders_after_short_histories() {
    for (names, counties, choice, files, depth) in [
        (&[5, 6][..], &[1, 1][..], WIDE_TABLE, 2, 4),
        (&[31, 500, 501], &[1, 1, 1], WIDE_TABLE, 1, 4),
        (&[31, 500, 501], &[2, 1, 1], WIDE_TABLE, 2, 3),
        (&[10, 21, 35, 64], &[1; 4], WIDE_TABLE, 1, 3),
        (&[10, 21, 35, 64, 70], &[1; 5], TALL_TABLE, 1, 2),
    ] {
        let capacity = names.len();
        let founding = in_counties(found_group(capacity, names, 1, choice, files), counties);
        let mut archive = Archive::new();
        let mut trial = Trial::new(&mut archive, Engine::default(), &blank_group(capacity, 1, files));
        trial.step(&founding).expect("no difference");
        let (table, ledger) = trial.into_state();
        let calls = Explorer::explore_to(&table, &ledger, depth, true);
        println!("{capacity} machines, {files} files, a round after {} calls: {calls} calls", depth - 1);
        assert!(calls > 0);
    }
}

#[test]
fn all_short_histories_of_a_published_five() {
    let case = from_the_scope(&[10, 21, 35, 64, 70], 1);
    let calls = Explorer::explore_from(&case.table, &case.ledger, 3);
    println!("5 machines in the published grid, 3 calls deep: {calls} calls");
    assert!(calls > 0);
}
