//! Fair use: sheets and their rules, whose writes are refused by 18 and 19, and what calls leave of a sheet.

mod random;

use dyngrid::{raw, Allowance, NotASheet, Refusal, Rows, Shape, Sheet, Table};
use random::Random;

const BYTES: usize = 196;
const CLUBS: usize = 16;
const LIMIT: u32 = 1_000_000;

fn four() -> Table {
    Table::found(4, 4, &[10, 20, 30, 40], Shape::Wide).expect("a plain founding")
}

fn allowance(assured: u32, ceiling: u32) -> Allowance {
    Allowance { assured, ceiling }
}

/// The bytes of a sheet: assured number, ceiling and count of the first clubs, zeros for the others, and the total.
fn bytes(lines: &[[u32; 3]], total: u32) -> Vec<u8> {
    let mut bytes: Vec<u8> = lines.iter().flatten().flat_map(|number| number.to_le_bytes()).collect();
    bytes.resize(12 * CLUBS, 0);
    bytes.extend(total.to_le_bytes());
    bytes
}

fn sheet(lines: &[[u32; 3]], total: u32) -> Sheet {
    Sheet::from_bytes(&bytes(lines, total)).expect("it keeps every rule")
}

/// What the library says of the bytes of a sheet: a check by the list in force changes nothing, and is refused by 1 if they are none.
fn taken(sheet: &[u8]) -> bool {
    let (mut table, mut lent) = (four().into_bytes(), sheet.to_vec());
    // SAFETY: both slices are live for the call, and they are two.
    let result =
        unsafe { raw::grid_check(table.as_mut_ptr(), table.len(), 1, 0xf, lent.as_mut_ptr(), lent.len()) };
    assert_eq!((&table[..], &lent[..]), (four().as_bytes(), sheet));
    assert!([0, 1 << 32].contains(&result), "{result:#x}");
    result == 0
}

/// The refusal number and the number called of a write by row 1 that all answer, and what it leaves of the sheet.
fn write(table: &mut Table, sheet: &[u8], club: u64) -> (u64, u8, Vec<u8>) {
    let mut bytes = table.as_bytes().to_vec();
    let (mut lent, mut called) = (sheet.to_vec(), [9]);
    // SAFETY: the slices are live for the call, and all are different ones.
    let result = unsafe {
        raw::grid_write(
            bytes.as_mut_ptr(),
            bytes.len(),
            1,
            0xf,
            0,
            b"1".as_ptr(),
            1,
            called.as_mut_ptr(),
            1,
            1,
            lent.as_mut_ptr(),
            lent.len(),
            club,
        )
    };
    *table = Table::from_bytes(bytes).expect("well formed");
    (result >> 32, called[0], lent)
}

/// The lines that crates/sheet computes from the definitions (`right_lines` of `Shown`), and the rule that the wrapper names.
#[test]
fn each_rule_of_a_sheet() {
    let three = |total| bytes(&[[5, 9, 5], [4, 4, 3], [0, 8, 2]], total);
    let last = |total| {
        [vec![0; 180], bytes(&[[2, 3, 3]], total)[..12].to_vec(), total.to_le_bytes().to_vec()].concat()
    };
    let right = [
        three(12),
        three(11),
        bytes(&[[5, 9, 5], [4, 4, 3]], 9),
        vec![0; BYTES],
        bytes(&[[LIMIT; 3]], LIMIT),
        bytes(&[[4, 4, 4]], 9),
        last(3),
    ];
    for bytes in right {
        assert!(taken(&bytes), "{bytes:?}");
        assert_eq!(Sheet::from_bytes(&bytes).map(|sheet| sheet.as_bytes().to_vec()), Ok(bytes));
    }
    let wrong = [
        (three(10), NotASheet::SharedOverdrawn { taken: 2, shared: 1 }),
        (bytes(&[[5, 9, 5], [4, 4, 3]], 8), NotASheet::TotalBelowAssured { total: 8, assured: 9 }),
        (three(12)[..195].to_vec(), NotASheet::WrongLength { length: 195 }),
        ([three(12), vec![0]].concat(), NotASheet::WrongLength { length: 197 }),
        (Vec::new(), NotASheet::WrongLength { length: 0 }),
        (bytes(&[[0, LIMIT + 1, 0]], LIMIT), NotASheet::CeilingTooHigh { club: 1, ceiling: LIMIT + 1 }),
        (bytes(&[], LIMIT + 1), NotASheet::TotalTooHigh { total: LIMIT + 1 }),
        (bytes(&[[4, 3, 0]], 9), NotASheet::AssuredAboveCeiling { club: 1, assured: 4, ceiling: 3 }),
        (bytes(&[[0, 3, 4]], 9), NotASheet::CountAboveCeiling { club: 1, made: 4, ceiling: 3 }),
        (last(2), NotASheet::SharedOverdrawn { taken: 1, shared: 0 }),
        (bytes(&[[0, 1 << 24, 0]], 9), NotASheet::CeilingTooHigh { club: 1, ceiling: 1 << 24 }),
        (bytes(&[[u32::MAX; 3]; CLUBS], u32::MAX), NotASheet::CeilingTooHigh { club: 1, ceiling: u32::MAX }),
    ];
    for (bytes, error) in wrong {
        assert!(!taken(&bytes), "{error}");
        assert_eq!(Sheet::from_bytes(&bytes), Err(error));
    }
    assert_eq!(Sheet::new(&[allowance(1, 1); 17], 17), Err(NotASheet::TooManyClubs { clubs: 17 }));
}

/// Numbers around each limit: the wrapper takes what the library takes.
#[test]
fn wrapper_and_library_judge_alike() {
    let (mut right, mut wrong) = (0, 0);
    for seed in 1..=4_000 {
        let mut random = Random::new(seed);
        let mut lines = [[0; 3]; CLUBS];
        for _ in 0..1 + random.below(4) {
            let ceiling = [0, 1, 5, LIMIT, LIMIT + 1][random.below(5)];
            let near = |random: &mut Random| {
                (ceiling + random.below(2) as u32).saturating_sub(random.below(3) as u32)
            };
            lines[random.below(CLUBS)] = [near(&mut random), ceiling, near(&mut random)];
        }
        let assured: u32 = lines.iter().map(|line| line[0]).sum();
        let beyond: u32 = lines.iter().map(|line| line[2].saturating_sub(line[0])).sum();
        let total = (assured + beyond + random.below(2) as u32).saturating_sub(random.below(3) as u32);
        let bytes = bytes(&lines, total);
        let ok = taken(&bytes);
        assert_eq!(Sheet::from_bytes(&bytes).is_ok(), ok, "seed {seed}: {lines:?}, total {total}");
        *if ok { &mut right } else { &mut wrong } += 1;
    }
    println!("{right} right, {wrong} wrong");
    assert!(right > 400 && wrong > 400, "{right} {wrong}");
}

/// The lines of `asked_lines`: a club at its ceiling, one below its assured number, one beyond; clubs that there are not.
#[test]
fn refused_by_18_and_19() {
    let three = |total| bytes(&[[5, 9, 5], [4, 4, 3], [0, 8, 2]], total);
    let lines = [
        (three(12), 1, 0),
        (three(12), 2, 0),
        (three(12), 3, 0),
        (three(11), 1, 19),
        (three(11), 2, 0),
        (three(11), 3, 19),
        (three(12), 4, 18),
        (bytes(&[[4, 4, 4]], 9), 1, 18),
        (bytes(&[[4, 4, 4]], 4), 1, 18),
        (three(12), 0, 18),
        (three(12), 17, 18),
        (three(12), (1 << 32) + 1, 18),
        (three(12), u64::MAX, 18),
    ];
    for (before, club, refusal) in lines {
        let mut table = four();
        let (refused, called, after) = write(&mut table, &before, club);
        assert_eq!((refused, called), (refusal, 3), "club {club}: the own choice was enough");
        if refusal == 0 {
            let count = 12 * (club as usize - 1) + 8;
            let mut expected = before.clone();
            expected[count] += 1;
            assert_eq!((after, table.file(1).copy(1).map(|copy| copy.version)), (expected, Some(1)));
        } else {
            assert_eq!((after, table), (before, four()), "a refusal leaves sheet and table");
        }
    }
    // A byte that is full goes over into the next one.
    let (_, _, after) = write(&mut four(), &bytes(&[[0, 999, 255]], 999), 1);
    assert_eq!(after, bytes(&[[0, 999, 256]], 999));
}

/// 1 of the sheet comes before all others, 18 and 19 after 7 and before 8.
#[test]
fn the_order_of_refusals() {
    let (good, bad) = (vec![0; BYTES], vec![1; BYTES]);
    assert_eq!(write(&mut four(), &bad, 1), (1, 0, bad.clone()));
    let mut table = four();
    let mut sheet = Sheet::new(&[allowance(0, 1)], 1).expect("it keeps every rule");
    let refused = |table: &mut Table, sheet: &mut Sheet, club, by, up| {
        table
            .file_mut(1)
            .write_for(club, sheet, by, up, 0, b"1")
            .map_err(Refusal::from)
            .map(|done| done.version)
    };
    let all = Rows::first(4);
    // An unknown club without a quorum is 6.
    assert_eq!(refused(&mut table, &mut sheet, 99, 1, Rows::first(1)), Err(Refusal::NoQuorum));
    assert_eq!(refused(&mut table, &mut sheet, 99, 9, all), Err(Refusal::NoSuchRow));
    assert_eq!(refused(&mut table, &mut sheet, 99, 1, all), Err(Refusal::NoMoreWrites));
    // At the limit of versions: the club first.
    let mut bytes = table.into_bytes();
    let stride = (bytes.len() - 16) / 4;
    bytes[16..].chunks_mut(stride).for_each(|row| row[36..40].copy_from_slice(&LIMIT.to_le_bytes()));
    let mut table = Table::from_bytes(bytes).expect("well formed");
    assert_eq!(refused(&mut table, &mut sheet, 2, 1, all), Err(Refusal::NoMoreWrites));
    assert_eq!(refused(&mut table, &mut sheet, 1, 1, all), Err(Refusal::AtLimit));
    assert_eq!(write(&mut table, &good, 1), (18, 3, good));
    assert_eq!(sheet.club(1).map(|club| club.made), Some(0), "a refused write counts for nobody");
}

/// A changing check starts the counts anew; one by the list in force, and a refused one, leaves them.
#[test]
fn checks_and_counts() {
    let mut table = four();
    let mut sheet = sheet(&[[2, 5, 2], [0, 5, 1]], 5);
    let before = sheet.clone();
    assert_eq!(table.check_with(&mut sheet, 1, Rows::first(4)), Ok(0));
    assert_eq!(table.check_with(&mut sheet, 1, Rows::first(1)), Err(Refusal::NoQuorum));
    assert_eq!(sheet, before);
    assert_eq!(table.check_with(&mut sheet, 1, Rows::first(3)), Ok(1));
    assert_eq!(sheet.as_bytes(), bytes(&[[2, 5, 0], [0, 5, 0]], 5));
}

/// In histories with one sheet: the counts are the done writes since the last changing check, what is left is what may be written, and
/// a club below its assured number is never turned down.
#[test]
fn counts_sum_to_the_done_writes() {
    let (mut done, mut refused) = (0, [0; 2]);
    for seed in 1..=60 {
        let mut random = Random::new(seed);
        let clubs: Vec<Allowance> = (0..1 + random.below(CLUBS))
            .map(|_| (random.below(5) as u32, random.below(4) as u32))
            .map(|(assured, more)| allowance(assured, assured + more))
            .collect();
        let assured: u32 = clubs.iter().map(|club| club.assured).sum();
        let mut sheet = Sheet::new(&clubs, assured + random.below(6) as u32).expect("it keeps every rule");
        let mut table = Table::found_group(5, 4, &[1, 2, 3, 4, 5], Shape::Wide, 2).expect("a plain founding");
        let mut since = 0;
        for _ in 0..80 {
            let club = 1 + random.below(clubs.len() + 1);
            let before = sheet.clone();
            if random.below(20) == 0 {
                let up = Rows::first(4 + random.below(2));
                let list = table.row(1).map(|row| row.list);
                table.check_with(&mut sheet, 1, up).expect("a quorum answers");
                since = if list == Some(up) { since } else { 0 };
            } else {
                let file = 1 + random.below(2);
                let all = table.rows();
                let answer = table.file_mut(file).write_for(club, &mut sheet, 1, all, 0, b"1");
                let view = before.club(club);
                match answer.map_err(Refusal::from) {
                    Ok(_) => {
                        assert!(
                            view.is_some_and(|view| view.left > 0),
                            "seed {seed}, club {club}:\n{before}"
                        );
                        (done, since) = (done + 1, since + 1);
                    }
                    Err(refusal) => {
                        assert!(
                            view.is_none_or(|view| view.left == 0 && view.made >= view.assured),
                            "seed {seed}, club {club}:\n{before}"
                        );
                        assert_eq!(sheet, before);
                        let at_ceiling = view.is_none_or(|view| view.made == view.ceiling);
                        assert_eq!(refusal == Refusal::NoMoreWrites, at_ceiling, "{refusal}");
                        refused[usize::from(!at_ceiling)] += 1;
                    }
                }
            }
            assert_eq!(sheet.clubs().map(|club| club.made).sum::<u32>(), since, "seed {seed}");
            assert_eq!(Sheet::from_bytes(sheet.as_bytes()), Ok(sheet.clone()));
        }
    }
    println!("{done} done, {refused:?} refused by 18 and 19");
    assert!(done > 500 && refused.iter().all(|&refused| refused > 100), "{done} {refused:?}");
}

/// Without a sheet nothing is counted, and nobody has a limit.
#[test]
fn no_sheet_no_limits() {
    let open = Sheet::open();
    assert_eq!(open, Sheet::default());
    assert_eq!((open.total(), open.assured(), open.shared_left()), (LIMIT, 0, LIMIT));
    assert!(open.clubs().count() == CLUBS && open.clubs().all(|club| (club.made, club.left) == (0, LIMIT)));
    assert_eq!([0, 17, usize::MAX].map(|club| open.club(club)), [None; 3]);
    assert!(taken(open.as_bytes()));
    let [mut one, mut two] = [four(), four()];
    let mut lent = Sheet::open();
    for _ in 0..5 {
        let all = Rows::first(4);
        let plain = one.file_mut(1).write(1, all, 0, b"1-0");
        assert_eq!(two.file_mut(1).write_for(16, &mut lent, 1, all, 0, b"1-0"), plain);
    }
    assert_eq!((one.check(1, Rows::first(3)), two.check_with(&mut lent, 1, Rows::first(3))), (Ok(1), Ok(1)));
    assert_eq!((one, lent), (two, open));
}

#[test]
fn a_sheet_as_it_is_shown() {
    let shown = sheet(&[[5, 9, 5], [4, 4, 3], [0, 0, 0], [0, LIMIT, 2]], 12);
    assert_eq!(
        shown.to_string(),
        "\
club  assured  ceiling     made     left
   1        5        9        5        1
   2        4        4        3        1
   4        0  1000000        2        1
total 12: 9 assured, and 3 that the clubs share, of which 1 are left"
    );
    assert_eq!(format!("{shown:?}"), "Sheet { total: 12, .. }");
    let errors = [
        (
            Sheet::new(&[allowance(4, 3)], 9),
            "the assured number 4 of club 1 is above its ceiling 3: raise the ceiling",
        ),
        (
            Sheet::new(&[allowance(3, 3); 2], 5),
            "the total 5 is below the 6 writes that are assured: raise it, or assure fewer",
        ),
        (Sheet::from_bytes(b"sheet"), "5 bytes are no sheet: a sheet has 196; hand in a good copy"),
    ];
    for (made, text) in errors {
        assert_eq!(made.map_err(|error| error.to_string()), Err(text.into()));
    }
}
