//! Writes and checks with a sheet, worked out by hand from the papers.

use reference::sheet::{Line, CLUBS};
use reference::{Engine, Rules, Sheet, Table, LIMIT, ROW_HEADER};

const ENGINE: Engine = Engine { rules: Rules::Newest, blunder: None };

/// Four machines of one county, columns {1, 3} and {2, 4}: the write choice of 10 is {1, 2, 3}.
fn founded() -> Vec<u8> {
    let mut table = vec![0; Table::length(4, 2, 1)];
    assert_eq!(ENGINE.found(&mut table, 4, 2, &[10, 0, 20, 0, 30, 0, 40, 0], 0, 1, &[1; 4]), 4);
    table
}

/// Clubs 1 and 2 with two and three assured, and ceilings of three and five; the total leaves so many that they share.
fn sheet(shared: u32) -> Vec<u8> {
    let mut sheet = Sheet { lines: [Line::default(); CLUBS], total: 5 + shared };
    sheet.lines[0] = Line { assured: 2, ceiling: 3, count: 0 };
    sheet.lines[1] = Line { assured: 3, ceiling: 5, count: 0 };
    sheet.bytes().to_vec()
}

/// Refusal number and value.
fn split(result: u64) -> (u64, u64) {
    (result >> 32, result & 0xffff_ffff)
}

/// A write by row 1: refusal number and value, and the number called.
fn write(table: &mut [u8], answering: u64, sheet: &mut [u8], club: u64) -> ((u64, u64), u8) {
    let mut called = [0xee];
    let result = ENGINE.write(table, 1, answering, 0, &[7], &mut called, 1, sheet, club);
    (split(result), called[0])
}

fn check(table: &mut [u8], answering: u64, sheet: &mut [u8]) -> (u64, u64) {
    split(ENGINE.check(table, 1, answering, sheet))
}

fn counts(sheet: &[u8]) -> [u32; 2] {
    let sheet = Sheet::judge(sheet).expect("it is right");
    assert!(sheet.lines[2..].iter().all(|line| line.count == 0));
    [0, 1].map(|place| sheet.lines[place].count)
}

const ALL: u64 = 0b1111;

#[test]
fn clubs_take_their_own_and_then_what_they_share() {
    let (mut table, mut sheet) = (founded(), sheet(1));
    let mut by = |club| write(&mut table, ALL, &mut sheet, club).0;
    assert_eq!([1, 1, 1].map(&mut by), [(0, 1), (0, 2), (0, 3)]);
    assert_eq!([1, 2, 2, 2].map(&mut by), [(18, 0), (0, 4), (0, 5), (0, 6)]);
    assert_eq!([2, 1, 3, 0, 17].map(&mut by), [(19, 0), (18, 0), (18, 0), (18, 0), (18, 0)]);
    assert_eq!(counts(&sheet), [3, 3]);
    // A check of the list in force leaves the counts, one that changes it sets them to 0.
    assert_eq!((check(&mut table, ALL, &mut sheet), counts(&sheet)), ((0, 0), [3, 3]));
    assert_eq!((check(&mut table, 0b0001, &mut sheet), counts(&sheet)), ((6, 0), [3, 3]));
    assert_eq!((check(&mut table, 0b0111, &mut sheet), counts(&sheet)), ((0, 1), [0, 0]));
    assert_eq!(write(&mut table, 0b0111, &mut sheet, 2).0, (0, 7));
    assert_eq!(counts(&sheet), [0, 1]);
}

/// 18 and 19 come after 7 and before 8; the number called is told.
#[test]
fn the_order_of_questions() {
    let (mut table, mut sheet) = (founded(), sheet(0));
    let before = sheet.clone();
    for club in [0, 17, 257, (1 << 32) + 1, u64::MAX] {
        assert_eq!(write(&mut table, 0b0011, &mut sheet, club), ((6, 0), 4), "no quorum");
        assert_eq!(write(&mut table, ALL, &mut sheet, club), ((18, 0), 3), "the own choice");
        assert_eq!(write(&mut table, 0b1011, &mut sheet, club), ((18, 0), 4), "all");
    }
    assert_eq!(sheet, before);
    assert_eq!([1, 2].map(|_| write(&mut table, ALL, &mut sheet, 1).0), [(0, 1), (0, 2)]);
    assert_eq!(write(&mut table, ALL, &mut sheet, 1), ((19, 0), 3));
    assert_eq!(write(&mut table, 0b1011, &mut sheet, 1), ((19, 0), 4));
    // A write at its limit.
    for row in 0..4 {
        let part = Table::length(row, 2, 1) + ROW_HEADER;
        table[part + 4..part + 8].copy_from_slice(&LIMIT.to_le_bytes());
    }
    let counted = sheet.clone();
    assert_eq!(write(&mut table, ALL, &mut sheet, 1), ((19, 0), 3));
    assert_eq!(write(&mut table, ALL, &mut sheet, 3), ((18, 0), 3));
    assert_eq!(write(&mut table, ALL, &mut sheet, 2), ((8, 0), 3));
    assert_eq!(sheet, counted);
}

/// A sheet that breaks a rule is refused by 1 before anything else is asked, of a check that changes nothing too.
#[test]
fn a_wrong_sheet() {
    let (mut table, right) = (founded(), sheet(1));
    let mut wrong = vec![Vec::new(), right[..195].to_vec(), [&right[..], &[0]].concat()];
    for (at, byte) in [(0, 4), (8, 4), (192, 4), (195, 1), (7, 1), (12, 6)] {
        wrong.push(right.clone());
        wrong.last_mut().expect("just put")[at] = byte;
    }
    let before = table.clone();
    for sheet in wrong {
        for answering in [ALL, 0b0111, 0b0001, 0b1_1111, 0] {
            let mut lent = sheet.clone();
            assert_eq!(write(&mut table, answering, &mut lent, 1), ((1, 0), 0));
            assert_eq!(check(&mut table, answering, &mut lent), (1, 0));
            assert_eq!(lent, sheet);
        }
    }
    assert_eq!(table, before);
}

/// A club below its assured number is not turned down, whatever the others have.
#[test]
fn what_is_assured_comes_through() {
    let (mut table, mut sheet) = (founded(), sheet(2));
    for _ in 0..5 {
        assert_eq!(write(&mut table, ALL, &mut sheet, 2).0 .0, 0);
    }
    assert_eq!(write(&mut table, ALL, &mut sheet, 2).0, (18, 0));
    assert_eq!([1, 1].map(|club| write(&mut table, ALL, &mut sheet, club).0 .0), [0, 0]);
    assert_eq!((write(&mut table, ALL, &mut sheet, 1).0, counts(&sheet)), ((19, 0), [2, 5]));
}
