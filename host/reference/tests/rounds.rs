//! Rounds, worked out by hand from the papers, and against single writes.

use reference::round::{Order, ORDER};
use reference::sheet::{Line, CLUBS};
use reference::{Blunder, Engine, Rules, Sheet, Table, LIMIT, ROW_HEADER};

const ENGINE: Engine = Engine { rules: Rules::Newest, blunder: None };
const ALL: u64 = 0b1111;
/// The length of each file, and how many there are.
const LENGTH: usize = 9;
const FILES: usize = 2;

/// Four machines of one county, columns {1, 3} and {2, 4}, in a table of six rows.
fn founded() -> Vec<u8> {
    let mut table = vec![0; Table::length(6, LENGTH, FILES)];
    let names = [10, 0, 20, 0, 30, 0, 40, 0];
    assert_eq!(ENGINE.found(&mut table, 6, LENGTH as u64, &names, 0, FILES as u64, &[1; 4]), 4);
    table
}

/// An order by row 1 for the first byte of the first file, by club 1.
const ONE: Order =
    Order { coordinator: 1, length: 1, offset: 0, patch: [7, 1, 2, 3, 4, 5, 6, 8], file: 1, club: 1 };

fn list(orders: &[Order]) -> Vec<u8> {
    orders.iter().flat_map(Order::bytes).collect()
}

/// Refusal number and value.
fn split(result: u64) -> (u64, u64) {
    (result >> 32, result & 0xffff_ffff)
}

fn round(table: &mut [u8], answering: u64, orders: &[u8], sheet: &mut [u8]) -> (u64, u64) {
    split(ENGINE.round(table, answering, orders, sheet))
}

/// What the writes of the orders make of the table and the sheet, one after the other up to the first refusal.
fn singly(table: &mut [u8], answering: u64, orders: &[Order], sheet: &mut [u8]) -> (u64, u64) {
    for (done, order) in (0..).zip(orders) {
        let (c, offset, file, club) =
            (order.coordinator.into(), order.offset.into(), order.file.into(), order.club.into());
        let result = ENGINE.write(table, c, answering, offset, order.written(), &mut [0], file, sheet, club);
        if result >> 32 != 0 {
            return (result >> 32, done);
        }
    }
    (0, orders.len() as u64)
}

/// The round gives and leaves what its writes do.
fn agrees(table: &[u8], answering: u64, orders: &[Order], sheet: &[u8]) -> (u64, u64) {
    let (mut entered, mut lent) = (table.to_vec(), sheet.to_vec());
    let (mut written, mut counted) = (table.to_vec(), sheet.to_vec());
    let answer = round(&mut entered, answering, &list(orders), &mut lent);
    assert_eq!(answer, singly(&mut written, answering, orders, &mut counted), "{orders:?}");
    assert!(entered == written && lent == counted, "{orders:?}");
    answer
}

/// The contents of a file in the first row, and its version.
fn file(table: &[u8], file: usize) -> (Vec<u8>, u32) {
    let judged = Table::decode(table).expect("well formed");
    (judged.contents(table, 1, file).to_vec(), judged.part(table, 1, file).version)
}

fn open() -> Vec<u8> {
    Sheet::OPEN.bytes().to_vec()
}

/// Two writes assured to club 1 and none to club 2, one that both share.
fn tight() -> Vec<u8> {
    let mut sheet = Sheet { lines: [Line::default(); CLUBS], total: 3 };
    sheet.lines[0] = Line { assured: 2, ceiling: 3, count: 0 };
    sheet.lines[1] = Line { assured: 0, ceiling: 5, count: 0 };
    sheet.bytes().to_vec()
}

fn counts(sheet: &[u8]) -> [u32; 2] {
    let sheet = Sheet::judge(sheet).expect("it is right");
    [0, 1].map(|place| sheet.lines[place].count)
}

#[test]
fn orders_are_done_one_after_the_other() {
    let (mut table, mut sheet) = (founded(), open());
    let orders = [
        Order { length: 8, ..ONE },
        Order { coordinator: 3, length: 2, offset: 7, ..ONE },
        Order { file: 2, club: 2, offset: 8, ..ONE },
        Order { patch: [9; 8], ..ONE },
    ];
    assert_eq!(round(&mut table, ALL, &list(&orders), &mut sheet), (0, 4));
    assert_eq!(file(&table, 1), (vec![9, 1, 2, 3, 4, 5, 6, 7, 1], 3));
    assert_eq!(file(&table, 2), (vec![0, 0, 0, 0, 0, 0, 0, 0, 7], 1));
    assert_eq!(counts(&sheet), [3, 1]);
    agrees(&founded(), ALL, &orders, &open());
}

/// What was done before a refusal stays, and its number is told.
#[test]
fn the_first_refusal_ends_a_round() {
    let wrong = [
        (Order { coordinator: 0, ..ONE }, 2),
        (Order { coordinator: 5, ..ONE }, 2),
        (Order { coordinator: 255, ..ONE }, 2),
        (Order { coordinator: 4, ..ONE }, 3),
        (Order { file: 0, ..ONE }, 16),
        (Order { file: 3, ..ONE }, 16),
        (Order { file: 9, ..ONE }, 16),
        (Order { length: 0, ..ONE }, 4),
        (Order { length: 9, ..ONE }, 4),
        (Order { length: 255, ..ONE }, 4),
        (Order { offset: 9, ..ONE }, 4),
        (Order { offset: 2, length: 8, ..ONE }, 4),
        (Order { offset: 65_535, ..ONE }, 4),
        (Order { club: 0, ..ONE }, 18),
        (Order { club: 17, ..ONE }, 18),
    ];
    for (order, refusal) in wrong {
        for before in [0, 1, 2, 63] {
            let mut orders = vec![ONE; before];
            orders.extend([order, Order { patch: [9; 8], ..ONE }]);
            assert_eq!(agrees(&founded(), 0b0111, &orders, &open()), (refusal, before as u64));
        }
    }
    let (mut table, mut sheet) = (founded(), open());
    let orders = [ONE, Order { coordinator: 255, ..ONE }, Order { patch: [9; 8], ..ONE }];
    assert_eq!(round(&mut table, ALL, &list(&orders), &mut sheet), (2, 1));
    assert_eq!((file(&table, 1), counts(&sheet)), ((vec![7, 0, 0, 0, 0, 0, 0, 0, 0], 1), [1, 0]));
}

/// A wrong length is refused where an order puts question 4, after 2, 3 and 16, and before 6.
#[test]
fn a_wrong_length_waits_for_its_question() {
    for length in [0, 9, 255] {
        let order = Order { length, ..ONE };
        let asked = |order, answering| agrees(&founded(), answering, &[ONE, order], &open());
        assert_eq!(asked(Order { coordinator: 7, ..order }, ALL), (2, 1));
        assert_eq!(asked(Order { coordinator: 4, ..order }, 0b0111), (3, 1));
        assert_eq!(asked(Order { file: 3, ..order }, ALL), (16, 1));
        assert_eq!(asked(Order { club: 17, ..order }, ALL), (4, 1));
        assert_eq!(agrees(&founded(), 0b0001, &[order], &open()), (4, 0), "no quorum");
    }
}

/// Sixty-four are done; a 65th is refused unread, and so are any behind it.
#[test]
fn at_most_sixty_four() {
    for count in [1, 2, 63, 64] {
        assert_eq!(agrees(&founded(), ALL, &vec![ONE; count], &open()), (0, count as u64));
    }
    let (mut table, mut sheet) = (founded(), open());
    assert_eq!(round(&mut table, ALL, &list(&[ONE; 64]), &mut sheet), (0, 64));
    for (behind, byte) in [(1, 0), (1, 0xff), (6, 1), (200, 9)] {
        let (mut entered, mut lent) = (founded(), open());
        let orders = [list(&[ONE; 64]), vec![byte; behind * ORDER]].concat();
        assert_eq!(round(&mut entered, ALL, &orders, &mut lent), (4, 64));
        assert!(entered == table && lent == sheet);
    }
    // A refusal among the first 64 comes first.
    let orders = [vec![ONE; 63], vec![Order { club: 17, ..ONE }; 2]].concat();
    assert_eq!(agrees(&founded(), ALL, &orders, &open()), (18, 63));
}

/// Each done order counts at once: a later one meets 18 or 19.
#[test]
fn counts_between_orders() {
    let by = |clubs: &[u8]| clubs.iter().map(|&club| Order { club, ..ONE }).collect::<Vec<_>>();
    for (clubs, answer) in [
        (&[1, 1, 1][..], (0, 3)),
        (&[1, 1, 1, 1], (18, 3)),
        (&[1, 1, 2, 1], (19, 3)),
        (&[2, 2], (19, 1)),
        (&[2, 1, 1, 2], (19, 3)),
        (&[1, 3, 1], (18, 1)),
    ] {
        assert_eq!(agrees(&founded(), ALL, &by(clubs), &tight()), answer, "{clubs:?}");
    }
    let (mut table, mut sheet) = (founded(), tight());
    assert_eq!(round(&mut table, ALL, &list(&by(&[2, 1, 2, 1])), &mut sheet), (19, 2));
    assert_eq!((counts(&sheet), file(&table, 1).1), ([1, 1], 2));
}

/// No quorum, none current, and the limit of versions.
#[test]
fn refusals_by_the_set() {
    assert_eq!(agrees(&founded(), 0b0011, &[ONE, ONE], &open()), (6, 0));
    let mut table = founded();
    for answering in [0b0111, 0b1011] {
        let result = ENGINE.write(&mut table, 1, answering, 0, &[1], &mut [0], 1, &mut open(), 1);
        assert_eq!(result >> 32, 0);
    }
    assert_eq!(split(ENGINE.check(&mut table, 1, 0b1101, &mut open())), (0, 1));
    // Rows 3 and 4 are behind in the first file alone.
    let other = Order { coordinator: 3, file: 2, ..ONE };
    assert_eq!(agrees(&table, 0b1100, &[other, Order { file: 1, ..other }], &open()), (7, 1));
    let mut table = founded();
    for row in 0..4 {
        let part = Table::length(row, LENGTH, FILES) + ROW_HEADER;
        table[part + 4..part + 8].copy_from_slice(&(LIMIT - 2).to_le_bytes());
    }
    let orders = [ONE, ONE, ONE, ONE];
    assert_eq!(agrees(&table, ALL, &orders, &open()), (8, 2));
    assert_eq!(agrees(&table, ALL, &[ONE, ONE, Order { club: 0, ..ONE }], &open()), (18, 2));
}

/// An empty list meets question 1, for table and sheet, and 2 for the rows that answered; then it is done, nobody answering too.
#[test]
fn an_empty_list() {
    let (table, sheet) = (founded(), open());
    let asked = |table: &[u8], answering, list: &[u8], sheet: &[u8]| {
        let (mut after, mut lent) = (table.to_vec(), sheet.to_vec());
        let answer = round(&mut after, answering, list, &mut lent);
        assert!(after == table && lent == sheet);
        answer
    };
    let mut malformed = table.clone();
    malformed[0] = 4;
    for answering in [0, 1, 0b0110, ALL] {
        assert_eq!(asked(&table, answering, &[], &sheet), (0, 0));
        assert_eq!(asked(&table, answering, &[], &sheet[..195]), (1, 0));
        assert_eq!(asked(&malformed, answering, &[], &sheet), (1, 0));
    }
    for answering in [0b1_0000, 0b10_1111, 1 << 63, u64::MAX] {
        assert_eq!(asked(&table, answering, &[], &sheet), (2, 0));
        assert_eq!(asked(&table, answering, &[], &[]), (1, 0));
    }
}

/// A list that ends inside an order meets the questions of an empty one, however many orders it has; then it is refused by 4, and none
/// is done.
#[test]
fn a_list_that_ends_inside_an_order() {
    let (table, sheet) = (founded(), open());
    let mut wrong = sheet.clone();
    wrong[195] = 1;
    for orders in [0, 1, 2, 63, 64, 65, 70] {
        for over in 1..ORDER {
            let mut orders = list(&vec![ONE; orders]);
            orders.resize(orders.len() + over, 1);
            for (answering, sheet, refusal) in
                [(ALL, &sheet, 4), (0, &sheet, 4), (1 << 4, &sheet, 2), (1 << 4, &wrong, 1), (ALL, &wrong, 1)]
            {
                let (mut after, mut lent) = (table.clone(), sheet.clone());
                assert_eq!(round(&mut after, answering, &orders, &mut lent), (refusal, 0));
                assert!(after == table && lent == *sheet);
            }
        }
    }
}

/// A sheet or a table that breaks a rule is refused by 1 with value 0, before an order is looked at.
#[test]
fn question_1_comes_first() {
    let (table, sheet) = (founded(), open());
    let mut malformed = table.clone();
    malformed[2] = 7;
    let orders = [Order { coordinator: 0, length: 0, ..ONE }, ONE];
    assert_eq!(agrees(&malformed, ALL, &orders, &sheet), (1, 0));
    for wrong in [&sheet[..0], &sheet[..195], &[&sheet[..], &[0]].concat()] {
        assert_eq!(agrees(&table, ALL, &orders, wrong), (1, 0));
        assert_eq!(agrees(&table, 1 << 63, &[ONE], wrong), (1, 0));
    }
    assert_eq!(agrees(&table, 0, &[ONE], &sheet), (3, 0));
    assert_eq!(agrees(&table, 1 << 63, &[ONE], &sheet), (2, 0));
}

/// The two last bytes of an order, its patch behind the length, and what comes behind a refused order.
#[test]
fn bytes_that_nobody_reads() {
    let (mut table, mut sheet) = (founded(), open());
    let refused = Order { length: 9, ..ONE };
    let plain = list(&[Order { length: 3, ..ONE }, ONE, refused, ONE]);
    assert_eq!(round(&mut table, ALL, &plain, &mut sheet), (4, 2));
    let unread = [7..12, 14..16, 16 + 5..16 + 12, 16 + 14..32, 32 + 4..32 + 12, 32 + 14..64];
    for at in unread.into_iter().flatten() {
        let mut other = plain.clone();
        other[at] ^= 0xff;
        let (mut entered, mut lent) = (founded(), open());
        assert_eq!(round(&mut entered, ALL, &other, &mut lent), (4, 2), "byte {at}");
        assert!(entered == table && lent == sheet, "byte {at}");
    }
}

/// Each of these goes wrong on a round that is plain to see.
#[test]
fn blunders() {
    let by = |orders: &[Order]| list(orders);
    let [other_file, other_club] = [Order { file: 2, ..ONE }, Order { club: 2, ..ONE }];
    let nobody = Order { coordinator: 0, ..ONE };
    let cases = [
        (Blunder::SixtyFifthDone, by(&[ONE; 65]), open()),
        (Blunder::RefusedRoundsTellNone, by(&[ONE, nobody]), open()),
        (Blunder::BrokenListBegun, [by(&[ONE]), vec![0]].concat(), open()),
        (Blunder::BrokenListFirst, vec![0], Vec::new()),
        (Blunder::NineAsEight, by(&[Order { length: 9, ..ONE }]), open()),
        (Blunder::OrdersLengthFirst, by(&[Order { length: 9, ..nobody }]), open()),
        (Blunder::FirstOrdersFile, by(&[ONE, other_file]), open()),
        (Blunder::FirstOrdersClub, by(&[ONE, other_club]), open()),
        (Blunder::EmptyRoundsSheet, Vec::new(), Vec::new()),
        (Blunder::RoundGoesOn, by(&[nobody, ONE]), open()),
        (Blunder::RoundUndone, by(&[ONE, nobody]), open()),
        (Blunder::CountedAtTheEnd, by(&[other_club, other_club]), tight()),
    ];
    for (blunder, orders, sheet) in cases {
        let [right, wrong] = [None, Some(blunder)].map(|blunder| {
            let (mut table, mut sheet) = (founded(), sheet.clone());
            let engine = Engine { blunder, ..ENGINE };
            (engine.round(&mut table, ALL, &orders, &mut sheet), table, sheet)
        });
        assert!(right != wrong, "{}", blunder.name());
    }
}
