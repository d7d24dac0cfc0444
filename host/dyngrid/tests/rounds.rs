//! Rounds: as their writes made singly, up to the first refusal; what is done stays, and is told.

mod random;

use dyngrid::{raw, Allowance, Call, NotAnOrder, Order, Refusal, Rows, Shape, Sheet, Stopped, Table};
use random::Random;

const MOST: usize = 64;

fn table(machines: u16, files: usize) -> Table {
    let names: Vec<u16> = (1..=machines).map(|name| 10 * name).collect();
    Table::found_group(names.len(), 16, &names, Shape::Wide, files).expect("a plain founding")
}

fn order(coordinator: usize, offset: usize, patch: &[u8]) -> Order {
    Order::new(coordinator, offset, patch).expect("1 to 8 bytes")
}

/// The writes of a round made one by one, up to the first refusal: how many were done, and that refusal.
fn singly(table: &mut Table, sheet: &mut Sheet, up: Rows, orders: &[Order]) -> Result<usize, Stopped> {
    for (done, order) in orders.iter().enumerate() {
        if done == MOST {
            return Err(Stopped { done, refusal: Refusal::OutOfRange });
        }
        let (club, by) = (order.club(), order.coordinator());
        let mut file = table.file_mut(order.file());
        let answer = file.write_for(club, sheet, by, up, order.offset(), order.patch());
        answer.map_err(|refused| Stopped { done, refusal: refused.refusal })?;
    }
    Ok(orders.len())
}

/// The refusal number and the value of a round of any bytes, and the table and the sheet after it.
fn in_bytes(table: &Table, sheet: &[u8], up: u64, orders: &[u8]) -> (u64, u64, Vec<u8>, Vec<u8>) {
    let (mut bytes, mut lent) = (table.as_bytes().to_vec(), sheet.to_vec());
    // SAFETY: the slices are live for the call, and all are different ones.
    let result = unsafe {
        raw::grid_round(
            bytes.as_mut_ptr(),
            bytes.len(),
            up,
            orders.as_ptr(),
            orders.len(),
            lent.as_mut_ptr(),
            lent.len(),
        )
    };
    (result >> 32, result & 0xffff_ffff, bytes, lent)
}

/// Random rounds on random tables, many of them with an order that no table takes.
#[test]
fn a_round_is_its_writes() {
    let (mut all, mut stopped) = (0, std::collections::BTreeMap::new());
    for seed in 1..=400 {
        let mut random = Random::new(seed);
        let machines = 1 + random.below(9);
        let mut one = table(machines as u16, 2);
        let clubs: Vec<Allowance> = (0..3)
            .map(|_| (random.below(9) as u32, random.below(40) as u32))
            .map(|(assured, more)| Allowance { assured, ceiling: assured + more })
            .collect();
        let assured: u32 = clubs.iter().map(|club| club.assured).sum();
        let mut lent = Sheet::new(&clubs, assured + random.below(60) as u32).expect("it keeps every rule");
        let (mut other, mut counted) = (one.clone(), lent.clone());
        for _ in 0..6 {
            let rare = |random: &mut Random, often: usize, rarely: &[usize]| match random.below(60) {
                0 => rarely[random.below(rarely.len())],
                _ => often,
            };
            let up = match random.below(6) {
                0 => Rows::from_bits(random.below(1 << machines) as u64),
                _ => Rows::first(machines),
            };
            let orders: Vec<Order> = (0..random.below(20))
                .map(|_| {
                    let (by, at) = (1 + random.below(machines), random.below(9));
                    let (by, at) = (
                        rare(&mut random, by, &[0, 64, 255, 256, 1 << 40]),
                        rare(&mut random, at, &[15, 4096, 65_536]),
                    );
                    let (file, club) = (1 + random.below(2), 1 + random.below(2));
                    let (file, club) =
                        (rare(&mut random, file, &[0, 3, 257]), rare(&mut random, club, &[0, 3, 17, 257]));
                    let patch = [random.below(256) as u8; 8];
                    order(by, at, &patch[..1 + random.below(7)]).in_file(file).by_club(club)
                })
                .collect();
            let answer = one.round_with(&mut lent, up, &orders);
            assert_eq!(answer, singly(&mut other, &mut counted, up, &orders), "seed {seed}: {orders:?}");
            assert!(one == other && lent == counted, "seed {seed}: {orders:?}");
            match answer {
                Ok(_) => all += 1,
                Err(Stopped { refusal, .. }) => *stopped.entry(refusal.number()).or_insert(0) += 1,
            }
        }
    }
    println!("{all} done, and refused by {stopped:?}");
    assert!(all > 300, "{all}");
    assert!([2, 3, 4, 6, 16, 18, 19].iter().all(|number| stopped.contains_key(number)), "{stopped:?}");
}

#[test]
fn a_refusal_in_the_middle_leaves_what_is_done() {
    let mut four = table(4, 1);
    let orders = [
        order(1, 0, b"1-0"),
        order(2, 4, b"0-1"),
        order(1, 14, b"1/2"),
        order(1, 8, b"1/2"),
        order(9, 0, b"!"),
    ];
    let stopped = four.round(Rows::first(4), &orders).expect_err("the third ends beyond the file");
    assert_eq!(stopped, Stopped { done: 2, refusal: Refusal::OutOfRange });
    let (contents, read) = four.file(1).read_whole(4, Rows::first(4)).expect("all answer");
    assert_eq!((&contents[..], read.version), (&b"1-0\x000-1\0\0\0\0\0\0\0\0\0"[..], 2));
    // It is entered again without what is done, the third mended, and stops at the fifth.
    let rest = [order(1, 13, b"1/2"), orders[3], orders[4]];
    let stopped = four.round(Rows::first(4), &rest).expect_err("there is no row 9");
    assert_eq!(stopped, Stopped { done: 2, refusal: Refusal::NoSuchRow });
    assert_eq!(Refusal::from(stopped), Refusal::NoSuchRow);
    assert_eq!(
        stopped.to_string(),
        "2 orders are done; order 3 is refused by 2: it names a machine that is not in the table, or sends from a machine to \
         itself; name another."
    );
    let one = Stopped { done: 1, ..stopped };
    assert!(one.to_string().starts_with("1 order is done; order 2 is refused by 2: "));
    assert!(stopped.refusal.notice(Call::Round, 90).as_str().starts_with("Call 07 by machine 00090, "));
}

#[test]
fn a_round_of_no_order() {
    let four = table(4, 1);
    let sheet = Sheet::open();
    for up in [Rows::EMPTY, Rows::first(1), Rows::first(4)] {
        let mut left = four.clone();
        assert_eq!((left.round(up, &[]), &left), (Ok(0), &four));
    }
    let none = Stopped { done: 0, refusal: Refusal::NoSuchRow };
    assert_eq!(four.clone().round(Rows::of(&[5]).expect("a row"), &[]), Err(none));
    let malformed = |sheet: &[u8]| in_bytes(&four, sheet, 0x1f, &[]).0;
    assert_eq!([malformed(sheet.as_bytes()), malformed(&[1; 196]), malformed(&[0; 195])], [2, 1, 1]);
}

#[test]
fn sixty_four_orders_and_one_more() {
    let order_of = |place: usize| order(1 + place % 4, place % 16, &[place as u8]);
    let orders: Vec<Order> = (0..70).map(order_of).collect();
    let up = Rows::first(4);
    for count in [1, 63, 64] {
        let mut four = table(4, 1);
        assert_eq!(four.round(up, &orders[..count]), Ok(count));
        assert_eq!(four.file(1).copy(1).map(|copy| copy.version as usize), Some(count));
    }
    let mut full = table(4, 1);
    assert_eq!(full.round(up, &orders[..64]), Ok(64));
    // The 65th is not looked at, whatever it is; the 64 stay.
    for last in [orders[64], order(99, 9999, b"?").in_file(9).by_club(99)] {
        for count in [65, 70] {
            let mut more = orders[..count].to_vec();
            more[64] = last;
            let mut four = table(4, 1);
            let refused = Stopped { done: 64, refusal: Refusal::OutOfRange };
            assert_eq!((four.round(up, &more), &four), (Err(refused), &full));
        }
    }
    // One that is refused before comes first.
    let mut early = orders.clone();
    early[40] = early[40].in_file(2);
    let refused = Stopped { done: 40, refusal: Refusal::NoSuchFile };
    assert_eq!(table(4, 1).round(up, &early), Err(refused));
}

/// Clubs 1 and 2 have two assured writes each, and one is shared: the round goes on until one of them has to share and cannot.
#[test]
fn counts_within_a_round() {
    let club = Allowance { assured: 2, ceiling: 9 };
    let mut sheet =
        Sheet::new(&[club, club, Allowance { assured: 0, ceiling: 1 }], 5).expect("it keeps every rule");
    let by = |club| order(1, 0, b"1-0").by_club(club);
    let mut four = table(4, 1);
    let up = Rows::first(4);
    let refused = |done, refusal| Err(Stopped { done, refusal });
    let round = [by(1), by(2), by(1), by(1), by(2), by(2), by(1)];
    assert_eq!(four.round_with(&mut sheet, up, &round), refused(5, Refusal::NoneLeftToShare));
    let made = |sheet: &Sheet| [1, 2, 3].map(|club| sheet.club(club).map_or(0, |club| club.made));
    assert_eq!(made(&sheet), [3, 2, 0]);
    // Refused as a whole, it counts for nobody.
    assert_eq!(four.round_with(&mut sheet, up, &[by(3), by(1)]), refused(0, Refusal::NoneLeftToShare));
    assert_eq!(four.round_with(&mut sheet, up, &[by(4)]), refused(0, Refusal::NoMoreWrites));
    assert_eq!(made(&sheet), [3, 2, 0]);
    // A changing check starts the counts anew; the ceiling of club 3 is one.
    four.check_with(&mut sheet, 1, Rows::first(3)).expect("a quorum answers");
    let up = Rows::first(3);
    assert_eq!(four.round_with(&mut sheet, up, &[by(3), by(3), by(1)]), refused(1, Refusal::NoMoreWrites));
    assert_eq!(four.round_with(&mut sheet, up, &[by(1), by(2), by(1), by(2)]), Ok(4));
    assert_eq!(made(&sheet), [2, 2, 1]);
    assert_eq!(four.file(1).copy(1).map(|copy| copy.version), Some(10));
}

/// Without a sheet nobody has a limit, whatever the club.
#[test]
fn no_sheet_no_limits() {
    let orders: Vec<Order> = (1..=16).map(|club| order(1, 0, &[club as u8]).by_club(club)).collect();
    assert_eq!(table(4, 1).round(Rows::first(4), &orders), Ok(16));
}

/// A round leaves files and rows that it does not name, and marks who misses its writes.
#[test]
fn files_and_rows_of_a_round() {
    let mut four = table(4, 3);
    let before = four.clone();
    let up = Rows::of(&[1, 2, 4]).expect("rows");
    assert_eq!(four.round(up, &[order(1, 0, b"1-0"), order(2, 0, b"0:47").in_file(3)]), Ok(2));
    assert!(four.changed(&before).is_subset(up));
    let versions = [1, 2, 3].map(|file| four.file(file).copy(1).map(|copy| copy.version));
    assert_eq!(versions, [Some(1), Some(0), Some(1)]);
    let window = four.file(3).window(2);
    assert_eq!(window.iter().map(|patch| patch.bytes).collect::<Vec<_>>(), [b"0:47"]);
}

/// In bytes: lists that end inside an order, lengths that no order has, and what is not read.
#[test]
fn orders_in_bytes() {
    let (four, sheet) = (table(4, 1), Sheet::open());
    let sheet = sheet.as_bytes();
    let orders: Vec<u8> =
        [order(1, 0, b"1-0"), order(2, 4, b"12345678")].iter().flat_map(Order::to_bytes).collect();
    assert_eq!(orders[..16], *b"\x01\x03\x00\x001-0\0\0\0\0\0\x01\x01\0\0");
    let (refusal, done, after, counted) = in_bytes(&four, sheet, 0xf, &orders);
    assert_eq!((refusal, done), (0, 2));
    // A list that ends inside an order: the questions of an empty one, then 4, and none is done.
    let long = orders.repeat(40);
    for length in (1..16).chain(17..32).chain([long.len() - 1, 1039, 1041]) {
        assert_eq!(
            in_bytes(&four, sheet, 0xf, &long[..length]),
            (4, 0, four.as_bytes().into(), sheet.into()),
            "{length}"
        );
        assert_eq!(in_bytes(&four, sheet, 0x1f, &long[..length]).0, 2);
        assert_eq!(in_bytes(&four, &[1; 196], 0x1f, &long[..length]).0, 1);
    }
    // What an order does not need is not read.
    for at in [7, 8, 11, 14, 15, 30, 31] {
        let mut other = orders.clone();
        other[at] = 0xff;
        assert_eq!(in_bytes(&four, sheet, 0xf, &other), (0, 2, after.clone(), counted.clone()), "byte {at}");
    }
    // A wrong length is 4, behind 2, 3 and 16 of that order, and before 6.
    for length in [0, 9, 255] {
        let wrong = |at: usize, value: u8, up: u64| {
            let mut other = orders.clone();
            (other[17], other[at]) = (length, value);
            let (refusal, done, ..) = in_bytes(&four, sheet, up, &other);
            (refusal, done)
        };
        assert_eq!([wrong(16, 2, 0xf), wrong(16, 255, 0xf), wrong(28, 2, 0xf)], [(4, 1), (2, 1), (16, 1)]);
        assert_eq!(wrong(16, 4, 0x7), (3, 1));
        assert_eq!(wrong(0, 2, 0x2), (6, 0));
    }
}

#[test]
fn orders_that_there_are_not() {
    assert_eq!(Order::new(1, 0, b"").map_err(|error| error.length), Err(0));
    assert_eq!(Order::new(1, 0, &[0; 9]).map_err(|error| error.length), Err(9));
    let told = |error: Result<Order, NotAnOrder>| error.map_err(|error| error.to_string());
    assert_eq!(
        told(Order::new(1, 0, b"")),
        Err("an order writes 1 to 8 bytes, and here are none: leave it out".into())
    );
    assert!(told(Order::new(1, 0, &[0; 4096])).is_err_and(|text| text.contains("here are 4096: split them")));
    assert_eq!(order(1, 2, b"3").to_string(), "1 byte at 2 of file 1, by row 1, for club 1");
    let order = order(usize::MAX, usize::MAX, b"12345678").in_file(300).by_club(256);
    assert_eq!(order.to_bytes(), *b"\xff\x08\xff\xff12345678\xff\xff\0\0");
    assert_eq!(
        (order.coordinator(), order.offset(), order.file(), order.club()),
        (usize::MAX, usize::MAX, 300, 256)
    );
}
