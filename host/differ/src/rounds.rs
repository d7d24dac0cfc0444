//! Lists of orders: orders that may well be done, some at and beyond their limits, and lists that differ only where nobody reads.

use crate::random::Random;
use crate::tables::Picture;
use reference::round::{Order, LONGEST_ORDERED, MOST_ORDERS, ORDER};
use reference::{rows, MAX_FILES};

/// The numbers of orders that must come.
pub const COUNTS: [usize; 7] = [0, 1, 2, 63, 64, 65, 70];

/// How many orders a round has: mostly a few, at times about as many as are done.
pub fn count(random: &mut Random) -> usize {
    let few = random.between(3, 7);
    match random.between(0, 29) {
        0..=2 => 0,
        3..=6 => 1,
        7..=11 => 2,
        12 | 13 => random.pick(&[63, 64, 65, 70, 200]),
        _ => few,
    }
}

/// An order that may well be done, by one of these rows and mostly for one of a few clubs.
pub fn order(random: &mut Random, table: &Picture, coordinators: u64) -> Order {
    let offset = random.between(0, table.file_len - 1);
    let rest = (table.file_len - offset).min(LONGEST_ORDERED);
    let any = random.between(1, rest);
    let length = random.pick(&[1, rest, any]);
    let mut patch = [0; 8];
    random.fill(&mut patch);
    let club = random.between(1, 16) as u8;
    Order {
        coordinator: random.row(coordinators) as u8,
        length: length as u8,
        offset: offset as u16,
        patch,
        file: random.between(1, table.files) as u8,
        club: random.pick(&[1, 1, 2, 16, club]),
    }
}

/// The same order with each of its fields at or beyond its limits.
pub fn wrong(order: Order, table: &Picture) -> Vec<Order> {
    let (used, files, length) = (table.used as u8, table.files as u8, table.file_len as u16);
    // The first and the last used row may not answer.
    let coordinators = [0, 255, used + 1, 1, used].map(|coordinator| Order { coordinator, ..order });
    let lengths = [0, 9, 255].map(|length| Order { length, ..order });
    let offsets = [65_535, length, length - 1].map(|offset| Order { offset, ..order });
    let absent = [0, MAX_FILES as u8 + 1, 255, files + 1].map(|file| Order { file, ..order });
    let clubs = [0, 17, 255].map(|club| Order { club, ..order });
    // Of two things that are wrong, the one that is asked for first counts.
    let both = [
        Order { coordinator: 0, length: 9, ..order },
        Order { file: 0, length: 0, ..order },
        Order { length: 9, club: 17, ..order },
    ];
    [&coordinators[..], &lengths, &offsets, &absent, &clubs, &both].concat()
}

/// The orders in bytes, with anything where nobody reads.
pub fn list(random: &mut Random, orders: &[Order]) -> Vec<u8> {
    let mut list: Vec<u8> = orders.iter().flat_map(Order::bytes).collect();
    list.chunks_mut(ORDER).for_each(|order| random.fill(&mut order[ORDER - 2..]));
    list
}

/// A list that differs only where nobody reads, after a round that gave this result, these rows being used if its table is well formed:
/// in the last bytes of an order and in its patch behind the length; behind the order that was refused, and behind the 64th; and
/// everywhere, if no order was looked at.
pub fn unread(random: &mut Random, orders: &[u8], result: u64, used: Option<u64>, answering: u64) -> Vec<u8> {
    let (refusal, done) = (result >> 32, result as u32 as usize);
    let by_rows = used.is_some_and(|used| answering & !used != 0);
    if refusal == 1 || refusal == 2 && by_rows {
        let length = random.between(0, 3 * ORDER);
        return random.bytes(length);
    }
    if !orders.len().is_multiple_of(ORDER) {
        let (count, over) = (random.between(0, 3), random.between(1, ORDER - 1));
        return random.bytes(ORDER * count + over);
    }
    let mut other = orders.to_vec();
    let most = MOST_ORDERS as usize;
    let read = if refusal == 0 { orders.len() / ORDER } else { (done + 1).min(most) };
    for order in other.chunks_mut(ORDER).take(read) {
        let length = Order::read(order.first_chunk().expect("a whole order")).written().len();
        random.fill(&mut order[4 + length..12]);
        random.fill(&mut order[ORDER - 2..]);
    }
    if refusal != 0 {
        other.truncate(ORDER * read);
        let behind = random.between(usize::from(done == most), 3);
        other.extend(random.bytes(ORDER * behind));
    }
    other
}

/// Rows that may coordinate the orders of a round: one of them, or any that answers.
pub fn coordinators(random: &mut Random, coordinator: usize, answering: u64, used: u64) -> u64 {
    let any = Some(answering & used).filter(|&any| any != 0 && random.chance(1, 3));
    any.unwrap_or(rows::only(coordinator))
}

#[cfg(test)]
mod tests {
    use super::*;
    use crate::tables::{self, Size};
    use reference::{Engine, Sheet};

    /// The twin of a list is answered alike, and has other bytes wherever that can be.
    #[test]
    fn lists_that_differ_where_nobody_reads() {
        let (engine, mut alike, mut longer, mut shorter) = (Engine::default(), 0, 0, 0);
        for case in 0..4_000 {
            let mut random = Random::new(16, case);
            let size = Size { file_len: 9, files: 2, ..Size::pick(&mut random) };
            let bytes = tables::well_formed(&mut random, size);
            let table = Picture::of(&bytes).expect("well formed");
            let answering = random.pick(&[table.all_used(), table.all_used() | 1 << 63, 0]);
            let count = count(&mut random);
            let mut orders: Vec<Order> =
                (0..count).map(|_| order(&mut random, &table, table.all_used())).collect();
            if count > 0 && random.chance(1, 2) {
                let place = random.between(0, count - 1);
                orders[place] = random.pick(&wrong(orders[place], &table));
            }
            let mut list = list(&mut random, &orders);
            list.resize(list.len() + random.pick(&[0, 0, 0, 1, 15]), 7);
            let made = |list: &[u8]| {
                let (mut table, mut sheet) = (bytes.clone(), Sheet::OPEN.bytes());
                (engine.round(&mut table, answering, list, &mut sheet), table, sheet)
            };
            let answer = made(&list);
            let other = unread(&mut random, &list, answer.0, Some(table.all_used()), answering);
            assert!(made(&other) == answer, "case {case}");
            alike += usize::from(other != list);
            longer += usize::from(other.len() > list.len());
            shorter += usize::from(other.len() < list.len());
        }
        assert!(alike > 3_000 && longer > 300 && shorter > 300, "{alike} {longer} {shorter}");
    }
}
