//! No call takes memory: the benchmark's yardstick must not waste time.

use reference::round::Order;
use reference::{rows, Engine, Rules, Sheet, Table};
use std::alloc::{GlobalAlloc, Layout, System};
use std::cell::Cell;

/// Counts what each thread takes.
struct Counting;

thread_local! {
    static TAKEN: Cell<usize> = const { Cell::new(0) };
}

// SAFETY: the system's allocator does the work.
unsafe impl GlobalAlloc for Counting {
    unsafe fn alloc(&self, layout: Layout) -> *mut u8 {
        TAKEN.set(TAKEN.get() + 1);
        System.alloc(layout)
    }

    unsafe fn dealloc(&self, pointer: *mut u8, layout: Layout) {
        System.dealloc(pointer, layout)
    }
}

#[global_allocator]
static COUNTING: Counting = Counting;

/// Sends a file from the first row that is not stale to row 64, which is.
fn send(engine: Engine, table: &mut [u8], file: usize) -> u64 {
    let judged = Table::decode(table).expect("well formed");
    let from = (1..=64).find(|&row| !judged.part(table, row, file).stale).expect("a current row");
    engine.send(table, from as u64, 64, rows::first(64), file as u64)
}

#[test]
fn no_call_takes_memory() {
    // In wide tables and in tall ones, of one file and of eight, of one county and of eight.
    for (choice, files) in [(0, 1), (1, 1), (0, 8), (1, 8)] {
        [1, 8].into_iter().for_each(|counties| every_call(choice, files, counties));
    }
}

/// Reads, writes and sends are of the last file.
fn every_call(choice: u64, files: usize, counties: u8) {
    let engine = Engine::default();
    let names: Vec<u8> = (1..=63u16).map(|rank| 10 * rank).flat_map(u16::to_le_bytes).collect();
    let counties: Vec<u8> = (0..63).map(|place| place % counties + 1).collect();
    let mut table = vec![0; Table::length(64, 100, files)];
    let (all, but_one) = (rows::first(64), rows::first(63));
    let (mut buffer, mut list, mut called) = ([0; 100], [0; 128], [0]);
    let [mut older, mut up] = [Rules::Windowless, Rules::OneFile].map(|rules| {
        let mut older = vec![0; rules.table_length(64, 100, 1)];
        assert_eq!(Engine { rules, ..engine }.found(&mut older, 64, 100, &names, choice, 1, &[]), 63);
        older
    });
    let last = files as u64;
    let order = Order { coordinator: 1, length: 8, patch: [3; 8], file: files as u8, club: 1, offset: 0 };
    let orders = [order.bytes(); 65];
    let before = TAKEN.get();
    let results = [
        engine.found(&mut table, 64, 100, &names, choice, last, &counties),
        engine.join(&mut table, 305, 1),
        engine.join(&mut table, 305, 1),
        engine.join(&mut table, 306, 1),
        engine.write(&mut table, 5, all, 0, &[1; 100], &mut called, last, &mut Sheet::OPEN.bytes(), 1),
        engine.read(&table, 64, all, 0, 100, &mut buffer, &mut called, last),
        engine.check(&mut table, 1, all, &mut Sheet::OPEN.bytes()),
        engine.check(&mut table, 1, but_one, &mut Sheet::OPEN.bytes()),
        engine.check(&mut table, 1, but_one, &mut Sheet::OPEN.bytes()),
        engine.write(&mut table, 1, but_one & !2, 0, &[2; 7], &mut called, last, &mut Sheet::OPEN.bytes(), 1),
        engine.write(
            &mut table,
            1,
            but_one & !2,
            0,
            &[2; 32],
            &mut called,
            last,
            &mut Sheet::OPEN.bytes(),
            1,
        ),
        engine.check(&mut table, 1, all, &mut Sheet::OPEN.bytes()),
        // By two patches, and after a long one whole.
        send(engine, &mut table, files),
        engine.check(&mut table, 1, but_one, &mut Sheet::OPEN.bytes()),
        engine.write(
            &mut table,
            1,
            but_one & !2,
            0,
            &[2; 33],
            &mut called,
            last,
            &mut Sheet::OPEN.bytes(),
            1,
        ),
        engine.check(&mut table, 1, all, &mut Sheet::OPEN.bytes()),
        send(engine, &mut table, files),
        engine.read(&table, 1, 1, 0, 100, &mut buffer, &mut called, last),
        engine.chart(9, 2 * choice, &mut list),
        engine.chart(10, 0, &mut list),
        engine.choice(&table, 64, choice, &mut list[..8]),
        engine.choice(&table, 64, 2, &mut list[..8]),
        engine.carry(&older, 3, &mut up),
        engine.carry(&up, 2, &mut older),
        engine.carry(&older, 3, &mut []),
        engine.carry(&[], 3, &mut []),
        engine.carry(&table, 3, &mut up),
        engine.read(&table, 1, all, 0, 100, &mut buffer, &mut called, last + 1),
        engine.round(&mut table, all, orders[..64].as_flattened(), &mut Sheet::OPEN.bytes()),
        engine.round(&mut table, all, orders.as_flattened(), &mut Sheet::OPEN.bytes()),
        engine.round(&mut table, all, &[], &mut Sheet::OPEN.bytes()),
        engine.round(&mut table, all, &[0; 17], &mut Sheet::OPEN.bytes()),
    ];
    assert_eq!(TAKEN.get(), before);
    let refused = [
        (2, 13),
        (3, 14),
        (17, 6),
        (19, 17),
        (21, 4),
        (24, 12),
        (25, 1),
        (26, 12),
        (27, 16),
        (29, 4),
        (31, 4),
    ];
    for (call, result) in results.into_iter().enumerate() {
        let number = refused.iter().find(|(refused, _)| *refused == call).map_or(0, |(_, number)| *number);
        assert_eq!(result >> 32, number, "call {call}");
    }
    assert!(TAKEN.get() > 0, "the count works");
}
