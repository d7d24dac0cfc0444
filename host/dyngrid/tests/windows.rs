//! The windows of copies, and what is shipped after a call, byte by byte.

// Lists of one range are meant as such.
#![allow(clippy::single_range_in_vec_init)]

mod random;

use dyngrid::{CopyView, Rows, Shape, Table};
use random::Random;
use std::ops::Range;

/// Where the contents of a row's only copy begin: behind the head of the row, and that of the copy.
const CONTENTS: usize = 32 + 12;
const RECORDS: usize = 576;
/// The most patches of a window, and the most bytes of one.
const PLACES: usize = 16;
const LONGEST: usize = 32;

fn rows(rows: &[usize]) -> Rows {
    Rows::of(rows).expect("rows")
}

fn four(file_len: usize) -> Table {
    Table::found(4, file_len, &[10, 20, 30, 40], Shape::Wide).expect("a plain founding")
}

fn row(table: &Table, row: usize) -> &[u8] {
    table.row_bytes(row).expect("in use")
}

fn copy(table: &Table, row: usize) -> CopyView {
    table.file(1).copy(row).expect("in use")
}

fn contents(table: &Table, number: usize) -> &[u8] {
    &row(table, number)[CONTENTS..CONTENTS + table.file_len()]
}

/// The window of a row as numbers and bytes of its own.
fn window(table: &Table, row: usize) -> Vec<(u32, usize, Vec<u8>)> {
    table
        .file(1)
        .window(row)
        .iter()
        .map(|patch| (patch.version, patch.offset, patch.bytes.to_vec()))
        .collect()
}

/// The table after a call, and the ranges of a row that it changed, which must say all and no more than they should.
fn changed(before: &Table, number: usize, call: impl FnOnce(&mut Table)) -> (Table, Vec<Range<usize>>) {
    let mut after = before.clone();
    call(&mut after);
    let ranges = after.changed_ranges(before, number);
    let (then, now) = (row(before, number), row(&after, number));
    let mut held = then.to_vec();
    for range in &ranges {
        assert!(then[range.start] != now[range.start] && then[range.end - 1] != now[range.end - 1]);
        held[range.clone()].copy_from_slice(&now[range.clone()]);
    }
    assert_eq!(held, now, "the ranges {ranges:?} make the row");
    assert!(ranges.windows(2).all(|two| two[0].end + 4 <= two[1].start), "{ranges:?}");
    assert_eq!(ranges.is_empty(), !after.changed(before).contains(number));
    (after, ranges)
}

fn bytes_in(ranges: &[Range<usize>]) -> usize {
    ranges.iter().map(Range::len).sum()
}

/// In histories the windows hold what was written: a plain list of patches for each row goes along. Rows of one version have one
/// window and one file, and a send leaves the file that a whole one would.
#[test]
fn windows_hold_the_latest_patches() {
    let (mut by_window, mut whole, mut full, mut emptied) = (0, 0, 0, 0);
    for seed in 1..=150_u64 {
        let mut random = Random::new(seed);
        let machines = 4 + random.below(3);
        let names: Vec<u16> = (1..=machines as u16).map(|rank| 40 * rank).collect();
        let shape = [Shape::Wide, Shape::Tall][random.below(2)];
        let mut table = Table::found(machines + 1, 64, &names, shape).expect("a plain founding");
        let mut kept: Vec<Vec<(u32, usize, Vec<u8>)>> = vec![Vec::new(); machines + 1];
        for step in 0..120 {
            let up = Rows::from_bits((random.below(1 << 30) | random.below(1 << 30)) as u64) & table.rows();
            let by = 1 + random.below(table.used());
            let before = table.clone();
            match random.below(12) {
                0 => _ = table.join(random.below(600) as u16),
                1 | 2 => _ = table.check(by, up | rows(&[by])),
                3 | 4 => {
                    for (from, to) in table.file(1).sends_from_newest() {
                        let [sender, receiver] = [from, to].map(|row| copy(&table, row));
                        let reached = sender.reaches_back_to() <= receiver.version;
                        (by_window, whole) = (by_window + u32::from(reached), whole + u32::from(!reached));
                        let all = table.rows();
                        table.file_mut(1).send(from, to, all).expect("it would be done");
                        kept[to - 1] = kept[from - 1].clone();
                        assert_eq!(contents(&table, from), contents(&table, to), "seed {seed}, step {step}");
                    }
                }
                _ => {
                    let length = match random.below(20) {
                        0 => LONGEST + 1,
                        1 => LONGEST,
                        _ => 1 + random.below(LONGEST),
                    };
                    let offset = random.below(64 - length + 1);
                    let patch: Vec<u8> = (0..length).map(|_| random.below(256) as u8).collect();
                    if let Ok(done) = table.file_mut(1).write(by, up | rows(&[by]), offset, &patch) {
                        for row in
                            table.rows().iter().filter(|&row| copy(&table, row).version == done.version)
                        {
                            let kept = &mut kept[row - 1];
                            kept.push((done.version, offset, patch.clone()));
                            if length > LONGEST {
                                kept.clear();
                                emptied += 1;
                            }
                            if kept.len() > PLACES {
                                kept.remove(0);
                                full += 1;
                            }
                        }
                    }
                }
            }
            for row in table.rows() {
                let (view, kept) = (copy(&table, row), &kept[row - 1]);
                assert_eq!(window(&table, row), *kept, "row {row}, seed {seed}, step {step}");
                assert_eq!(view.patches, kept.len());
                assert_eq!(view.reaches_back_to() as usize + kept.len(), view.version as usize);
                changed(&before, row.min(before.used()), |after| *after = table.clone());
                for other in table.rows().iter().filter(|&other| copy(&table, other).version == view.version)
                {
                    assert_eq!(window(&table, other), *kept);
                    assert_eq!(contents(&table, other), contents(&table, row));
                }
            }
        }
    }
    println!("{by_window} sends by window, {whole} whole, {full} patches left a full window, {emptied} windows emptied");
    assert!(by_window > 500 && whole > 50 && full > 1_000 && emptied > 200);
}

/// Row 4 is so many patches of three bytes behind, and marked.
fn behind(patches: usize) -> Table {
    let mut table = four(4096);
    for write in 0..patches {
        table.file_mut(1).write(1, rows(&[1, 2, 3]), 100 + 200 * write, b"1-0").expect("a quorum answers");
    }
    table.check(1, rows(&[1, 2, 4])).expect("a quorum answers");
    let [sender, receiver] = [1, 4].map(|row| copy(&table, row));
    assert_eq!((sender.version, receiver.version, receiver.stale), (patches as u32, 0, true));
    table
}

/// However long the file is, what changes in the receiver's row is its head, the patches, and their records.
#[test]
fn what_a_send_changes() {
    for patches in [1, 2, 15, 16, 17] {
        let table = behind(patches);
        let (after, ranges) = changed(&table, 4, |table| {
            _ = table.file_mut(1).send(1, 4, rows(&[1, 4])).expect("row 4 is marked")
        });
        assert_eq!(row(&after, 4)[CONTENTS..], row(&after, 1)[CONTENTS..]);
        let in_file = ranges.iter().filter(|range| (CONTENTS..CONTENTS + 4096).contains(&range.start));
        assert_eq!(in_file.map(Range::len).collect::<Vec<_>>(), vec![3; patches]);
        let (file, records) = (3 * patches, 7 * patches.min(PLACES));
        assert!(bytes_in(&ranges) <= file + records + 4 * PLACES + 12, "{patches}: {ranges:?}");
        if patches == 1 || patches == PLACES {
            let figure = format!(" | {}, in {} ranges |\n", bytes_in(&ranges), ranges.len());
            assert!(include_str!("../../../docs/RELAY.md").contains(&figure), "RELAY.md should have{figure}");
        }
    }
}

/// A send by window looks at nothing of the sender's but head and window: its machine need not give the file. A whole one does.
#[test]
fn a_send_by_window_does_not_look_at_the_senders_file() {
    for patches in [1, 2, 15, 16, 17, 18] {
        let table = behind(patches);
        let mut without_file = row(&table, 1).to_vec();
        without_file[CONTENTS..CONTENTS + 4096].fill(0);
        let answered = [(1, &without_file[..]), (4, row(&table, 4))];
        let mut gathered = Table::assemble(&table.frame(), answered).expect("rows of the table");
        assert_eq!(gathered.file_mut(1).send(1, 4, rows(&[1, 4])), Ok(patches as u32));
        let (after, _) = changed(&table, 4, |table| {
            _ = table.file_mut(1).send(1, 4, rows(&[1, 4])).expect("row 4 is marked")
        });
        let reaches = copy(&table, 1).reaches_back_to() == 0;
        assert_eq!(reaches, patches <= PLACES);
        assert_eq!(gathered.row_bytes(4) == after.row_bytes(4), reaches, "{patches} patches behind");
    }
}

#[test]
fn ranges_of_rows_that_come_and_go() {
    let founded = four(4);
    let length = CONTENTS + 4 + RECORDS;
    assert_eq!((founded.changed_ranges(&founded, 1), founded.changed_ranges(&founded, 5)), (vec![], vec![]));
    let mut table = Table::found(5, 4, &[10, 20, 30, 40], Shape::Wide).expect("a plain founding");
    let before = table.clone();
    table.join(50).expect("room");
    // The new row whole, and the link before it; in the other direction there is no such row.
    assert_eq!(
        [3, 4, 5].map(|row| table.changed_ranges(&before, row)),
        [vec![], vec![2..3], vec![0..length]]
    );
    assert_eq!((before.changed_ranges(&table, 5), table.changed_ranges(&before, 6)), (vec![], vec![]));
    let longer = four(5);
    assert_eq!(longer.changed_ranges(&founded, 1), [0..length + 1]);
    for row in [0, 5, 64, 65, usize::MAX] {
        assert!(founded.file(1).window(row).is_empty() && founded.changed_ranges(&longer, row).is_empty());
    }
}

/// Three bytes apart are one range, four are two.
#[test]
fn ranges_near_to_each_other_are_one() {
    let founded = Table::found(1, 16, &[10], Shape::Wide).expect("a plain founding");
    let written = |patch: &[u8]| {
        let (_, ranges) = changed(&founded, 1, |table| {
            _ = table.file_mut(1).write(1, rows(&[1]), 0, patch).expect("one is enough")
        });
        ranges
            .into_iter()
            .filter(|range| (CONTENTS..CONTENTS + 16).contains(&range.start))
            .collect::<Vec<_>>()
    };
    assert_eq!(written(&[1, 0, 0, 0, 1, 0, 0, 0, 0, 1]), [44..49, 53..54]);
    assert_eq!(written(&[0, 1, 1, 1]), [45..48]);
    assert_eq!(written(&[0; 16]), []);
}
