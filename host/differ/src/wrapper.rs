//! What the wrapper tells of a table, against the reference: its rows with their copies of each file and the windows on them, and
//! the sends that would be done; and the moves and rounds that it makes.

use crate::call::{result_shown, whole_orders, Answer, Call};
use crate::tables::Picture;
use dyngrid::{Form3Table, OlderForm, Order, Rows, Stopped, Table};
use reference::round::ORDER;
use reference::{window, Engine, Sheet};

/// Looks at a table, which is judged by the reference; gives how many sends would be done, or says how the wrapper differs. None
/// if it is malformed. In a table of more rows than the small ones, sends of the last file only are listed: every two rows are asked.
pub fn look(
    engine: Engine,
    bytes: &[u8],
    judged: Option<&Picture>,
    small: usize,
) -> Result<Option<usize>, String> {
    let (table, picture) = match (Table::from_bytes(bytes.to_vec()), judged) {
        (Ok(table), Some(picture)) => (table, picture),
        (Err(_), None) => return Ok(None),
        (Ok(_), None) => return Err("the wrapper takes a malformed table".into()),
        (Err(error), Some(_)) => return Err(format!("the wrapper does not take a table: {error}")),
    };
    for (row, state) in (1..).zip(&picture.rows) {
        let told = table.row(row).filter(|view| {
            (view.row, view.name, view.list.bits(), view.grid_mark, view.epoch)
                == (row, state.name, state.list.members, state.list.mark, state.epoch)
                && (view.county, table.county(row)) == (state.county, Some(state.county))
                && view.copies.len() == picture.files
        });
        if told.is_none() || table.row_named(state.name) != told {
            return Err(format!("row {row} by the wrapper: {:?}", table.row(row)));
        }
        for file in 1..=picture.files {
            if !same_copy(&table, picture, bytes, row, file) {
                let (copy, window) = (table.file(file).copy(row), table.file(file).window(row));
                return Err(format!("file {file} of row {row} by the wrapper: {copy:?}, {window:?}"));
            }
        }
    }
    let mut count = 0;
    for file in if picture.used > small { picture.files } else { 1 }..=picture.files {
        let (sends, expected) = (table.file(file).sends(), engine.sends(picture, bytes, file));
        if sends != expected {
            return Err(format!(
                "sends of file {file}: by the wrapper {sends:?}, by the reference {expected:?}"
            ));
        }
        count += sends.len();
    }
    Ok(Some(count))
}

/// Does the wrapper tell the numbers of a row's copy of a file, and the patches of its window, oldest first, as the reference reads
/// them?
fn same_copy(table: &Table, picture: &Picture, bytes: &[u8], row: usize, file: usize) -> bool {
    let (window, part) = (picture.window(bytes, row, file), picture.part(row, file));
    let (count, _) = window::chain(window, part.oldest);
    let copy = table.row(row).and_then(|view| view.copies.get(file - 1).copied());
    let same_numbers = copy.is_some_and(|copy| {
        (copy.file, copy.stale, copy.version, copy.desired, copy.patches)
            == (file, part.stale, part.version, part.desired, count)
    });
    let told = table.file(file).window(row);
    let mut index = part.oldest;
    let same_patches = told.iter().zip(part.version - count as u32 + 1..).all(|(patch, version)| {
        let record = window::record(window, index);
        index = record.next;
        let expected = &window[record.at..record.at + record.length];
        (patch.version, patch.offset, patch.bytes) == (version, record.offset, expected)
    });
    same_numbers && same_patches && told.len() == count && table.file(file).copy(row) == copy
}

/// Looks at a sheet, if one was lent: does the wrapper take it if it is right, and tell of it what the reference reads?
pub fn look_at_sheet(lent: Option<&[u8]>) -> Result<(), String> {
    let Some(bytes) = lent else { return Ok(()) };
    let (sheet, expected) = match (dyngrid::Sheet::from_bytes(bytes), Sheet::judge(bytes)) {
        (Err(_), None) => return Ok(()),
        (Ok(sheet), Some(expected)) => (sheet, expected),
        (told, expected) => {
            return Err(format!("a sheet by the wrapper {told:?}, by the reference {expected:?}"))
        }
    };
    let mut lines = (1..).zip(&expected.lines).zip(sheet.clubs());
    let same = lines.all(|((club, line), told)| {
        (told.club, told.assured, told.ceiling, told.made) == (club, line.assured, line.ceiling, line.count)
            && (told.left == 0) == expected.refusal(club as u64).is_some()
    });
    let told = (sheet.total(), sheet.shared_left(), sheet.clubs().count(), sheet.as_bytes());
    if same && told == (expected.total, expected.remainder(), expected.lines.len(), bytes) {
        Ok(())
    } else {
        Err(format!("by the wrapper the sheet is\n{sheet}"))
    }
}

/// Moves a well-formed table through the wrapper, if it has such a move; it must give and refuse what the archive did with a
/// buffer of the right length.
pub fn carry(bytes: &[u8], form: u64, answer: &Answer) -> Result<(), String> {
    let carried = match (bytes.first(), form) {
        (Some(_), 3) => Form3Table::carry_up(bytes).map(Form3Table::into_bytes),
        (Some(3), 1 | 2) => {
            let table =
                Form3Table::from_bytes(bytes.to_vec()).map_err(|error| format!("no table: {error}"))?;
            table.carry_down(if form == 1 { OlderForm::One } else { OlderForm::Two })
        }
        _ => return Ok(()),
    };
    let refusal = (answer.result >> 32) as u32;
    let same = match &carried {
        Ok(moved) => refusal == 0 && *moved == answer.buffer,
        Err(by_the_wrapper) => by_the_wrapper.number() == refusal,
    };
    if same {
        Ok(())
    } else {
        Err(format!("a move by the wrapper: {:?}", carried.map(|moved| moved.len())))
    }
}

/// Enters a round through the wrapper, if its table, sheet and orders are such as that takes; it must give what the archive gave, and
/// leave table and sheet as that did. Says whether it took them.
pub fn round(call: &Call, answer: &Answer, before: &[u8], after: &[u8]) -> Result<bool, String> {
    let Call::Round { answering, orders, sheet } = call else { return Ok(false) };
    let ordered = whole_orders(orders).map(|order| {
        let told = Order::new(order.coordinator.into(), order.offset.into(), order.written()).ok()?;
        Some(told.in_file(order.file.into()).by_club(order.club.into()))
    });
    let ordered = ordered.collect::<Option<Vec<Order>>>().filter(|_| orders.len().is_multiple_of(ORDER));
    let table = Table::from_bytes(before.to_vec()).ok();
    let (Some(ordered), Some(mut table), Ok(mut sheet)) = (ordered, table, dyngrid::Sheet::from_bytes(sheet))
    else {
        return Ok(false);
    };
    let told = match table.round_with(&mut sheet, Rows::from_bits(*answering), &ordered) {
        Ok(done) => done as u64,
        Err(Stopped { done, refusal }) => u64::from(refusal.number()) << 32 | done as u64,
    };
    if told == answer.result && table.as_bytes() == after && sheet.as_bytes() == answer.sheet {
        Ok(true)
    } else {
        Err(format!("a round by the wrapper: {}", result_shown(told)))
    }
}

#[cfg(test)]
mod tests {
    use super::*;
    use crate::damage;
    use crate::random::Random;
    use crate::tables::{self, Size};
    use reference::{Blunder, Layout, Rules, Shape};

    /// On tables that no founding leads to.
    #[test]
    fn the_wrapper_tells_what_the_reference_reads() {
        let blunders = [Blunder::StaleSender, Blunder::BehindReceiver];
        let (mut sends, mut found) = (0, [0; 2]);
        for case in 0..2_000 {
            let mut random = Random::new(9, case);
            let size = Size::pick(&mut random);
            let bytes = tables::well_formed(&mut random, size);
            let picture = Picture::of(&bytes);
            let look = |blunder| look(Engine { blunder, ..Engine::default() }, &bytes, picture.as_ref(), 8);
            sends += look(None).unwrap_or_else(|what| panic!("case {case}: {what}")).expect("well formed");
            for (found, blunder) in found.iter_mut().zip(blunders) {
                *found += usize::from(look(Some(blunder)).is_err());
            }
        }
        println!("{sends} sends");
        assert!(sends > 2_000 && found.iter().all(|&found| found > 100), "{sends} {found:?}");
    }

    /// Numbers in the columns of a grid.
    fn drawn(numbers: impl Iterator<Item = u16>, columns: usize) -> Vec<String> {
        let numbers: Vec<String> = numbers.map(|number| format!("{number:>5}")).collect();
        numbers.chunks(columns).map(|row| row.join("  ")).collect()
    }

    /// The last lines draw the list of the highest epoch in its grid, or on two levels; or there is none.
    #[test]
    fn the_list_in_force_is_drawn_as_it_lies() {
        let mut drawn_so = [0; 3];
        for case in 0..1_000 {
            let mut random = Random::new(10, case);
            let size = Size::pick(&mut random);
            let bytes = tables::well_formed(&mut random, size);
            let picture = Picture::of(&bytes).expect("well formed");
            let shown = Table::from_bytes(bytes).expect("well formed").to_string();
            let (counties, chain) = (&picture.counties, &picture.chain);
            let layout = Layout::of(picture.newest(picture.all_used()), chain, counties);
            let row = |row: &u8| picture.row((*row).into());
            let groups = layout.groups().iter().map(|group| (layout.members(group), group.grid.columns));
            let groups: Vec<(&[u8], usize)> = groups.collect();
            let of_group = |&(members, columns): &(&[u8], usize)| {
                drawn(members.iter().map(|member| row(member).name), columns)
            };
            let expected = match &groups[..] {
                [] => Vec::new(),
                [of_all] => of_group(of_all),
                groups => {
                    let counties = groups.iter().map(|(members, _)| row(&members[0]).county);
                    let above = drawn(counties.clone().map(u16::from), layout.above.columns);
                    let below = groups.iter().zip(counties).flat_map(|(group, county)| {
                        [vec![format!("county {county}:")], of_group(group)].concat()
                    });
                    above.into_iter().chain(below).collect()
                }
            };
            drawn_so[groups.len().min(2)] += 1;
            let lines: Vec<&str> = shown.lines().skip(2 + size.used * size.files).collect();
            match lines[..] {
                ["no row has a list"] => assert!(groups.is_empty(), "case {case}:\n{shown}"),
                [head, ref grid @ ..] => {
                    let tall = picture.shape() == Some(Shape::Tall);
                    let levels = groups.len() > 1;
                    assert_eq!((head.contains("tall"), head.contains("two levels")), (tall, levels));
                    assert_eq!(grid, expected, "case {case}:\n{shown}");
                }
                [] => panic!("case {case}: no grid in\n{shown}"),
            }
        }
        assert!(drawn_so.iter().all(|&count| count > 20), "{drawn_so:?}");
    }

    /// Another answer, table or sheet than the wrapper's is found out; a list that ends inside an order, or an order of a wrong length, is
    /// not taken.
    #[test]
    fn a_round_by_the_wrapper_is_compared() {
        let size = Size { used: 4, capacity: 5, file_len: 9, files: 2 };
        let founding = [4, 0, 5, 0, 6, 0, 9, 0];
        let mut before = vec![0; reference::Table::length(size.capacity, size.file_len, size.files)];
        Engine::default().found(&mut before, 5, 9, &founding, 0, 2, &[1; 4]);
        let one = |coordinator, length| reference::round::Order {
            coordinator,
            length,
            offset: 1,
            patch: [7; 8],
            file: 2,
            club: 3,
        };
        let called = |orders: &[reference::round::Order], over| {
            let mut orders: Vec<u8> = orders.iter().flat_map(|order| order.bytes()).collect();
            orders.resize(orders.len() + over, 0);
            Call::Round { answering: 0b1111, orders, sheet: Sheet::OPEN.bytes().to_vec() }
        };
        for (orders, refusal) in [(&[one(1, 8)][..], 0), (&[one(1, 1), one(2, 8), one(255, 3)], 2)] {
            let (call, mut after) = (called(orders, 0), before.clone());
            let answer = call.refer(Engine::default(), &mut after);
            assert_eq!((round(&call, &answer, &before, &after), answer.result >> 32), (Ok(true), refusal));
            let wrong = Answer { result: answer.result ^ 1, ..answer.clone() };
            assert!(round(&call, &wrong, &before, &after).is_err());
            let wrong = Answer { sheet: Sheet::OPEN.bytes().to_vec(), ..answer.clone() };
            assert!(round(&call, &wrong, &before, &after).is_err());
            assert!(round(&call, &answer, &before, &before).is_err());
        }
        for call in [called(&[one(1, 1)], 1), called(&[one(1, 9)], 0), called(&[one(1, 0)], 0)] {
            let answer = call.refer(Engine::default(), &mut before.clone());
            assert_eq!((round(&call, &answer, &before, &before), answer.result), (Ok(false), 4 << 32));
        }
    }

    /// Each rule broken: an error that says so, and never a panic.
    #[test]
    fn damaged_tables_are_not_taken() {
        for case in 0..2_000 {
            let mut random = Random::new(11, case);
            let rules = random.pick(&Rules::ALL);
            let bytes = damage::damaged(&mut random, rules).bytes;
            assert_eq!(look(Engine::default(), &bytes, None, 8), Ok(None), "case {case}");
            let error = Table::from_bytes(bytes).expect_err("damaged").to_string();
            assert!(error.contains("no table") || error.contains("of form "), "case {case}: {error}");
        }
    }
}
