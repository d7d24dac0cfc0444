//! A relay that holds only rows that answered: each machine keeps its own row, and for each call a table is put together from
//! the rows that it may look at, for a read, write, send or round with the parts of its files alone. Its answers, and the rows on the
//! machines, must be those of the one table. A round has one answering set, so that it is one call on one such table, and what all
//! its orders changed is shipped at once.

use crate::archive::Archive;
use crate::call::{result_shown, Answer, Call};
use dyngrid::{Rows, Table};
use reference::{rows, Counties, Rules, Shape, COUNTY, HEADER, TALL};

/// Where a row keeps its link, its list and the mark of the list's grid.
const LINK: usize = 2;
const LIST: std::ops::Range<usize> = 16..24;
const GRID_MARK: usize = 24;

/// Mistakes of a relay, to make on purpose.
#[derive(Clone, Copy, Debug, PartialEq, Eq)]
pub enum Slip {
    /// Rows that did not answer stand in the table with a full list.
    FullFiller,
    /// A row that a call marked as stale is shipped only when the next call is made.
    ShippedLate,
    /// Rows are shipped after a founding and a joining only.
    NothingShipped,
    /// Rows that did not answer stand in the table as if they were of county 1.
    CountyForgotten,
}

impl Slip {
    pub const ALL: [Slip; 4] =
        [Slip::FullFiller, Slip::ShippedLate, Slip::NothingShipped, Slip::CountyForgotten];

    /// Its name on a command line.
    pub fn name(self) -> &'static str {
        match self {
            Slip::FullFiller => "full-filler",
            Slip::ShippedLate => "shipped-late",
            Slip::NothingShipped => "nothing-shipped",
            Slip::CountyForgotten => "county-forgotten",
        }
    }
}

pub struct Relay {
    slip: Option<Slip>,
    /// Header, names, links and counties.
    frame: Table,
    /// What each machine holds: row i at place i - 1.
    machines: Vec<Vec<u8>>,
    /// Rows that are on their way, if the relay slips.
    late: Vec<(usize, Vec<u8>)>,
}

impl Relay {
    /// Each machine gets its row of the table.
    pub fn open(table: &[u8], slip: Option<Slip>) -> Result<Relay, String> {
        let table =
            Table::from_bytes(table.to_vec()).map_err(|error| format!("no table for a relay: {error}"))?;
        let rows = table.rows().iter().filter_map(|row| table.row_bytes(row));
        let machines = rows.map(<[u8]>::to_vec).collect();
        Ok(Relay { slip, frame: table.frame(), machines, late: Vec::new() })
    }

    /// Makes a call that gave this answer on the one table, and left it so; an error says how the relay differs.
    pub fn call(
        &mut self,
        archive: &mut Archive,
        call: &Call,
        answer: &Answer,
        whole: &[u8],
    ) -> Result<(), String> {
        match call {
            // The table of a founding is lent whole, and shipped whole.
            Call::Found { .. } if answer.result >> 32 == 0 => *self = Relay::open(whole, self.slip)?,
            Call::Found { .. } | Call::Chart { .. } | Call::Move { .. } => {}
            Call::Join { .. } => self.join(archive, call, answer)?,
            _ => self.gather_and_call(archive, call, answer)?,
        }
        self.compare(whole)
    }

    /// A joining is a matter of the frame alone.
    fn join(&mut self, archive: &mut Archive, call: &Call, answer: &Answer) -> Result<(), String> {
        let mut bytes = self.frame.as_bytes().to_vec();
        agree(&archive.call(&mut bytes, call)?, answer)?;
        self.frame =
            Table::from_bytes(bytes).map_err(|error| format!("a joining leaves no frame: {error}"))?;
        let joined = self.frame.rows().iter().skip(self.machines.len());
        self.machines.extend(joined.filter_map(|row| self.frame.row_bytes(row)).map(<[u8]>::to_vec));
        Ok(())
    }

    fn gather_and_call(&mut self, archive: &mut Archive, call: &Call, answer: &Answer) -> Result<(), String> {
        let asked = Rows::from_bits(call.seen().unwrap_or_default()) & self.frame.rows();
        let rows = asked.iter().map(|row| (row, self.given(row, call)));
        let mut before =
            Table::assemble(&self.frame, rows).map_err(|error| format!("through a relay: {error}"))?;
        for (row, bytes) in std::mem::take(&mut self.late) {
            self.machines[row - 1] = bytes;
        }
        let mut bytes = before.as_bytes().to_vec();
        let others = self.frame.rows() - asked;
        match self.slip {
            Some(Slip::FullFiller) => self.fill(&mut bytes, others),
            Some(Slip::CountyForgotten) => {
                others.iter().for_each(|row| self.row_of(&mut bytes, row)[COUNTY] = 1);
            }
            _ => {}
        }
        if self.slip.is_some() {
            before = Table::from_bytes(bytes.clone()).unwrap_or(before);
        }
        agree(&archive.call(&mut bytes, call)?, answer)?;
        let after =
            Table::from_bytes(bytes).map_err(|error| format!("a call through a relay leaves {error}"))?;
        let changed = after.changed(&before);
        if !changed.is_subset(asked) {
            return Err(format!("of the rows {asked} the rows {changed} are shipped"));
        }
        for row in changed {
            // What changed of the row is laid over what the machine holds.
            let now = after.row_bytes(row).unwrap_or_default();
            let mut bytes = self.machines[row - 1].clone();
            for range in after.changed_ranges(&before, row) {
                bytes[range.clone()].copy_from_slice(&now[range]);
            }
            match self.slip {
                Some(Slip::NothingShipped) => {}
                Some(Slip::ShippedLate) if is_stale(&after, row) => self.late.push((row, bytes)),
                _ => self.machines[row - 1] = bytes,
            }
        }
        Ok(())
    }

    /// What a machine gives for a call: its row, without the parts of other files than the call names.
    fn given(&self, row: usize, call: &Call) -> Vec<u8> {
        let mut bytes = self.machines[row - 1].clone();
        let Some(named) = call.files(self.frame.files()) else { return bytes };
        let others = (1..=self.frame.files()).filter(|&file| !rows::has(named, file));
        others.filter_map(|file| self.frame.file(file).range()).for_each(|part| bytes[part].fill(0));
        bytes
    }

    /// Gives these rows the list of all used rows, as a founding would lay it.
    fn fill(&self, bytes: &mut [u8], rows: Rows) {
        let tall = self.machines.iter().any(|row| row[GRID_MARK] == TALL);
        let all = self.frame.rows().bits();
        let counties = Counties::of(self.machines.iter().map(|row| row[COUNTY]));
        let shape = if tall { Shape::Tall } else { Shape::Wide };
        let list = Rules::Newest.lay(shape, all, &counties);
        for row in rows {
            let row = self.row_of(bytes, row);
            row[LIST].copy_from_slice(&all.to_le_bytes());
            row[GRID_MARK] = list.mark;
        }
    }

    fn row_of<'a>(&self, bytes: &'a mut [u8], row: usize) -> &'a mut [u8] {
        let stride = self.machines[0].len();
        &mut bytes[HEADER + (row - 1) * stride..][..stride]
    }

    /// Are the frame and the rows on the machines those of the one table? The links of the machines may be old. What is on
    /// its way shows only in answers.
    fn compare(&self, whole: &[u8]) -> Result<(), String> {
        let (header, rows) = whole.split_at(HEADER);
        if self.frame.as_bytes()[..HEADER] != *header {
            return Err("through a relay the header differs".into());
        }
        if self.slip.is_some() {
            return Ok(());
        }
        let stride = self.machines[0].len();
        for (row, (machine, expected)) in (1..).zip(self.machines.iter().zip(rows.chunks(stride))) {
            let frame = self.frame.row_bytes(row).unwrap_or_default();
            let same = frame[..=LINK] == expected[..=LINK]
                && frame[COUNTY] == expected[COUNTY]
                && machine[..LINK] == expected[..LINK]
                && machine[LINK + 1..] == expected[LINK + 1..];
            if !same {
                return Err(format!("through a relay row {row} differs"));
            }
        }
        Ok(())
    }
}

/// Is a part of the row marked?
fn is_stale(table: &Table, row: usize) -> bool {
    table.row(row).is_some_and(|row| row.copies.iter().any(|copy| copy.stale))
}

fn agree(relayed: &Answer, answer: &Answer) -> Result<(), String> {
    if relayed.result != answer.result {
        let [relayed, whole] = [relayed, answer].map(|answer| result_shown(answer.result));
        return Err(format!("through a relay {relayed}, on the one table {whole}"));
    }
    if relayed != answer {
        return Err("through a relay other bytes are in a buffer or list".into());
    }
    Ok(())
}

#[cfg(test)]
mod tests {
    use super::*;
    use crate::generate::Plan;
    use crate::random::Random;
    use crate::tables::names_in_bytes;

    /// Makes calls of founded histories on one table and through a relay; true if the relay differs.
    fn differs(slip: Option<Slip>, histories: u64) -> bool {
        let mut archive = Archive::new();
        (0..histories).any(|case| {
            let mut random = Random::new(8, case);
            let mut plan = Plan::founded(&mut random);
            let mut whole = plan.table();
            let opening = plan.next(&mut random, &whole);
            archive.call(&mut whole, &opening).expect("no stray write");
            let mut relay = Relay::open(&whole, slip).expect("founded");
            (1..plan.calls()).any(|_| {
                let call = plan.next(&mut random, &whole);
                let answer = archive.call(&mut whole, &call).expect("no stray write");
                relay.call(&mut archive, &call, &answer, &whole).is_err()
            })
        })
    }

    #[test]
    fn a_relay_differs_only_where_it_slips() {
        assert!(!differs(None, 300));
        assert!(Slip::ALL.into_iter().all(|slip| differs(Some(slip), 300)));
    }

    /// Four machines; another byte in the header, in a row or in an answer is found out.
    #[test]
    fn every_byte_is_compared() {
        let mut archive = Archive::new();
        let mut whole = vec![0; reference::Table::length(5, 4, 2)];
        let names = names_in_bytes(&[10, 20, 30, 40]);
        let counties = vec![1, 1, 2, 1];
        let found = Call::Found { capacity: 5, file_len: 4, names, choice: 0, files: 2, counties };
        archive.call(&mut whole, &found).expect("no stray write");
        let founded = whole.clone();
        let called = vec![0];
        let (coordinator, answering, offset, patch, file) = (4, 0b1111, 1, vec![7, 8], 2);
        let (sheet, club) = (reference::Sheet::OPEN.bytes().to_vec(), 1);
        let write = Call::Write { coordinator, answering, offset, patch, called, file, sheet, club };
        let answer = archive.call(&mut whole, &write).expect("no stray write");
        let mut relayed = |answer: &Answer, whole: &[u8]| {
            let mut relay = Relay::open(&founded, None).expect("founded");
            relay.call(&mut archive, &write, answer, whole).is_ok()
        };
        assert!(relayed(&answer, &whole));
        for at in 0..reference::Table::length(4, 4, 2) {
            let mut altered = whole.clone();
            altered[at] ^= 1;
            assert!(!relayed(&answer, &altered), "byte {at}");
        }
        assert!(!relayed(&Answer { result: answer.result + 1, ..answer.clone() }, &whole));
        let called = answer.called.iter().map(|count| count ^ 1).collect();
        assert!(!relayed(&Answer { called, ..answer }, &whole));
    }
}
