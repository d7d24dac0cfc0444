//! Machines that each hold their own row, with a copy of two files: a relay asks whom to call, gathers what a call looks at of the rows
//! that answer, makes the call, and ships the bytes that changed. Four are founded, and a fifth joins. Run with
//! `cargo run --example relay`.

use dyngrid::{Done, File, Kind, Refusal, Rows, Shape, Table};

const FILE_LEN: usize = 16;
/// The files, by their numbers.
const RESULTS: usize = 1;
const CLOCKS: usize = 2;
const FILES: usize = 2;
/// Behind the head of a row come its copies.
const HEAD: usize = 32;

struct Relay {
    /// Header, names, links and counties, which all calls must agree on. The relay keeps them: a joining alters the link of a
    /// machine that may be away.
    frame: Table,
    /// What each machine holds: row i at place i - 1.
    machines: Vec<Vec<u8>>,
}

impl Relay {
    fn found(capacity: usize, names: &[u16]) -> Result<Relay, Refusal> {
        let table = Table::found_group(capacity, FILE_LEN, names, Shape::Wide, FILES)?;
        let rows = table.rows().iter().filter_map(|row| table.row_bytes(row));
        Ok(Relay { frame: table.frame(), machines: rows.map(<[u8]>::to_vec).collect() })
    }

    /// A machine joins: nobody is asked, and it begins with its row as the joining made it.
    fn join(&mut self, name: u16) -> Result<usize, Refusal> {
        let row = self.frame.join(name)?;
        self.machines.extend(self.frame.row_bytes(row).map(<[u8]>::to_vec));
        println!("machine {name} joins as row {row}");
        Ok(row)
    }

    /// The table of a call: the rows that answered. The others count by name, link and county only.
    fn gather(&self, answering: Rows) -> Result<Table, Refusal> {
        Ok(Table::assemble(&self.frame, answering.iter().map(|row| (row, &self.machines[row - 1])))?)
    }

    /// The same for a call on one file: a machine gives its head and its copy of that file. Its other copies have no part in it,
    /// and are zero in the table.
    fn gather_of(&self, file: usize, answering: Rows) -> Result<Table, Refusal> {
        let rows =
            answering.iter().map(|row| Some((row, given(self.frame.file(file), &self.machines[row - 1])?)));
        let rows: Option<Vec<_>> = rows.collect();
        Ok(Table::assemble(&self.frame, rows.ok_or(Refusal::NoSuchFile)?)?)
    }

    /// Calls the machines of its choice first, and then all. Of those called the machines that are up answer, itself
    /// among them.
    fn call_few<T>(
        &mut self,
        (file, by, kind): (usize, usize, Kind),
        up: Rows,
        mut call: impl FnMut(&mut Table, Rows) -> Result<T, Refusal>,
    ) -> Result<T, Refusal> {
        let own = Rows::of(&[by])?;
        let few = (self.gather_of(file, own)?.choice(by, kind)? | own) & up;
        match self.call_on(self.gather_of(file, few)?, few, |table| call(table, few)) {
            Err(Refusal::NoQuorum | Refusal::NotCurrent) => {
                self.call_on(self.gather_of(file, up)?, up, |table| call(table, up))
            }
            answer => answer,
        }
    }

    /// Makes a call on a table that was put together of the rows that answer, and ships what it changed to their machines. Over the
    /// line goes not a whole row but the bytes that are others than before. A real relay locks the rows before, and sees to it that
    /// all machines store what they get, or none.
    fn call_on<T>(
        &mut self,
        before: Table,
        answering: Rows,
        call: impl FnOnce(&mut Table) -> Result<T, Refusal>,
    ) -> Result<T, Refusal> {
        let mut table = before.clone();
        let value = call(&mut table)?;
        let (changed, mut shipped) = (table.changed(&before), 0);
        for row in changed {
            let (held, new) = (&mut self.machines[row - 1], table.row_bytes(row).unwrap_or_default());
            for range in table.changed_ranges(&before, row) {
                held[range.clone()].copy_from_slice(&new[range.clone()]);
                shipped += range.len();
            }
        }
        println!("rows {answering} answer, rows {changed} change in {shipped} bytes");
        Ok(value)
    }

    fn write(&mut self, file: usize, by: usize, up: Rows, entry: &[u8]) -> Result<Done, Refusal> {
        print!("write of file {file} by row {by}: ");
        self.call_few((file, by, Kind::Write), up, |table, answering| {
            Ok(table.file_mut(file).write(by, answering, 0, entry)?)
        })
    }

    fn read(&mut self, file: usize, by: usize, up: Rows) -> Result<[u8; 3], Refusal> {
        let mut entry = [0; 3];
        print!("read of file {file} by row {by}: ");
        self.call_few((file, by, Kind::Read), up, |table, answering| {
            Ok(table.file(file).read(by, answering, 0, &mut entry)?)
        })?;
        Ok(entry)
    }

    /// The receiver makes the send itself. The sender gives its copy without the contents, unless its window does not reach back to
    /// the receiver's version: a send by window looks at nothing else of its row.
    fn send(&mut self, file: usize, from: usize, to: usize) -> Result<u32, Refusal> {
        let ends = Rows::of(&[from, to])?;
        let (of_frame, [sender, receiver]) =
            (self.frame.file(file), [from, to].map(|row| &self.machines[row - 1]));
        let mut lean = given(of_frame, sender).ok_or(Refusal::NoSuchFile)?;
        lean[of_frame.contents_range().ok_or(Refusal::NoSuchFile)?].fill(0);
        let mut table = Table::assemble(&self.frame, [(from, &lean), (to, receiver)])?;
        let [sender, receiver] = [from, to].map(|row| table.file(file).copy(row));
        let reached = sender.map(|copy| copy.reaches_back_to()) <= receiver.map(|copy| copy.version);
        let what = if reached { "patches" } else { "the contents" };
        print!("send of {what} of file {file} from row {from} to row {to}: ");
        if !reached {
            table = self.gather_of(file, ends)?;
        }
        self.call_on(table, ends, |table| table.file_mut(file).send(from, to, ends))
    }

    /// One check serves all files, and looks at the copies of all.
    fn check(&mut self, by: usize, up: Rows) -> Result<u32, Refusal> {
        print!("check by row {by}: ");
        self.call_on(self.gather(up)?, up, |table| table.check(by, up))
    }

    /// Brings up the stale copies of each file, from rows of its newest version.
    fn send_all(&mut self, up: Rows) -> Result<(), Refusal> {
        for file in 1..=FILES {
            for (from, to) in self.gather_of(file, up)?.file(file).sends_from_newest() {
                self.send(file, from, to)?;
            }
        }
        Ok(())
    }
}

/// What a machine gives of its row for a call on one file: zeros stand for the other copies. None if there is no such file.
fn given(file: File, row: &[u8]) -> Option<Vec<u8>> {
    let mut given = vec![0; row.len()];
    for part in [0..HEAD, file.range()?] {
        given[part.clone()].copy_from_slice(&row[part]);
    }
    Some(given)
}

fn main() -> Result<(), Refusal> {
    let mut relay = Relay::found(5, &[1, 2, 3, 4])?;

    // The own choice of row 4, by its name, is {1, 2, 3}. All of them answer, so the write is theirs alone: three were called.
    assert_eq!(relay.write(RESULTS, 4, Rows::first(4), b"1-0")?.called, 3);
    // Row 4 missed the write, unmarked. With row 3 it still reads the new score.
    assert_eq!(relay.read(RESULTS, 4, Rows::of(&[3, 4])?)?, *b"1-0");

    // Machine 3 is away. Too few of the own choice are left, so all four are called. The set is all that answer, and the results of
    // row 4 are marked; its clock sheet is not.
    assert_eq!(relay.write(RESULTS, 4, Rows::of(&[1, 2, 4])?, b"0-1")?.called, 4);
    let fourth = relay.gather(Rows::of(&[4])?)?.row(4).ok_or(Refusal::NoSuchRow)?;
    assert_eq!(fourth.copies.iter().map(|copy| copy.desired).collect::<Vec<_>>(), [2, 0]);

    // The clock sheet has versions of its own: row 4 misses its first write, and row 3 the second.
    relay.write(CLOCKS, 1, Rows::first(3), b"47m")?;
    relay.write(CLOCKS, 1, Rows::of(&[1, 2, 4])?, b"62m")?;

    // Machine 2 stays away: one check for both files, and the results are sent. Then machine 1 goes too: the clock sheets of the two
    // that are left are stale, which blocks the check for both files. Once machine 1 has sent its own, the check is done.
    relay.check(1, Rows::of(&[1, 3, 4])?)?;
    relay.send(RESULTS, 1, 3)?;
    relay.send(RESULTS, 1, 4)?;
    let left = Rows::of(&[3, 4])?;
    assert_eq!(relay.read(RESULTS, 3, left)?, *b"0-1");
    assert_eq!(relay.check(3, left), Err(Refusal::NotCurrent));
    println!("refused by 7: a file is stale");
    relay.send(CLOCKS, 1, 3)?;
    relay.check(3, left)?;
    relay.write(RESULTS, 3, left, b"1/2")?;

    // All are back: a check takes them in and marks the copies that are behind; sends bring them up.
    relay.check(3, Rows::first(4))?;
    relay.send_all(Rows::first(4))?;
    assert_eq!(relay.read(RESULTS, 1, Rows::of(&[1, 2])?)?, *b"1/2");
    assert_eq!(relay.read(CLOCKS, 1, Rows::of(&[1, 2])?)?, *b"62m");

    // A fifth machine joins. It reads with a quorum of the others at once; a check takes it into the list.
    let fifth = relay.join(5)?;
    assert_eq!(relay.read(RESULTS, fifth, Rows::of(&[3, 4, fifth])?)?, *b"1/2");
    relay.check(1, Rows::first(5))?;
    println!("{}", relay.gather(Rows::first(5))?);
    relay.send_all(Rows::first(5))?;
    assert_eq!(relay.read(CLOCKS, fifth, Rows::first(5))?, *b"62m");
    // Any one of five may be away: here machine 5.
    relay.write(RESULTS, 1, Rows::first(4), b"0-0")?;
    assert_eq!(relay.read(RESULTS, 4, Rows::first(4))?, *b"0-0");
    Ok(())
}
