//! Asks the library how many machines a coordinator's own choice has, and which losses are borne.

use dyngrid::{Refusal, Rows, Shape, Table};
use std::fmt;

const FILE_LEN: usize = 1;
const HEADER: usize = 16;
/// The head of a row; behind it comes a copy of the file.
const HEAD: usize = 32;
const ROW: usize = HEAD + 588 + FILE_LEN;
/// Where a row has its grid mark.
const GRID_MARK: usize = 24;

/// The least and the most over all coordinators.
#[derive(Clone, Copy, Debug, PartialEq, Eq)]
pub struct Range {
    pub least: usize,
    pub most: usize,
}

impl fmt::Display for Range {
    fn fmt(&self, f: &mut fmt::Formatter) -> fmt::Result {
        if self.least == self.most {
            write!(f, "{}", self.most)
        } else {
            write!(f, "{} to {}", self.least, self.most)
        }
    }
}

/// How many of so many machines a read and a write call, and which loss they bear.
pub struct Sizes {
    pub machines: usize,
    pub read: Range,
    pub write: Range,
    /// The machines each of which may be lost, the others answering.
    pub borne: Rows,
}

impl Sizes {
    /// Do they bear the loss of any one?
    pub fn bears(&self) -> String {
        let fatal = Rows::first(self.machines) - self.borne;
        if fatal.is_empty() {
            "yes".into()
        } else if self.borne.is_empty() {
            "no".into()
        } else {
            format!("of any but {}", named(fatal))
        }
    }
}

/// As "2 and 4".
pub fn named(rows: Rows) -> String {
    let rows: Vec<String> = rows.iter().map(|row| row.to_string()).collect();
    match rows.split_last() {
        Some((last, [])) => last.clone(),
        Some((last, others)) => format!("{} and {last}", others.join(", ")),
        None => "none".into(),
    }
}

/// Of machines that are founded now in this shape.
pub fn sizes(machines: usize, shape: Shape) -> Result<Sizes, Refusal> {
    measured(&founded(machines, shape)?)
}

/// In how many of all ways to lose two machines the others read, and in how many they write.
pub struct PairsLost {
    pub all: usize,
    pub read: usize,
    pub write: usize,
}

/// Of machines that are founded now in this shape.
pub fn pairs_lost(machines: usize, shape: Shape) -> Result<PairsLost, Refusal> {
    let founded = founded(machines, shape)?;
    let mut pairs = PairsLost { all: 0, read: 0, write: 0 };
    for (one, two) in (1..=machines).flat_map(|one| (1..one).map(move |two| (one, two))) {
        let left = founded.rows() - Rows::of(&[one, two])?;
        pairs.all += 1;
        pairs.read += usize::from(all_done(&founded, left, &[read])?);
        pairs.write += usize::from(all_done(&founded, left, &[write])?);
    }
    Ok(pairs)
}

/// Of five in the published grid, as a table of form 1 has them.
pub fn published_five() -> Result<Sizes, Refusal> {
    measured(&marked(5, 0)?)
}

/// The columns that a list of so many machines with this grid mark has: a read calls one machine of each.
pub fn columns(machines: usize, mark: u8) -> Result<usize, Refusal> {
    let mut table = marked(machines, mark)?;
    let all = table.rows();
    read(&mut table, 1, all)
}

/// The grid mark of a list of so many machines that is laid now in this shape.
pub fn mark(machines: usize, shape: Shape) -> Result<u8, Refusal> {
    Ok(founded(machines, shape)?.as_bytes()[row_at(1) + GRID_MARK])
}

/// A founded table whose list has this grid mark.
fn marked(machines: usize, mark: u8) -> Result<Table, Refusal> {
    let mut bytes = founded(machines, Shape::Wide)?.into_bytes();
    (1..=machines).for_each(|row| bytes[row_at(row) + GRID_MARK] = mark);
    Ok(Table::from_bytes(bytes)?)
}

fn founded(machines: usize, shape: Shape) -> Result<Table, Refusal> {
    founded_in(&vec![1; machines], shape)
}

/// A founded table of machines of these counties.
pub fn founded_in(counties: &[u8], shape: Shape) -> Result<Table, Refusal> {
    let names: Vec<u16> = (1..=counties.len() as u16).collect();
    Table::found_counties(counties.len(), FILE_LEN, &names, shape, 1, counties)
}

/// Of the machines of a founded table.
pub fn measured(founded: &Table) -> Result<Sizes, Refusal> {
    let machines = founded.used();
    let mut reads = Vec::new();
    let mut writes = Vec::new();
    for coordinator in 1..=machines {
        reads.push(read(&mut founded.clone(), coordinator, founded.rows())?);
        writes.push(write(&mut founded.clone(), coordinator, founded.rows())?);
    }
    let borne = borne(founded, &[check, write])?;
    Ok(Sizes { machines, read: range(&reads), write: range(&writes), borne })
}

/// The machines without each of which the others read on.
pub fn read_on(founded: &Table) -> Result<Rows, Refusal> {
    borne(founded, &[read])
}

/// A call by a machine that so many answer; gives how many were called.
type Attempt = fn(&mut Table, usize, Rows) -> Result<usize, Refusal>;

fn read(table: &mut Table, coordinator: usize, answering: Rows) -> Result<usize, Refusal> {
    Ok(table.file(1).read(coordinator, answering, 0, &mut [0])?.called)
}

fn write(table: &mut Table, coordinator: usize, answering: Rows) -> Result<usize, Refusal> {
    Ok(table.file_mut(1).write(coordinator, answering, 0, &[1])?.called)
}

/// Whoever is in use is asked.
fn check(table: &mut Table, coordinator: usize, answering: Rows) -> Result<usize, Refusal> {
    table.check(coordinator, answering).map(|_| table.used())
}

/// The machines without each of which all the others hold a quorum: whoever of them calls, the attempts are done.
fn borne(founded: &Table, attempts: &[Attempt]) -> Result<Rows, Refusal> {
    let mut borne = Rows::EMPTY;
    for lost in founded.rows() {
        let lost = Rows::of(&[lost])?;
        if all_done(founded, founded.rows() - lost, attempts)? {
            borne |= lost;
        }
    }
    Ok(borne)
}

/// Are the attempts done, each by each of the machines that are left? They must ask for the same quorum.
fn all_done(founded: &Table, left: Rows, attempts: &[Attempt]) -> Result<bool, Refusal> {
    let (mut done, mut refused) = (0, 0);
    for by in left {
        for attempt in attempts {
            match attempt(&mut founded.clone(), by, left) {
                Ok(_) => done += 1,
                Err(Refusal::NoQuorum) => refused += 1,
                Err(refusal) => return Err(refusal),
            }
        }
    }
    assert!(done == 0 || refused == 0, "one quorum, whoever of {left} calls");
    Ok(done > 0)
}

fn row_at(row: usize) -> usize {
    HEADER + (row - 1) * ROW
}

fn range(sizes: &[usize]) -> Range {
    let least = sizes.iter().copied().min().unwrap_or(0);
    let most = sizes.iter().copied().max().unwrap_or(0);
    Range { least, most }
}

#[cfg(test)]
mod tests {
    use super::*;

    /// In how many rows a stale mark makes the attempt fail: those that it calls.
    fn called(founded: &Table, coordinator: usize, attempt: Attempt) -> Result<usize, Refusal> {
        let mut called = 0;
        for row in founded.rows() {
            let mut table = with_stale_row(founded, row)?;
            match attempt(&mut table, coordinator, founded.rows()) {
                Ok(_) => {}
                Err(Refusal::NotCurrent) => called += 1,
                Err(refusal) => return Err(refusal),
            }
        }
        Ok(called)
    }

    /// How many rows have a new version after a write that all answer.
    fn rows_written(founded: &Table, coordinator: usize) -> Result<usize, Refusal> {
        let mut table = founded.clone();
        write(&mut table, coordinator, founded.rows())?;
        Ok(table
            .rows()
            .iter()
            .filter(|&row| table.file(1).copy(row).is_some_and(|copy| copy.version == 1))
            .count())
    }

    /// The table with one row marked and desiring version 1.
    fn with_stale_row(founded: &Table, row: usize) -> Result<Table, Refusal> {
        let mut bytes = founded.as_bytes().to_vec();
        let copy = row_at(row) + HEAD;
        (bytes[copy], bytes[copy + 8]) = (1, 1);
        Ok(Table::from_bytes(bytes)?)
    }

    /// What the calls say agrees with what is seen from the outside.
    #[test]
    fn the_number_called_is_what_shows_from_the_outside() {
        let lists =
            (1..=64).flat_map(|machines| [Shape::Wide, Shape::Tall].map(|shape| founded(machines, shape)));
        for table in lists.chain([marked(5, 0)]).map(|table| table.expect("a plain founding")) {
            for by in table.rows() {
                let done = |attempt: Attempt| attempt(&mut table.clone(), by, table.rows());
                assert_eq!(done(read), called(&table, by, read));
                assert_eq!(done(write), called(&table, by, write));
                assert_eq!(done(write), rows_written(&table, by));
            }
        }
    }

    #[test]
    fn losses_are_borne_as_the_page_says() {
        for shape in [Shape::Wide, Shape::Tall] {
            let bears = |machines| sizes(machines, shape).map(|sizes| sizes.bears());
            assert_eq!([1, 2].map(bears), [Ok("no".into()), Ok("no".into())]);
            assert_eq!(bears(3), Ok("of any but 2".into()));
            for machines in 4..=64 {
                assert_eq!(bears(machines), Ok("yes".into()), "{machines} machines, {shape:?}");
            }
        }
        assert_eq!(published_five().map(|sizes| sizes.bears()), Ok("of any but 3".into()));
    }

    #[test]
    fn tall_reads_call_one_machine_less_as_the_page_says() {
        let mut less = Vec::new();
        for machines in 1..=64 {
            let [wide, tall] =
                [Shape::Wide, Shape::Tall].map(|shape| sizes(machines, shape).expect("no refusal"));
            assert_eq!((wide.write, wide.read.least), (tall.write, wide.read.most), "{machines} machines");
            if tall.read != wide.read {
                assert_eq!((tall.read.least, tall.read.most), (wide.read.most - 1, wide.read.most - 1));
                less.push(machines);
            }
        }
        let runs = [2..=2, 6..=6, 10..=12, 17..=20, 26..=30, 37..=42, 50..=56];
        assert_eq!(less, runs.into_iter().flatten().collect::<Vec<_>>());
    }
}
