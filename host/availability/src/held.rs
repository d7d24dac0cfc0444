//! A table that machines hold, and the calls that the model makes on it: the library's, the reference's, or both at once.

use dyngrid::{raw, Refusal, Rows, Shape, Sheet};
use reference::rows::Order;
use reference::{Engine, Part, Row, Rules};

/// There is one file, and it has one byte.
const FILE: usize = 1;
const FILE_LEN: usize = 1;

/// A table, and who answers for it. Machines have the names 1 upward, in rows 1 upward.
pub trait Held: Clone {
    fn check(&mut self, by: usize, up: Rows) -> Result<u32, Refusal>;
    fn write(&mut self, by: usize, up: Rows) -> Result<u32, Refusal>;
    fn read(&self, by: usize, up: Rows) -> Result<u32, Refusal>;
    fn send(&mut self, from: usize, to: usize, up: Rows) -> Result<u32, Refusal>;
    fn bytes(&self) -> &[u8];

    /// What the head of a row says.
    fn row(&self, row: usize) -> Row {
        sizes(self.bytes()).row(self.bytes(), row)
    }

    /// What a row says of its copy of the file.
    fn copy(&self, row: usize) -> Part {
        sizes(self.bytes()).part(self.bytes(), row, FILE)
    }
}

/// Where a well-formed table has its rows, by its first bytes.
fn sizes(table: &[u8]) -> reference::Table {
    let rules = Rules::of_form(table[0]).expect("a table is of some form");
    reference::Table::new(rules, table[1].into(), table[2].into(), FILE_LEN, 1, Order::EMPTY)
}

/// A founded table of the library.
pub fn library(machines: usize, shape: Shape) -> dyngrid::Table {
    let names: Vec<u16> = (1..=machines as u16).collect();
    dyngrid::Table::found(machines, FILE_LEN, &names, shape).expect("a founding of rising names is done")
}

impl Held for dyngrid::Table {
    fn check(&mut self, by: usize, up: Rows) -> Result<u32, Refusal> {
        dyngrid::Table::check(self, by, up)
    }

    fn write(&mut self, by: usize, up: Rows) -> Result<u32, Refusal> {
        Ok(self.file_mut(FILE).write(by, up, 0, &[1])?.version)
    }

    fn read(&self, by: usize, up: Rows) -> Result<u32, Refusal> {
        Ok(self.file(FILE).read(by, up, 0, &mut [0])?.version)
    }

    fn send(&mut self, from: usize, to: usize, up: Rows) -> Result<u32, Refusal> {
        self.file_mut(FILE).send(from, to, up)
    }

    fn bytes(&self) -> &[u8] {
        self.as_bytes()
    }
}

/// A table of the reference.
#[derive(Clone)]
pub struct Second {
    engine: Engine,
    bytes: Vec<u8>,
}

impl Second {
    /// Founded by the rules of the library.
    pub fn newest(machines: usize, shape: Shape) -> Second {
        Second::found(machines, Rules::Newest, shape)
    }

    /// Founded by the scope's rules alone: every list, one of five too, lies in the published grid.
    pub fn published(machines: usize) -> Second {
        Second::found(machines, Rules::Published, Shape::Wide)
    }

    /// The same table, and an engine that makes a blunder from now on.
    #[cfg(test)]
    pub fn with(mut self, blunder: reference::Blunder) -> Second {
        self.engine.blunder = Some(blunder);
        self
    }

    fn found(machines: usize, rules: Rules, shape: Shape) -> Second {
        let engine = Engine { rules, blunder: None };
        let names: Vec<u8> = (1..=machines as u16).flat_map(u16::to_le_bytes).collect();
        let choice = match shape {
            Shape::Wide => raw::WIDE,
            Shape::Tall => raw::TALL,
        };
        let mut bytes = vec![0; rules.table_length(machines, FILE_LEN, 1)];
        let counties = vec![1; machines];
        let founded =
            engine.found(&mut bytes, machines as u64, FILE_LEN as u64, &names, choice, 1, &counties);
        assert_eq!(founded, machines as u64, "a founding of rising names is done");
        Second { engine, bytes }
    }
}

/// Nobody has a limit.
fn open_sheet() -> Vec<u8> {
    Sheet::open().as_bytes().to_vec()
}

/// The value of a result, or its refusal.
fn split(result: u64) -> Result<u32, Refusal> {
    Refusal::from_number((result >> 32) as u32).map_or(Ok(result as u32), Err)
}

impl Held for Second {
    fn check(&mut self, by: usize, up: Rows) -> Result<u32, Refusal> {
        split(self.engine.check(&mut self.bytes, by as u64, up.bits(), &mut open_sheet()))
    }

    fn write(&mut self, by: usize, up: Rows) -> Result<u32, Refusal> {
        let (by, up, file) = (by as u64, up.bits(), FILE as u64);
        split(self.engine.write(&mut self.bytes, by, up, 0, &[1], &mut [0], file, &mut open_sheet(), 1))
    }

    fn read(&self, by: usize, up: Rows) -> Result<u32, Refusal> {
        split(self.engine.read(&self.bytes, by as u64, up.bits(), 0, 1, &mut [0], &mut [0], FILE as u64))
    }

    fn send(&mut self, from: usize, to: usize, up: Rows) -> Result<u32, Refusal> {
        split(self.engine.send(&mut self.bytes, from as u64, to as u64, up.bits(), FILE as u64))
    }

    fn bytes(&self) -> &[u8] {
        &self.bytes
    }
}

/// One table twice: every call is made on both, and must leave both alike.
#[derive(Clone)]
pub struct Both {
    library: dyngrid::Table,
    second: Second,
}

impl Both {
    pub fn found(machines: usize, shape: Shape) -> Both {
        Both { library: library(machines, shape), second: Second::newest(machines, shape) }
    }

    /// The same, and the reference makes a blunder from now on.
    #[cfg(test)]
    pub fn with(self, blunder: reference::Blunder) -> Both {
        Both { second: self.second.with(blunder), ..self }
    }

    /// Panics where library and reference differ.
    fn agreed(
        &self,
        call: &str,
        by: usize,
        up: Rows,
        [one, two]: [Result<u32, Refusal>; 2],
    ) -> Result<u32, Refusal> {
        let (library, second) = (self.library.bytes(), self.second.bytes());
        assert!(
            one == two && library == second,
            "{call} by {by}, {up} answering: library {one:?}, reference {two:?}\nlibrary   {library:?}\nreference {second:?}"
        );
        one
    }
}

impl Held for Both {
    fn check(&mut self, by: usize, up: Rows) -> Result<u32, Refusal> {
        let answers = [Held::check(&mut self.library, by, up), self.second.check(by, up)];
        self.agreed("check", by, up, answers)
    }

    fn write(&mut self, by: usize, up: Rows) -> Result<u32, Refusal> {
        let answers = [Held::write(&mut self.library, by, up), self.second.write(by, up)];
        self.agreed("write", by, up, answers)
    }

    fn read(&self, by: usize, up: Rows) -> Result<u32, Refusal> {
        let answers = [Held::read(&self.library, by, up), self.second.read(by, up)];
        self.agreed("read", by, up, answers)
    }

    fn send(&mut self, from: usize, to: usize, up: Rows) -> Result<u32, Refusal> {
        let answers = [Held::send(&mut self.library, from, to, up), self.second.send(from, to, up)];
        self.agreed("send", from, up, answers)
    }

    fn bytes(&self) -> &[u8] {
        self.library.bytes()
    }
}

#[cfg(test)]
mod tests {
    use super::*;

    /// Wide and tall lists of four have one grid and two marks: the results are the same, and the bytes are not.
    #[test]
    #[should_panic(expected = "library Ok(0), reference Ok(0)")]
    fn tables_that_differ_in_a_byte_are_found_out() {
        let both = Both { library: library(4, Shape::Wide), second: Second::newest(4, Shape::Tall) };
        let _ = both.read(1, Rows::first(4));
    }
}
