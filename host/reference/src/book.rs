//! The plain book of a file: what a list of calls after one done founding must give. It is fed the writes and sends of its file
//! and all other calls, by their arguments and whether they were done; nothing comes from the table.

use crate::rows::{self, Order};
use crate::{Counties, Laid, Layout, Quorum, Rules, Shape};

#[derive(Clone, Debug)]
pub struct Book {
    /// How lists are laid, and the choice of the founding.
    pub rules: Rules,
    shape: Shape,
    /// For row i at place i - 1: its name.
    names: Vec<u16>,
    /// The rows in the order of their names, and by county.
    chain: Order,
    counties: Counties,
    file: Vec<u8>,
    writes: usize,
    /// For row i at place i - 1: which of the done writes it has.
    has: Vec<Vec<bool>>,
    in_force: Laid,
    /// For row i at place i - 1: its own list.
    own: Vec<Laid>,
}

impl Book {
    /// A done founding.
    pub fn open(rules: Rules, file_len: usize, names: &[u16], shape: Shape, counties: Counties) -> Book {
        let all = rules.lay(shape, rows::first(names.len()), &counties);
        Book {
            rules,
            shape,
            names: names.to_vec(),
            chain: Order::first(names.len()),
            counties,
            file: vec![0; file_len],
            writes: 0,
            has: vec![Vec::new(); names.len()],
            in_force: all,
            own: vec![all; names.len()],
        }
    }

    /// A done write.
    pub fn write(&mut self, coordinator: usize, answering: u64, offset: usize, patch: &[u8]) {
        let choice = self.choice(Quorum::Write, coordinator) & answering;
        let set = if self.suffices(Quorum::Write, choice) { choice } else { answering };
        let takers: Vec<usize> = rows::members(set).filter(|&row| self.has_all(row)).collect();
        for row in 1..=self.names.len() {
            self.has[row - 1].push(takers.contains(&row));
        }
        self.file[offset..offset + patch.len()].copy_from_slice(patch);
        self.writes += 1;
    }

    /// A done send.
    pub fn send(&mut self, from: usize, to: usize) {
        for write in 0..self.writes {
            self.has[to - 1][write] |= self.has[from - 1][write];
        }
    }

    /// A done check. The list in force keeps its grid.
    pub fn check(&mut self, answering: u64) {
        if self.is_changed_by(answering) {
            self.in_force = self.rules.lay(self.shape, answering, &self.counties);
            for row in rows::members(answering) {
                self.own[row - 1] = self.in_force;
            }
        }
    }

    /// Would a done check of these rows change the list in force?
    pub fn is_changed_by(&self, answering: u64) -> bool {
        answering != self.in_force.members
    }

    /// A done joining: the new row has no write, and its own list is empty.
    pub fn join(&mut self, name: u16, county: u8) {
        self.names.push(name);
        self.counties.put(self.names.len(), county);
        self.has.push(vec![false; self.writes]);
        self.own.push(Laid::EMPTY);
        let mut rows: Vec<usize> = (1..=self.names.len()).collect();
        rows.sort_by_key(|row| self.names[row - 1]);
        self.chain = rows.into_iter().collect();
    }

    /// How a read or write that passes questions 1 to 5 is refused: by 6, by 7 or not at all (0).
    pub fn refusal(&self, quorum: Quorum, answering: u64) -> u32 {
        if !self.holds(quorum, answering) {
            6
        } else if !self.any_has_all(answering) {
            7
        } else {
            0
        }
    }

    /// How many machines a read or write that passes questions 1 to 5 calls: the coordinator's own choice, or all.
    pub fn called(&self, quorum: Quorum, coordinator: usize, answering: u64) -> usize {
        let choice = self.choice(quorum, coordinator);
        if self.suffices(quorum, choice & answering) {
            choice.count_ones() as usize
        } else {
            self.names.len()
        }
    }

    /// The bytes that a done read gives.
    pub fn range(&self, offset: usize, length: usize) -> &[u8] {
        &self.file[offset..offset + length]
    }

    pub fn file_len(&self) -> usize {
        self.file.len()
    }

    /// The rows that were founded or joined.
    pub fn rows(&self) -> usize {
        self.names.len()
    }

    /// How many writes are done: the value of a done read.
    pub fn writes(&self) -> usize {
        self.writes
    }

    /// The own choice of the coordinator, over its own list.
    pub fn choice(&self, quorum: Quorum, coordinator: usize) -> u64 {
        self.layout(self.own[coordinator - 1]).choice(quorum, self.names[coordinator - 1])
    }

    /// Does the set hold a quorum of the list in force, and has one of it every done write?
    fn suffices(&self, quorum: Quorum, set: u64) -> bool {
        self.holds(quorum, set) && self.any_has_all(set)
    }

    fn holds(&self, quorum: Quorum, set: u64) -> bool {
        self.layout(self.in_force).holds(quorum, set)
    }

    fn has_all(&self, row: usize) -> bool {
        self.has[row - 1].iter().all(|&has| has)
    }

    fn any_has_all(&self, set: u64) -> bool {
        rows::members(set).any(|row| self.has_all(row))
    }

    fn layout(&self, list: Laid) -> Layout {
        Layout::of(list, &self.chain, &self.counties)
    }
}
