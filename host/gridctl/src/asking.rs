//! Would a call be done? The library is asked, on the table's outline.

use crate::names;
use dyngrid::{Refusal, Rows, Table};

/// The calls that are asked about.
#[derive(Clone, Copy, Debug, PartialEq, Eq)]
pub enum Asked {
    Read,
    Write,
    Check,
}

impl Asked {
    pub const ALL: [Asked; 3] = [Asked::Read, Asked::Write, Asked::Check];

    pub fn word(self) -> &'static str {
        match self {
            Asked::Read => "read",
            Asked::Write => "write",
            Asked::Check => "check",
        }
    }
}

/// A table to ask about, in outline.
pub struct Asking {
    outline: Table,
}

impl Asking {
    pub fn new(table: &Table) -> Asking {
        Asking { outline: table.outline() }
    }

    /// Is the call refused if these machines are on? The one with the lowest name coordinates; nobody can where nobody is on.
    pub fn refusal(&self, asked: Asked, file: usize, on: Rows) -> Option<Refusal> {
        let Some(by) = names::first(&self.outline, on) else { return Some(Refusal::NoQuorum) };
        let mut copy = self.outline.clone();
        match asked {
            Asked::Read => copy.file(file).read(by, on, 0, &mut [0]).err().map(Refusal::from),
            Asked::Write => copy.file_mut(file).write(by, on, 0, &[0]).err().map(Refusal::from),
            Asked::Check => copy.check(by, on).err(),
        }
    }

    /// Is it refused for some file?
    pub fn stops(&self, asked: Asked, on: Rows) -> bool {
        self.files(asked).any(|file| self.refusal(asked, file, on).is_some())
    }

    /// The verdicts, files with the same one together.
    pub fn verdicts(&self, asked: Asked, on: Rows) -> Vec<(Vec<usize>, Option<Refusal>)> {
        let mut verdicts: Vec<(Vec<usize>, Option<Refusal>)> = Vec::new();
        for file in self.files(asked) {
            let refusal = self.refusal(asked, file, on);
            match verdicts.iter_mut().find(|(_, other)| *other == refusal) {
                Some((files, _)) => files.push(file),
                None => verdicts.push((vec![file], refusal)),
            }
        }
        verdicts
    }

    /// A check is of all files, and asked once.
    fn files(&self, asked: Asked) -> impl Iterator<Item = usize> {
        1..=if asked == Asked::Check { 1 } else { self.outline.files() }
    }

    /// Whom of these to switch on so that the call is done: the smallest sets, or one that is enough where there are too many to try;
    /// none where all of them are not enough.
    pub fn to_switch_on(&self, asked: Asked, file: usize, on: Rows, off: Rows) -> Vec<Rows> {
        const MOST_TRIED: usize = 5_000;
        let done = |more: Rows| self.refusal(asked, file, on | more).is_none();
        if !done(off) {
            return Vec::new();
        }
        let mut tried = 0;
        let mut sets = vec![Rows::EMPTY];
        for _ in 0..off.len() {
            // Each set once: members are added in rising order.
            let above =
                |set: Rows| off.iter().filter(move |&row| set.iter().next_back().is_none_or(|top| top < row));
            sets = sets
                .iter()
                .flat_map(|&set| above(set).map(move |row| with(set, row)))
                .take(MOST_TRIED)
                .collect();
            tried += sets.len();
            if tried >= MOST_TRIED {
                break;
            }
            let enough: Vec<Rows> = sets.iter().copied().filter(|&set| done(set)).collect();
            if !enough.is_empty() {
                return enough;
            }
        }
        // Too many to try: from all of them, those are left out that can be spared.
        let spare =
            |set: Rows, row| Some(set - with(Rows::EMPTY, row)).filter(|&fewer| done(fewer)).unwrap_or(set);
        vec![off.iter().fold(off, spare)]
    }
}

fn with(set: Rows, row: usize) -> Rows {
    set | [row].into_iter().collect()
}
