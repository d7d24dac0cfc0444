//! `next`: the check and the sends that are due, in their order.

use crate::arguments::Arguments;
use crate::grid::{of_files, Picture};
use crate::names::{first, name, names};
use crate::show::opened;
use crate::{asking::Asked, unusable, Told};
use dyngrid::{Refusal, Rows, Table};

pub fn next(arguments: &mut Arguments) -> Told {
    let (kept, on) = opened(arguments)?;
    let Some(by) = first(&kept.table, on) else { return Ok("nobody is on\n".into()) };
    // Those who are off have no part in it.
    let rows = on.iter().filter_map(|row| Some((row, kept.table.row_bytes(row)?)));
    let mut due = Due {
        table: Table::assemble(&kept.table.frame(), rows).map_err(unusable)?,
        by,
        on,
        steps: Vec::new(),
    };
    let mut refused = due.check();
    due.sends();
    if refused.is_some() && !due.steps.is_empty() {
        // A stale file may have stood in its way.
        refused = due.check();
        due.sends();
    }
    let mut text = String::new();
    if due.steps.is_empty() && refused.is_none() {
        text = format!(
            "nothing is due: {} are the list in force, and no copy is stale\n",
            names(&due.table, on)
        );
    }
    for (number, step) in (1..).zip(&due.steps) {
        text.push_str(&format!("{number}. {step}\n"));
    }
    if refused.is_some() {
        for (_, verdict) in Picture::new(&kept.table, kept.here, on).verdicts(Asked::Check) {
            text.push_str(&format!("a check: {}\n", verdict.err().unwrap_or_else(|| "yes".into())));
        }
    }
    Ok(text)
}

/// What is due, made on a table of its own as it is found.
struct Due {
    table: Table,
    by: usize,
    on: Rows,
    steps: Vec<String>,
}

impl Due {
    /// The check, if it is due and done; else by what it is refused.
    fn check(&mut self) -> Option<Refusal> {
        let before = self.table.clone();
        match self.table.check(self.by, self.on) {
            Err(refusal) => return Some(refusal),
            Ok(epoch) if self.table != before => {
                let (by, with) = (name(&self.table, self.by), names(&self.table, self.on));
                self.steps.push(format!("check by {by} with {with} on: list of epoch {epoch}"));
            }
            Ok(_) => {}
        }
        None
    }

    /// The sends of each file, from a machine that has its newest version.
    fn sends(&mut self) {
        for file in 1..=self.table.files() {
            for (from, to) in self.table.file(file).sends_from_newest() {
                if self.table.file_mut(file).send(from, to, self.on).is_ok() {
                    let of = if self.table.files() == 1 {
                        String::new()
                    } else {
                        format!(" {}", of_files(&[file]))
                    };
                    let (from, to) = (name(&self.table, from), name(&self.table, to));
                    self.steps.push(format!("send{of} from {from} to {to}"));
                }
            }
        }
    }
}
