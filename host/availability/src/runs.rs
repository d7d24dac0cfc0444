//! The shortest run of events after which the published lists are refused what the paper grants.

use crate::coterie::Coterie;
use crate::explore::{positions, toggled};
use crate::held::{library, Held, Second};
use crate::relay::{ask, renewed, Done};
use dyngrid::{Rows, Shape};
use std::collections::{HashSet, VecDeque};

/// One event of a run, and what came of the check after it.
pub struct Step {
    pub machine: usize,
    pub up: Rows,
    /// By published lists: is the check done?
    pub published: Done,
    /// By the library.
    pub library: Done,
}

/// The shortest run from all machines up to a check that is refused by one coterie and done by the other; none if there is none.
pub fn shortest(machines: usize, refused_by: &Coterie, done_by: &Coterie) -> Option<Vec<usize>> {
    let all = Rows::first(machines);
    let mut waiting = VecDeque::from([(all, all, Vec::new())]);
    let mut reached = HashSet::from([(all.bits(), all.bits())]);
    while let Some((list, up, run)) = waiting.pop_front() {
        for machine in all {
            let up = toggled(up, machine);
            let run = [&run[..], &[machine]].concat();
            let done = |coterie: &Coterie| coterie.of(list.len()).of(positions(list, up)).write;
            if done(done_by) && !done(refused_by) {
                return Some(run);
            }
            let list = if done(refused_by) { up } else { list };
            if reached.insert((list.bits(), up.bits())) {
                waiting.push_back((list, up, run));
            }
        }
    }
    None
}

/// Makes the run, event by event, on a table with published lists and on one of the library.
pub fn made(machines: usize, run: &[usize]) -> Result<Vec<Step>, String> {
    let mut published = Second::published(machines);
    let mut library = library(machines, Shape::Wide);
    let mut up = Rows::first(machines);
    let mut steps = Vec::new();
    for &machine in run {
        up = toggled(up, machine);
        steps.push(Step {
            machine,
            up,
            published: step(&mut published, up)?,
            library: step(&mut library, up)?,
        });
    }
    Ok(steps)
}

/// The check after an event.
fn step<T: Held>(table: &mut T, up: Rows) -> Result<Done, String> {
    let done = ask(table, up)?;
    if done.write {
        *table = renewed(table, up)?;
    }
    Ok(done)
}
