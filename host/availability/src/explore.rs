//! Every state that the model comes to, (list in force, machines up), asked on real tables.
//!
//! A refused call alters no byte. So while checks are refused the table stays as the last done check and the calls after it left it,
//! and there is one table for each list: that of the first history that came to the list.

use crate::coterie::Coterie;
use crate::held::Held;
use crate::relay::{ask, renewed};
use dyngrid::Rows;
use std::collections::VecDeque;

/// There is a byte for each pair of sets: 16 MB.
pub const MOST_MACHINES: usize = 12;

/// Goes through the states from the founding on, event by event. In each of them all that are up are asked, and what they get done must
/// be what the coterie says of the list's length and the positions held: nothing else may count. `tell` hears how many states there
/// were. Returns their number.
pub fn explore<T: Held>(
    founded: &T,
    machines: usize,
    coterie: &Coterie,
    mut tell: impl FnMut(usize) -> Result<(), String>,
) -> Result<usize, String> {
    assert!(machines <= MOST_MACHINES, "{machines} machines: too many pairs of sets");
    let all = Rows::first(machines);
    let mut reached = vec![false; 1 << (2 * machines)];
    let mut tables: Vec<Option<T>> = vec![None; 1 << machines];
    let mut waiting = VecDeque::new();
    let mut states = 0;
    let mut come = |waiting: &mut VecDeque<(Rows, Rows)>, list: Rows, up: Rows| {
        if !std::mem::replace(&mut reached[(list.bits() << machines | up.bits()) as usize], true) {
            waiting.push_back((list, up));
        }
    };
    tables[all.bits() as usize] = Some(renewed(founded, all)?);
    come(&mut waiting, all, all);
    // A list in force, and who is up; in this order histories are as short as can be.
    while let Some((list, up)) = waiting.pop_front() {
        tell(states)?;
        states += 1;
        let table = tables[list.bits() as usize].as_ref().expect("a list in force has a table");
        let state = || format!("{machines} machines, list {list} in force, {up} up");
        let done = ask(table, up).map_err(|problem| format!("{}: {problem}", state()))?;
        let told = coterie.of(list.len()).of(positions(list, up));
        if done != told {
            return Err(format!("{}: {done:?}, and {told:?} in another table", state()));
        }
        if done.write && up != list {
            if tables[up.bits() as usize].is_none() {
                tables[up.bits() as usize] = Some(renewed(table, up)?);
            }
            come(&mut waiting, up, up);
            continue;
        }
        for machine in all {
            come(&mut waiting, list, toggled(up, machine));
        }
    }
    Ok(states)
}

/// Who is up after the machine failed, or was repaired.
pub fn toggled(up: Rows, machine: usize) -> Rows {
    Rows::from_bits(up.bits() ^ 1 << (machine - 1))
}

/// The positions in a list, by bits from 0, of those of its members that are up.
pub fn positions(list: Rows, up: Rows) -> usize {
    let members = list.iter().enumerate();
    members.fold(0, |held, (place, row)| held | usize::from(up.contains(row)) << place)
}
