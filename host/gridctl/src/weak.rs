//! `weak`: which losses stop a call.

use crate::arguments::Arguments;
use crate::asking::{Asked, Asking};
use crate::names::{in_order, joined, names, wrapped};
use crate::show::opened;
use crate::Told;
use dyngrid::{Rows, Table};

pub fn weak(arguments: &mut Arguments) -> Told {
    let (kept, on) = opened(arguments)?;
    let asking = Asking::new(&kept.table);
    Ok(Asked::ALL.into_iter().map(|asked| losses(&kept.table, &asking, asked, on)).collect())
}

/// Single losses first; then pairs that hold none of these.
fn losses(table: &Table, asking: &Asking, asked: Asked, on: Rows) -> String {
    let word = asked.word();
    if asking.stops(asked, on) {
        return format!("{word:5} is refused already, with {} on\n", names(table, on));
    }
    let each = in_order(table, on).into_iter().map(|row| [row].into_iter().collect::<Rows>());
    let (single, spared): (Vec<Rows>, Vec<Rows>) = each.partition(|&lost| asking.stops(asked, on - lost));
    let mut pairs = Vec::new();
    for (place, &first) in spared.iter().enumerate() {
        let others = spared[place + 1..].iter().map(|&second| first | second);
        pairs.extend(others.filter(|&lost| asking.stops(asked, on - lost)));
    }
    let told = |sets: &[Rows], none: &str| match sets {
        [] => vec![none.to_string()],
        sets => sets.iter().map(|&set| joined(table, set, "+")).collect(),
    };
    wrapped(&format!("{word:5} stops without: "), &told(&single, "no one machine"))
        + &wrapped("      or without both of: ", &told(&pairs, "no two"))
}
