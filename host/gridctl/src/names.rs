//! Machines by their names.

use crate::{unusable, Stop};
use dyngrid::{Rows, Table};

/// The row of the machine of this name.
pub fn row(table: &Table, name: u16) -> Result<usize, Stop> {
    let known =
        || unusable(format!("no machine has the name {name}; there are {}", names(table, table.rows())));
    table.row_named(name).map(|view| view.row).ok_or_else(known)
}

/// The rows of machines told by their names, as in `10,20`.
pub fn rows(table: &Table, list: &str) -> Result<Rows, Stop> {
    parse(list)?.into_iter().map(|name| row(table, name)).collect()
}

/// Names with commas between them.
pub fn parse(list: &str) -> Result<Vec<u16>, Stop> {
    let one = |name: &str| {
        name.trim().parse().map_err(|_| {
            unusable(format!("{name} is no name: machines have numbers from 1 to 65535, as in 10,20,30"))
        })
    };
    list.split(',').filter(|name| !name.is_empty()).map(one).collect()
}

/// The name of the machine in a row that is in use.
pub fn name(table: &Table, row: usize) -> u16 {
    table.row(row).map_or(0, |view| view.name)
}

/// These rows in the order of their names.
pub fn in_order(table: &Table, rows: Rows) -> Vec<usize> {
    let mut order: Vec<usize> = (rows & table.rows()).iter().collect();
    order.sort_by_key(|&row| name(table, row));
    order
}

/// The names of these rows, in their order.
pub fn list(table: &Table, rows: Rows) -> Vec<u16> {
    in_order(table, rows).into_iter().map(|row| name(table, row)).collect()
}

/// The same as in `10, 20, 30`; `nobody` where there is none.
pub fn names(table: &Table, rows: Rows) -> String {
    joined(table, rows, ", ")
}

/// The same with something else between them.
pub fn joined(table: &Table, rows: Rows, between: &str) -> String {
    if rows.is_empty() {
        return "nobody".into();
    }
    list(table, rows).iter().map(u16::to_string).collect::<Vec<_>>().join(between)
}

/// The lowest name among these rows, by its row.
pub fn first(table: &Table, rows: Rows) -> Option<usize> {
    in_order(table, rows).first().copied()
}

/// Words behind a heading, in lines of at most 100 letters; further lines begin below the first word.
pub fn wrapped(heading: &str, words: &[String]) -> String {
    const WIDTH: usize = 100;
    let mut text = heading.to_string();
    let mut width = heading.len();
    for (place, word) in words.iter().enumerate() {
        if place > 0 && width + word.len() > WIDTH {
            text.truncate(text.trim_end().len());
            text.push_str(&format!("\n{:indent$}", "", indent = heading.len()));
            width = heading.len();
        }
        text.push_str(word);
        width += word.len();
        if place + 1 < words.len() {
            text.push_str(", ");
            width += 2;
        }
    }
    text.push('\n');
    text
}
