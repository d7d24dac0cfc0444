//! What is due when nobody calls: sends to stale copies, checks where machines went or came, and the refresh of a row that no choice
//! reaches.

use crate::Request;
use dyngrid::{Rows, Table};

/// The calls that are due of the machine of row `own`, by a survey of the rows that answered: one after the other, and then a new
/// survey. Nothing is lost if they are made late, or twice, or refused.
///
/// While all are up, only the rows of a choice are written. A copy that is left behind so has no mark, and a send to it is refused. With
/// `refresh`, a check without its row, made by another machine, and one with it mark it; a send then brings it up.
pub fn due(table: &Table, answered: Rows, own: usize, refresh: bool) -> Vec<Request> {
    let sends: Vec<Request> = (1..=table.files())
        .flat_map(|file| table.file(file).sends_from_newest().into_iter().map(move |ends| (file, ends)))
        .map(|(file, (from, to))| Request::Send { file, from, to })
        .collect();
    if !sends.is_empty() {
        return sends;
    }
    let listed = |row: &_| table.row(*row).filter(|row| !row.list.is_empty());
    let newest = answered.iter().filter_map(|row| listed(&row)).max_by_key(|row| row.epoch);
    let Some((epoch, list)) = newest.map(|row| (row.epoch, row.list)) else { return Vec::new() };
    let with_all = Request::Check { without: Rows::EMPTY };
    let in_force = |row: usize| listed(&row).is_some_and(|row| row.epoch == epoch);
    if list != answered || !answered.iter().all(in_force) {
        return vec![with_all];
    }
    let behind = |file: usize| {
        let version = move |row: &usize| table.file(file).copy(*row).map(|copy| copy.version);
        let newest = answered.iter().filter_map(|row| version(&row)).max();
        answered.iter().find(|row| *row != own && version(row) < newest)
    };
    match (1..=table.files()).find_map(behind).filter(|_| refresh) {
        Some(row) => vec![Request::Check { without: [row].into_iter().collect() }, with_all],
        None => Vec::new(),
    }
}
