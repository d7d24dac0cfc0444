//! `sheet`: the sheet of the clubs' writes, shown or made; and sheets on the disk.

use crate::arguments::Arguments;
use crate::{unusable, Stop, Told};
use dyngrid::{Allowance, Sheet};
use std::fs;
use std::path::Path;

pub fn sheet(arguments: &mut Arguments) -> Told {
    let path = arguments.word("SHEET")?;
    let Some(clubs) = arguments.optional() else { return Ok(format!("{}\n", open(&path)?)) };
    let total = arguments.number("TOTAL")?;
    arguments.end()?;
    let clubs: Result<Vec<Allowance>, Stop> = clubs.split(',').map(club).collect();
    let sheet = Sheet::new(&clubs?, total).map_err(unusable)?;
    if Path::new(&path).exists() {
        return Err(unusable(format!("{path} is there already: name another, or take it away first")));
    }
    keep(&path, &sheet)?;
    Ok(format!("{sheet}\n"))
}

/// A club's assured number and ceiling, as in `2/4`.
fn club(told: &str) -> Result<Allowance, Stop> {
    let numbers = told.split_once('/').and_then(|(assured, ceiling)| {
        Some(Allowance { assured: assured.parse().ok()?, ceiling: ceiling.parse().ok()? })
    });
    numbers.ok_or_else(|| unusable(format!("{told} is no assured number and ceiling, as in 2/4")))
}

/// The sheet in this file; without one, no limits.
pub fn lent(path: Option<&str>) -> Result<Sheet, Stop> {
    path.map_or(Ok(Sheet::open()), open)
}

fn open(path: &str) -> Result<Sheet, Stop> {
    let bytes = fs::read(path).map_err(|error| unusable(format!("{path}: {error}")))?;
    Sheet::from_bytes(&bytes).map_err(|error| unusable(format!("{path}: {error}")))
}

pub fn keep(path: &str, sheet: &Sheet) -> Result<(), Stop> {
    crate::store::write(Path::new(path), sheet.as_bytes())
}
