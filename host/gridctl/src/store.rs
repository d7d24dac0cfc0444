//! Tables on the disk: a file with a table, or a folder with a frame and the rows of machines.
//!
//! In a folder the file `frame` is the frame, in short or as a table, and `10.row` the row that machine 10 holds. A machine without such a file
//! did not answer.

use crate::{names, unusable, Stop};
use dyngrid::{NotAssembled, Rows, Table};
use std::fs;
use std::path::{Path, PathBuf};

const FRAME: &str = "frame";
const ROW: &str = "row";

/// A table, and which of its rows are there.
pub struct Kept {
    path: PathBuf,
    pub table: Table,
    pub here: Rows,
}

impl Kept {
    pub fn open(path: &str) -> Result<Kept, Stop> {
        let path = PathBuf::from(path);
        if path.is_dir() {
            return from_folder(path);
        }
        let table = Table::from_bytes(read(&path)?)
            .map_err(|error| unusable(format!("{}: {error}", path.display())))?;
        Ok(Kept { here: table.rows(), path, table })
    }

    /// A table that is not on the disk yet. A path that is a folder, or ends as one does, becomes a folder.
    pub fn new(path: &str, table: Table) -> Result<Kept, Stop> {
        let kept = Kept { path: PathBuf::from(path), here: table.rows(), table };
        let taken = if kept.path.is_dir() { kept.path.join(FRAME).exists() } else { kept.path.exists() };
        if taken {
            return Err(unusable(format!("{path} is there already: name another, or take it away first")));
        }
        if path.ends_with('/') {
            fs::create_dir_all(path).map_err(|error| unusable(format!("{path}: {error}")))?;
        }
        Ok(kept)
    }

    /// Those who are on: the rows that are there, but for these names.
    pub fn on(&self, off: Option<String>) -> Result<Rows, Stop> {
        Ok(self.here - names::rows(&self.table, off.as_deref().unwrap_or(""))?)
    }

    /// Puts the table on the disk; of a folder the frame, and the rows of these machines.
    pub fn save(&self, changed: Rows) -> Result<(), Stop> {
        if !self.path.is_dir() {
            return write(&self.path, self.table.as_bytes());
        }
        for row in changed {
            let bytes = self.table.row_bytes(row).unwrap_or_default();
            write(&row_file(&self.path, names::name(&self.table, row)), bytes)?;
        }
        write(&self.path.join(FRAME), &self.table.short_frame())
    }
}

fn row_file(folder: &Path, name: u16) -> PathBuf {
    folder.join(name.to_string()).with_extension(ROW)
}

fn read(path: &Path) -> Result<Vec<u8>, Stop> {
    fs::read(path).map_err(|error| unusable(format!("{}: {error}", path.display())))
}

/// Beside the old bytes first, so that a crash leaves the old ones or the new ones.
pub fn write(path: &Path, bytes: &[u8]) -> Result<(), Stop> {
    let mut beside = path.as_os_str().to_owned();
    beside.push(".new");
    fs::write(&beside, bytes)
        .and_then(|()| fs::rename(&beside, path))
        .map_err(|error| unusable(format!("{}: {error}", path.display())))
}

fn from_folder(path: PathBuf) -> Result<Kept, Stop> {
    let frame = path.join(FRAME);
    if !frame.exists() {
        return Err(unusable(format!("{} has no file `{FRAME}`, and so holds no table", path.display())));
    }
    let taken = Table::from_short_frame(&read(&frame)?);
    let frame = taken.or_else(|error| Table::from_bytes(error.into_bytes())).map_err(|_| {
        unusable(format!("{} is damaged, or no frame: take another machine's", frame.display()))
    })?;
    let mut rows = Vec::new();
    for entry in fs::read_dir(&path).map_err(|error| unusable(format!("{}: {error}", path.display())))? {
        let file = entry.map_err(unusable)?.path();
        if file.extension().is_none_or(|extension| extension != ROW) {
            continue;
        }
        let name = file.file_stem().and_then(|stem| stem.to_str()?.parse().ok());
        let name = name.ok_or_else(|| unusable(format!("{}: its name is no machine's", file.display())))?;
        let row = names::row(&frame, name).map_err(|_| {
            unusable(format!("{}: the frame has no machine {name}; take the newest frame", file.display()))
        })?;
        rows.push((row, read(&file)?));
    }
    rows.sort_unstable();
    let here = rows.iter().map(|(row, _)| *row).collect();
    match Table::assemble(&frame, rows.iter().map(|(row, bytes)| (*row, bytes))) {
        Ok(table) => Ok(Kept { path, table, here }),
        Err(error) => Err(unusable(not_assembled(&path, &frame, &rows, &error))),
    }
}

/// Why the rows of a folder are no table, by the names of files.
fn not_assembled(path: &Path, frame: &Table, rows: &[(usize, Vec<u8>)], error: &NotAssembled) -> String {
    let file = |row| row_file(path, names::name(frame, row)).display().to_string();
    let length = frame.row_bytes(1).unwrap_or_default().len();
    match *error {
        NotAssembled::WrongLength { row, length: found } => {
            format!("{}: {found} bytes are no row of this table, which takes {length}", file(row))
        }
        NotAssembled::OtherName { row, name } => {
            format!("{}: this is the row of machine {name}; ask each machine for its own", file(row))
        }
        NotAssembled::OtherCounty { row, county } => {
            let told = frame.county(row).unwrap_or(0);
            format!("{}: this row is of county {county}, and the frame says {told}; one of them is damaged, or of another table", file(row))
        }
        _ => {
            let fits_without = |&row: &usize| {
                let others = rows.iter().filter(|(other, _)| *other != row);
                Table::assemble(frame, others.map(|(row, bytes)| (*row, bytes))).is_ok()
            };
            let blamed: Vec<String> =
                rows.iter().map(|(row, _)| *row).filter(fits_without).map(file).collect();
            let hint = match &blamed[..] {
                [] => String::new(),
                files => format!(" (without {} they would)", files.join(", or without ")),
            };
            format!("{}: {error}{hint}", path.display())
        }
    }
}
