use crate::grid::TALL;
use crate::{CopyView, Grid, Kind, Layout, RowView, Rows, Table};
use std::fmt;

/// The table at a glance: for each machine, in name order, a line for each file, and the list in force in its grid, which is filled
/// row by row in that order.
///
/// A copy is `current` if it has no mark and no row has or desires a newer version of that file, `behind` if it has no mark and one
/// does, and else `stale`. The list in force is that of the highest epoch. A row is in it or left out of it; a row that joined, and
/// that no check took in yet, has no list, nor has one that did not answer in a table that was [assembled](Table::assemble). Should a
/// call have left the table malformed, the first line says so, and no list is in force.
///
/// Where machines are of several counties, each line tells the county; a list in force of several is shown on two levels: the grid of
/// its counties, and below it each county's own.
///
/// ```
/// use dyngrid::{Rows, Shape, Table};
///
/// let mut table = Table::found_group(6, 16, &[1, 2, 3, 4], Shape::Wide, 2)?;
/// table.file_mut(1).write(1, Rows::of(&[1, 2, 3])?, 0, b"1-0")?;
/// table.file_mut(2).write(1, Rows::of(&[1, 2, 4])?, 0, b"0:47")?;
/// table.check(1, Rows::of(&[1, 2, 4])?)?; // machine 3 is away; row 4 lacks the write of file 1
/// table.file_mut(1).write(1, Rows::of(&[1, 2])?, 0, b"0-1")?;
/// table.join(5)?;
/// assert_eq!(
///     table.to_string(),
///     "\
/// 5 of 6 rows in use, 2 files of length 16
///  name  row    epoch  list      file  version  state
///     1    1        1  in force     1        2  current
///                                   2        1  current
///     2    2        1  in force     1        2  current
///                                   2        1  current
///     3    3        0  left out     1        1  behind
///                                   2        0  behind
///     4    4        1  in force     1        0  stale, desires 1
///                                   2        1  current
///     5    5        0  no list      1        0  behind
///                                   2        0  behind
/// list in force, of epoch 1, in its grid:
///     1      2
///     4"
/// );
/// # Ok::<(), dyngrid::Refusal>(())
/// ```
impl fmt::Display for Table {
    fn fmt(&self, f: &mut fmt::Formatter) -> fmt::Result {
        self.show(self.rows()).fmt(f)
    }
}

/// A table as the machines that answered show it; see [`Table::show`].
#[derive(Clone, Copy, Debug)]
pub struct Shown<'a> {
    table: &'a Table,
    answering: Rows,
}

impl Table {
    /// The table at a glance, as `println!("{table}")` shows it, by these rows alone: all others are `away`, whatever the table has for
    /// them, and count for nothing. With `{:#}` it shows the machines alone, by their names: no row numbers, and no grid.
    ///
    /// ```
    /// use dyngrid::{Rows, Shape, Table};
    ///
    /// let mut table = Table::found(3, 16, &[1, 2, 3], Shape::Wide)?;
    /// table.file_mut(1).write(1, Rows::first(2), 0, b"1-0")?;
    /// assert_eq!(
    ///     table.show(Rows::of(&[1, 3])?).to_string(),
    ///     "\
    /// 3 of 3 rows in use, 1 file of length 16
    ///  name  row    epoch  list      file  version  state
    ///     1    1        0  in force     1        1  current
    ///     2    2                                    away
    ///     3    3        0  in force     1        0  behind
    /// list in force, of epoch 0, in its grid:
    ///     1      2
    ///     3"
    /// );
    /// # Ok::<(), dyngrid::Refusal>(())
    /// ```
    #[must_use]
    pub fn show(&self, answering: Rows) -> Shown<'_> {
        Shown { table: self, answering }
    }
}

impl fmt::Display for Shown<'_> {
    fn fmt(&self, f: &mut fmt::Formatter) -> fmt::Result {
        let Shown { table, answering } = *self;
        let mut views: Vec<RowView> = table.views().collect();
        views.sort_by_key(|view| view.name);
        let here: Vec<RowView> = views.iter().filter(|view| answering.contains(view.row)).cloned().collect();
        let in_force = InForce::of(table, answering);
        if let InForce::Malformed = in_force {
            writeln!(f, "DAMAGED: not well formed, every call on it is refused by 1; use a good copy of it")?;
        }
        let (used, capacity, files) = (table.used(), table.capacity(), table.files());
        let of = if files == 1 { "file of" } else { "files of" };
        writeln!(f, "{used} of {capacity} rows in use, {files} {of} length {}", table.file_len())?;
        // Without row numbers and counties, the lines of further files begin further left.
        let row_head = if f.alternate() { "" } else { "  row" };
        let county_head = if several_counties(&views) { "  county" } else { "" };
        let indent = 24 + row_head.len() + county_head.len();
        write!(f, " name{row_head}{county_head}    epoch  list      file  version  state")?;
        let newest: Vec<u32> = (0..files).map(|place| newest(&here, place)).collect();
        for view in &views {
            let RowView { row, name, epoch, .. } = view;
            write!(f, "\n{name:>5}")?;
            if !f.alternate() {
                write!(f, "  {row:>3}")?;
            }
            if !county_head.is_empty() {
                write!(f, "  {:>6}", view.county)?;
            }
            if !answering.contains(*row) {
                write!(f, "{:36}away", "")?;
                continue;
            }
            write!(f, "  {epoch:>7}  {:8}", in_force.place(view))?;
            for (copy, newest) in view.copies.iter().zip(&newest) {
                if copy.file > 1 {
                    write!(f, "\n{:indent$}", "")?;
                }
                write!(f, "  {:>4}  {:>7}  ", copy.file, copy.version)?;
                match copy {
                    CopyView { stale: true, desired, .. } => write!(f, "stale, desires {desired}")?,
                    _ if copy.version == *newest => f.write_str("current")?,
                    _ => f.write_str("behind")?,
                }
            }
        }
        if f.alternate() {
            return Ok(());
        }
        in_force.draw(f, table)
    }
}

fn several_counties(views: &[RowView]) -> bool {
    views.windows(2).any(|two| two[0].county != two[1].county)
}

/// The newest version that a copy at this place has or desires.
fn newest(views: &[RowView], place: usize) -> u32 {
    views.iter().map(|view| view.copies[place].version.max(view.copies[place].desired)).max().unwrap_or(0)
}

/// The list of the highest epoch, as the library takes it.
enum InForce {
    /// The library refuses the table.
    Malformed,
    /// No row has a list.
    None,
    List(Layout),
}

impl InForce {
    fn of(table: &Table, answering: Rows) -> InForce {
        match table.layout_in_force(answering) {
            Some(layout) => InForce::List(layout),
            None if table.choice(1, Kind::Read).is_err() => InForce::Malformed,
            None => InForce::None,
        }
    }

    /// Is the row in the list in force?
    fn place(&self, view: &RowView) -> &'static str {
        match self {
            _ if view.list.is_empty() => "no list",
            InForce::List(layout) if layout.list().contains(view.row) => "in force",
            InForce::List(_) => "left out",
            _ => "a list",
        }
    }

    /// The names in their columns; those of several counties on two levels.
    fn draw(&self, f: &mut fmt::Formatter, table: &Table) -> fmt::Result {
        let InForce::List(layout) = self else {
            return match self {
                InForce::None => f.write_str("\nno row has a list"),
                _ => Ok(()),
            };
        };
        let name = |row| table.row(row).map_or(0, |view| view.name.into());
        let tall = if layout.mark() == TALL { "tall " } else { "" };
        write!(f, "\nlist in force, of epoch {}, in ", layout.epoch())?;
        if let Some(grid) = layout.grid() {
            write!(f, "its {tall}grid:")?;
            return draw(f, grid, name);
        }
        write!(f, "{tall}grids on two levels; its counties:")?;
        draw(f, layout.counties(), |county| county)?;
        for (county, grid) in layout.grids() {
            write!(f, "\ncounty {county}:")?;
            draw(f, grid, name)?;
        }
        Ok(())
    }
}

fn draw(f: &mut fmt::Formatter, grid: &Grid, number: impl Fn(usize) -> usize) -> fmt::Result {
    for line in grid.lines() {
        for (place, &member) in line.iter().enumerate() {
            let before = if place == 0 { "\n" } else { "  " };
            write!(f, "{before}{:>5}", number(member))?;
        }
    }
    Ok(())
}
