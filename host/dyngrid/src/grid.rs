use crate::{Kind, Rows, Shape, Table};
use std::collections::BTreeSet;

/// The [mark](crate::RowView::grid_mark) of a tall list.
pub(crate) const TALL: u8 = 2;

/// A grid, which its members fill line by line: machines in name order, by their rows, or counties in rising order.
///
/// A read needs one member of each column, a write or a check also a whole column.
#[derive(Clone, Debug, PartialEq, Eq)]
pub struct Grid {
    columns: usize,
    members: Vec<usize>,
}

impl Grid {
    /// The members, in their order.
    #[must_use]
    pub fn members(&self) -> &[usize] {
        &self.members
    }

    /// The lines that they fill, the last one perhaps in part.
    pub fn lines(&self) -> impl Iterator<Item = &[usize]> + '_ {
        self.members.chunks(self.columns)
    }

    /// How many lines the grid has; columns may end one line earlier.
    #[must_use]
    pub fn rows(&self) -> usize {
        self.members.len().div_ceil(self.columns)
    }

    /// How many columns it has.
    #[must_use]
    pub fn columns(&self) -> usize {
        self.columns
    }

    /// Where a member stands: its line and its column, each from 1 on; none if it is no member.
    #[must_use]
    pub fn place(&self, member: usize) -> Option<(usize, usize)> {
        let position = self.members.iter().position(|&other| other == member)?;
        Some((position / self.columns + 1, position % self.columns + 1))
    }

    /// The members in a column, counted from 1; none in a column that there is not.
    pub fn column(&self, column: usize) -> impl Iterator<Item = usize> + '_ {
        let of_it = move |member: &usize| self.place(*member).is_some_and(|place| place.1 == column);
        self.members.iter().copied().filter(of_it)
    }
}

/// How a list is laid: in one grid, or, if its members are of several counties, in a grid for each county and one of the counties
/// above them. A call then needs counties as it needs machines of one grid, and counts a county in which it has the machines that
/// it needs.
///
/// ```
/// use dyngrid::{Shape, Table};
///
/// # fn main() -> Result<(), Box<dyn std::error::Error>> {
/// let table = Table::found(5, 16, &[1, 2, 3, 4, 5], Shape::Wide)?;
/// let layout = table.layout(1).ok_or("a list")?;
/// let grid = layout.grid().ok_or("one county")?;
/// assert_eq!((grid.rows(), grid.columns()), (3, 2));
/// assert_eq!(grid.place(4), Some((2, 2)));
/// assert_eq!(grid.column(1).collect::<Vec<_>>(), [1, 3, 5]);
///
/// let table = Table::found_counties(5, 16, &[1, 2, 3, 4, 5], Shape::Wide, 1, &[1, 1, 7, 1, 1])?;
/// let layout = table.layout(1).ok_or("a list")?;
/// assert_eq!(layout.grid(), None);
/// assert_eq!((layout.counties().members(), layout.counties().columns()), (&[1, 7][..], 2));
/// let (county, grid) = layout.grids().next().ok_or("a county")?;
/// assert_eq!((county, grid.members(), grid.columns()), (1, &[1, 2, 4, 5][..], 2));
/// # Ok(())
/// # }
/// ```
#[derive(Clone, Debug, PartialEq, Eq)]
pub struct Layout {
    epoch: u32,
    mark: u8,
    counties: Grid,
    grids: Vec<Grid>,
}

impl Layout {
    /// The epoch of the list.
    #[must_use]
    pub fn epoch(&self) -> u32 {
        self.epoch
    }

    /// The [mark](crate::RowView::grid_mark) of its grids.
    #[must_use]
    pub fn mark(&self) -> u8 {
        self.mark
    }

    /// Its members.
    #[must_use]
    pub fn list(&self) -> Rows {
        self.grids.iter().flat_map(|grid| grid.members.iter().copied()).collect()
    }

    /// The one grid of a list within one county; none of a list of several.
    #[must_use]
    pub fn grid(&self) -> Option<&Grid> {
        match &self.grids[..] {
            [grid] => Some(grid),
            _ => None,
        }
    }

    /// The counties that have members, in their grid.
    #[must_use]
    pub fn counties(&self) -> &Grid {
        &self.counties
    }

    /// Each of these counties, with the grid of its members.
    pub fn grids(&self) -> impl Iterator<Item = (usize, &Grid)> + '_ {
        self.counties.members.iter().copied().zip(&self.grids)
    }
}

impl Table {
    /// How a row's own list is laid; none if the row is not in use or has no list, or on a malformed table.
    #[must_use]
    pub fn layout(&self, row: usize) -> Option<Layout> {
        let view = self.row(row)?;
        let choice = self.choice(row, Kind::Read).ok().filter(|choice| !choice.is_empty())?;
        let mut members: Vec<(u16, usize, u8)> = self
            .views()
            .filter(|other| view.list.contains(other.row))
            .map(|other| (other.name, other.row, other.county))
            .collect();
        members.sort_unstable();
        let counties: BTreeSet<u8> = members.iter().map(|(.., county)| *county).collect();
        let several = counties.len() > 1;
        let shape = if view.grid_mark == TALL { Shape::Tall } else { Shape::Wide };
        // Within one county a read's choice has one row of each column, whenever the list was laid.
        let laid = |members: Vec<usize>| Grid {
            columns: if several { columns(members.len(), shape) } else { choice.len() },
            members,
        };
        let of = |county| members.iter().filter(move |member| member.2 == county).map(|member| member.1);
        Some(Layout {
            epoch: view.epoch,
            mark: view.grid_mark,
            grids: counties.iter().map(|&county| laid(of(county).collect())).collect(),
            counties: Grid {
                columns: columns(counties.len(), shape),
                members: counties.into_iter().map(usize::from).collect(),
            },
        })
    }

    /// How the list in force by these rows is laid: the list of the highest epoch among them; none if none of them has a list, or on
    /// a malformed table.
    #[must_use]
    pub fn layout_in_force(&self, answering: Rows) -> Option<Layout> {
        let listed = self.views().filter(|view| answering.contains(view.row) && !view.list.is_empty());
        self.layout(listed.max_by_key(|view| view.epoch)?.row)
    }
}

/// The columns of a grid of so many in lists of several counties, which the library lays as a list of so many machines now.
fn columns(members: usize, shape: Shape) -> usize {
    let names: Vec<u16> = (1..=members as u16).collect();
    let laid = Table::found(members, 1, &names, shape);
    laid.and_then(|table| table.choice(1, Kind::Read)).map_or(1, Rows::len)
}
