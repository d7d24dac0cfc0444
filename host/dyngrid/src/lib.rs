//! Safe calls to the verified dynamic grid library: replicas of up to eight files on up to 64 machines.
//!
//! A [`Table`] holds a row for each machine, and in it a copy of each file. The caller says which machines answered ([`Rows`]);
//! each call is one atomic step over the table, and is done with a value or refused by a [`Refusal`]; its
//! [notice](Refusal::notice) tells members why. Reads, writes and sends are of one [file](Table::file); checks, joinings and
//! choices are of the table.
//! Rows and files have numbers of one type, `usize`, from 1 on. What a row tells is a [`RowView`], and `println!("{table}")` shows
//! them all; the latest patches of a copy are its [window](File::window). A [`chart()`] needs no table. Tables that an older
//! library left are no [`Table`], and at most a [`Form3Table`]. Where clubs are to have fair shares of the writes, these are lent a
//! [`Sheet`]. Up to 64 short writes are entered together by a [round](Table::round).
//!
//! ```
//! use dyngrid::{Rows, Shape, Table};
//!
//! let mut table = Table::found(4, 16, &[1, 2, 3, 4], Shape::Wide)?;
//! let written = table.file_mut(1).write(1, Rows::of(&[1, 2, 3])?, 0, b"1-0")?;
//! let mut score = [0; 3];
//! assert_eq!(table.file(1).read(4, Rows::of(&[3, 4])?, 0, &mut score)?.version, written.version);
//! assert_eq!(&score, b"1-0");
//! # Ok::<(), dyngrid::Refusal>(())
//! ```

#![deny(missing_docs)]

mod assembled;
mod called;
mod carry;
mod chart;
mod choice;
mod copy;
mod display;
mod file;
mod frame;
mod grid;
mod not_a_table;
mod notice;
pub mod raw;
mod refusal;
mod round;
mod rows;
mod sheet;
mod table;
mod view;
mod window;

pub use assembled::NotAssembled;
pub use called::{Done, Refused};
pub use carry::{Form3Table, OlderForm};
pub use chart::chart;
pub use choice::Kind;
pub use copy::CopyView;
pub use display::Shown;
pub use file::{File, FileMut};
pub use grid::{Grid, Layout};
pub use not_a_table::NotATable;
pub use notice::{Call, Notice};
pub use refusal::Refusal;
pub use round::{NotAnOrder, Order, Stopped};
pub use rows::{Rows, RowsIter};
pub use sheet::{Allowance, ClubView, NotASheet, Sheet};
pub use table::{Shape, Table};
pub use view::RowView;
pub use window::Patch;
