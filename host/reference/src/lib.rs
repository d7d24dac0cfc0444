//! A second implementation of the grid table's calls, written from the papers alone: plain and obvious,
//! table bytes in, table bytes out. It shares no code with the library that it is compared with.
//!
//! [`Engine`] answers the calls, by the newest [`Rules`] or by those of an older form, of which form 1 has the scope's alone;
//! [`Book`] is the plain book of a file, and a [`Blunder`] turns the engine into a wrong one.

mod blunder;
mod book;
mod chart;
mod county;
mod engine;
mod grid;
pub mod round;
pub mod rows;
pub mod sheet;
mod table;
pub mod window;

pub use blunder::{lay_in_chain_order, Blunder};
pub use book::Book;
pub use chart::{CHART_PLACES, LONGEST_CHARTED};
pub use county::{Counties, MAX_COUNTIES};
pub use engine::Engine;
pub use grid::{Grid, Laid, Layout, Quorum, Shape, SEVERAL, TALL};
pub use sheet::Sheet;
pub use table::{
    Part, Row, Rules, Table, COUNTY, FORM, HEADER, LIMIT, MAX_FILE, MAX_FILES, MAX_ROWS, OLDEST, PART_HEADER,
    ROW_HEADER,
};
