//! `gridctl` looks at a table of the dynamic grid, tells what would happen to it, and makes calls on it to train on.
//!
//! Every verdict is the library's own, asked of a copy. Machines go by their names, never by row numbers.

mod arguments;
mod asking;
mod carry;
mod chart;
mod commands;
mod explain;
mod grid;
mod log;
mod names;
mod next;
mod page;
mod replay;
mod round;
mod sheet;
mod show;
mod store;
mod train;
mod weak;
mod whom;

pub use log::{bytes_told, Answer};
pub use replay::{difference, Difference};

use arguments::Arguments;
use std::fmt;

/// What a command tells, or why it stops.
pub type Told = Result<String, Stop>;

/// Why a command stops.
#[derive(Clone, Debug, PartialEq, Eq)]
pub enum Stop {
    /// The library refused the call, or answers otherwise than a log says.
    Refused(String),
    /// The library refused a round at one of its orders: what is to be told of the others, and why.
    Partly { told: String, why: String },
    /// The arguments, or a file, cannot be used.
    Unusable(String),
}

impl Stop {
    /// What was done all the same.
    #[must_use]
    pub fn told(&self) -> &str {
        match self {
            Stop::Partly { told, .. } => told,
            Stop::Refused(_) | Stop::Unusable(_) => "",
        }
    }

    /// The status to exit with.
    #[must_use]
    pub fn status(&self) -> u8 {
        match self {
            Stop::Refused(_) | Stop::Partly { .. } => 1,
            Stop::Unusable(_) => 2,
        }
    }
}

impl fmt::Display for Stop {
    fn fmt(&self, f: &mut fmt::Formatter) -> fmt::Result {
        match self {
            Stop::Refused(why) | Stop::Partly { why, .. } | Stop::Unusable(why) => f.write_str(why),
        }
    }
}

impl std::error::Error for Stop {}

/// Arguments or files that cannot be used.
fn unusable(why: impl fmt::Display) -> Stop {
    Stop::Unusable(why.to_string())
}

/// Runs a command.
///
/// # Errors
///
/// See [`Stop`].
pub fn run(arguments: &[String]) -> Told {
    let Some((word, rest)) = arguments.split_first().filter(|(word, _)| !is_help(word)) else {
        return Ok(commands::overview());
    };
    let command = commands::named(word)?;
    if rest.iter().any(|word| is_help(word)) {
        return Ok(command.help());
    }
    (command.run)(&mut Arguments::of(command, rest)?)
}

fn is_help(word: &str) -> bool {
    word == "--help" || word == "-h"
}
