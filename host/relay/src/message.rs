//! What machines and coordinators say to each other. What was sent may arrive at any time, any number of times, or never.

use crate::{CallNumber, Founding, Frame};

/// A message is for one machine and one call, whoever says it.
#[derive(Clone, Debug, PartialEq, Eq, Hash)]
pub struct Message {
    pub founding: Founding,
    /// The name of the machine that it goes to: to its row, or to its coordinator, as the body has it.
    pub to: u16,
    pub call: CallNumber,
    /// The row that it is about.
    pub row: usize,
    pub body: Body,
}

#[derive(Clone, Debug, PartialEq, Eq, Hash)]
pub enum Body {
    /// To a machine: give your row, or what a call on this file looks at of it; with a lock, lock it for this call.
    Give {
        file: Option<usize>,
        lock: bool,
    },
    /// Store the new row beside the old one, if your count is this. `heard` are the rows of the call with their counts.
    Store {
        count: u64,
        change: Change,
        heard: Vec<(usize, u64)>,
    },
    Take,
    /// The call is over, and there is no note of it.
    Drop,
    /// Let the lock of this call go.
    Unlock,
    /// The second round: is your count still this one?
    Again {
        count: u64,
    },
    /// You have this row from now on: handed out by a founding or a joining.
    Found {
        frame: Frame,
        bytes: Vec<u8>,
    },

    /// To a coordinator: the row, or the part asked for, the frame that the machine has, and how many rows it has taken.
    Row {
        count: u64,
        frame: Frame,
        bytes: Vec<u8>,
    },
    /// Locked by another call, or in doubt. Not away: ask again.
    Busy,
    Stored,
    NotStored,
    Took,
    Still,
    NotStill,
    /// I stored a row for this call. How did it end?
    InDoubt {
        asker: u16,
    },

    /// To a machine, from another whose coordinator is silent: you gave your row at this count. What became of the call?
    Inquire {
        asker: u16,
        count: u64,
    },
    Knows(Fate),
}

impl Body {
    /// Is it for the coordinator of a machine, rather than for its row?
    pub fn is_for_coordinator(&self) -> bool {
        matches!(
            self,
            Body::Row { .. }
                | Body::Busy
                | Body::Stored
                | Body::NotStored
                | Body::Took
                | Body::Still
                | Body::NotStill
                | Body::InDoubt { .. }
        )
    }
}

/// What a machine knows of a call that had its row.
#[derive(Clone, Copy, Debug, PartialEq, Eq, Hash)]
pub enum Fate {
    /// It is in doubt itself, and will not drop the row by the word of the coordinator, which is gone for good.
    Holds,
    /// It has taken the row: the call is done.
    Took,
    /// It has not taken the row and will not store it any more: the call is not done, and never will be.
    Never,
    /// It cannot tell, or not yet.
    Unknown,
}

/// The new row: what to lay over the row that was given. The count says that it is the one that the machine has. Empty for a row that
/// stays as it is, which is stored all the same.
#[derive(Clone, Debug, Default, PartialEq, Eq, Hash)]
pub struct Change {
    /// The newer frame, where the machine has an older one.
    pub frame: Option<Frame>,
    /// Where in the row, and the bytes.
    pub ranges: Vec<(usize, Vec<u8>)>,
}

impl Change {
    pub fn is_empty(&self) -> bool {
        self.frame.is_none() && self.ranges.is_empty()
    }
}
