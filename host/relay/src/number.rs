//! Numbers that tell foundings and calls apart.

/// The number of a founding, drawn once by whoever founds. Every message carries it: two foundings on the same names and sizes are not
/// told apart by the library.
#[derive(Clone, Copy, Debug, Default, PartialEq, Eq, Hash, PartialOrd, Ord)]
pub struct Founding(pub u128);

/// The number of a call, which no other call of the founding has: its coordinator's name, how often that was started, and a count.
///
/// The starts are counted on the coordinator's disk, so that the number stays unique over restarts. A name goes with its disk: a
/// machine whose disk is lost comes back under another name.
#[derive(Clone, Copy, Debug, Default, PartialEq, Eq, Hash, PartialOrd, Ord)]
pub struct CallNumber {
    pub name: u16,
    pub start: u64,
    pub count: u64,
}
