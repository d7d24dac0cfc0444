//! Schedules of the core: messages delivered in any order, late, twice or never, machines that crash in the middle of a step, and a judge
//! who knows what every call should have seen.
//!
//! - [`world`]: nodes, their disks and the network, as one value; each event is a step of it;
//! - [`judge`]: the rows and the books of the calls made one at a time;
//! - [`slip`]: each rule broken on purpose;
//! - [`random`]: random schedules, and what must hold when all are up again;
//! - [`exhaustive`]: every schedule of a few calls; [`shared`]: states that have most in common.

pub mod exhaustive;
pub mod judge;
pub mod random;
pub mod shared;
pub mod slip;
pub mod world;
