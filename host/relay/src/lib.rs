//! A relay on the verified library: machines that each keep their own row, and coordinators that make calls on them. Every call is
//! atomic, whatever is lost, late or doubled and whoever crashes: the core takes no steps but those of `crates/commit`, where that is
//! proved. `docs/RELAY.md` tells the rules.
//!
//! The core is plain values. A [`Machine`] and a [`Coordinator`] are functions from state and message to state, messages, and what
//! must be on the disk before these go out. It knows no socket, clock, thread or disk; the only memory that it takes is for rows, frames
//! and lists of calls, and all of that is in sight.
//!
//! - core: [`number`], [`frame`], [`message`], [`machine`], [`request`], [`coordinator`], [`upkeep`], and [`wire`] for all of it in bytes;
//! - [`simulate`]: random and exhaustive schedules of the core, and the slips that they must find;
//! - [`carrier`]: the core on TCP and files.

pub mod carrier;
pub mod coordinator;
pub mod frame;
pub mod machine;
pub mod message;
pub mod number;
pub mod request;
pub mod simulate;
pub mod upkeep;
pub mod wire;

pub use coordinator::{Call, Coordinator, Ended, Note, Step, Why};
pub use frame::{Frame, Group};
pub use machine::{Answer, Doubt, Machine, Save, Seat};
pub use message::{Body, Change, Fate, Message};
pub use number::{CallNumber, Founding};
pub use request::{Manner, Order, Outcome, Reach, Request};
