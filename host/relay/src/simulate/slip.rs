//! Every rule broken on purpose, each alone. The first twenty-one are those of `crates/commit` (`Slips`), in its order; then rules of
//! the disk, of foundings and joinings, of a coordinator gone for good, and of progress.
//!
//! The core has no switch for any of this: the world falsifies what a rule looks at, or undoes what it did.

macro_rules! slips {
    ($($(#[doc = $text:literal])* $name:ident,)*) => {
        #[derive(Clone, Copy, Debug, PartialEq, Eq, Hash)]
        pub enum Slip { $($(#[doc = $text])* $name,)* }

        impl Slip {
            pub const ALL: &'static [Slip] = &[$(Slip::$name,)*];

            /// What is done wrong.
            pub fn what(self) -> &'static str {
                match self { $(Slip::$name => concat!($($text),*).trim_ascii(),)* }
            }
        }
    };
}

slips! {
    /// A coordinator counts its calls anew after a crash, and not its starts
    NumberAgain,
    /// A machine stores over a row in doubt
    StoresOver,
    /// A machine stores whatever it has taken since it gave its row
    StoresLate,
    /// "Stored" without having stored
    SaysStored,
    /// Noted when the first has stored
    NotesEarly,
    /// Noted when the rows that change are stored
    NotesChanged,
    /// The notes are lost in a crash
    GivesUpNoted,
    /// Told to take before the note
    TakesEarly,
    /// A machine in doubt takes when nobody answers
    TakesUntold,
    /// A row taken is not counted
    TakesUncounted,
    /// "Took" while in doubt
    SaysTook,
    /// A note is forgotten when the first has taken
    ForgetsEarly,
    /// Told to drop though the call is noted
    DropsNoted,
    /// A machine in doubt is told to drop while the call runs
    DropsRunning,
    /// A machine in doubt drops when nobody answers
    DropsUntold,
    /// The stored row is lost in a crash
    CrashLoses,
    /// The second round is asked before the first is over
    AsksEarly,
    /// A machine in doubt confirms
    ConfirmsDoubt,
    /// A machine confirms though it has taken a row since
    ConfirmsLate,
    /// Reads end without a second round
    EndsEarly,
    /// A call that changes rows ends by a second round
    EndsChanged,

    /// A machine lays the new row over the old one at once
    KeepsAtOnce,
    /// A machine says "stored" before the row is on its disk
    SaysFirst,
    /// The caller and the machines hear of a note before it is on the disk
    TellsFirst,
    /// A machine comes back with a row from a backup
    FromBackup,
    /// A machine that has lost its disk is handed its founding row again
    FoundAgain,
    /// Founding numbers are not compared
    AnyFounding,
    /// A joining does not ask for a quorum
    JoinsAlone,
    /// A newer frame is not shipped with the rows
    FrameNotShipped,
    /// A machine that is asked says "never", and can store still
    NeverUnfenced,
    /// A machine that is asked says "never" of a row that it has taken
    NeverTook,
    /// A machine says that it holds, and obeys the coordinator that is gone for good all the same
    HoldsLoosely,
    /// A machine that is gone for good comes back
    BuriedAlive,
    /// A check leaves out who is busy
    LeavesOutBusy,
    /// A machine in doubt never asks
    NeverAsks,
    /// Takes are not told again
    NeverReminds,
    /// Locks are kept when the call is over
    KeepsLocks,
    /// Rows that no choice reaches are not refreshed
    NeverRefreshes,
}
