//! The functions of the archive as `dyngrid.h` declares them.
//!
//! A list is a pointer and then its length in bytes. Files are counted from 1. A result is the refusal number times 2^32, plus the
//! value, which is 0 where a call was refused, but for a round.
//! The slices of one call must not overlap. Reads, choices and moves of one table may run at the same time, each with its own
//! buffer or list; while any other call runs on a table, nothing else may touch it.
//!
//! Who calls these functions calls [`assert_interface`] before the first of them. A [`Table`](crate::Table) does it by itself,
//! and so do [`chart`](crate::chart()) and [`Refusal::notice`](crate::Refusal::notice).

use std::sync::OnceLock;

/// Rises with every signature below that is new or changed, as in the archive, and with nothing else: a table tells its form
/// itself.
pub const INTERFACE: u64 = 11;

/// The choices of a founding: a wide table, or a tall one.
pub const WIDE: u64 = 0;
/// See [`WIDE`].
pub const TALL: u64 = 1;

/// The kinds of calls that have a choice: a read, or a write.
pub const READ: u64 = 0;
/// See [`READ`].
pub const WRITE: u64 = 1;

/// Panics unless the archive has the signatures that are declared here. The archive is asked once.
pub fn assert_interface() {
    static ARCHIVE: OnceLock<u64> = OnceLock::new();
    // SAFETY: this signature never changes.
    agree(*ARCHIVE.get_or_init(|| unsafe { grid_interface() }));
}

fn agree(archive: u64) {
    assert!(
        archive == INTERFACE,
        "libdyngrid.a has interface {archive}, and this wrapper needs {INTERFACE}: \
         build archive and wrapper from one checkout (`make lib`, then `cargo build`)"
    );
}

extern "C" {
    /// The number of the archive's interface.
    pub fn grid_interface() -> u64;

    /// Founds a table of 1 to 8 files; the choice is [`WIDE`] or [`TALL`], and the counties are a byte for each name. Value: the rows
    /// used.
    pub fn grid_found(
        table: *mut u8,
        table_len: usize,
        capacity: u64,
        file_len: u64,
        names: *const u8,
        names_len: usize,
        choice: u64,
        files: u64,
        counties: *const u8,
        counties_len: usize,
    ) -> u64;

    /// Reads a range of a file into the buffer; says in one byte how many machines were called. Value: the version read.
    pub fn grid_read(
        table: *const u8,
        table_len: usize,
        coordinator: u64,
        answering: u64,
        offset: u64,
        length: u64,
        buffer: *mut u8,
        buffer_len: usize,
        called: *mut u8,
        called_len: usize,
        file: u64,
    ) -> u64;

    /// Lays the patch over the file, by a club that it counts for on the sheet of 196 bytes; says in one byte how many machines were
    /// called. Value: the new version.
    pub fn grid_write(
        table: *mut u8,
        table_len: usize,
        coordinator: u64,
        answering: u64,
        offset: u64,
        patch: *const u8,
        patch_len: usize,
        called: *mut u8,
        called_len: usize,
        file: u64,
        sheet: *mut u8,
        sheet_len: usize,
        club: u64,
    ) -> u64;

    /// Makes the writes of a list of up to 64 orders of 16 bytes, in their order, up to the first that is refused; each counts for its
    /// club. Value, of a refused round too: how many are done.
    pub fn grid_round(
        table: *mut u8,
        table_len: usize,
        answering: u64,
        orders: *const u8,
        orders_len: usize,
        sheet: *mut u8,
        sheet_len: usize,
    ) -> u64;

    /// Brings the stale copy of a file in row `to` up to the state of that in row `from`. Value: the version it then has.
    pub fn grid_send(table: *mut u8, table_len: usize, from: u64, to: u64, answering: u64, file: u64) -> u64;

    /// Makes the answering rows the list in force; where that changes it, the counts of the sheet become 0. Value: the epoch number
    /// in force.
    pub fn grid_check(
        table: *mut u8,
        table_len: usize,
        coordinator: u64,
        answering: u64,
        sheet: *mut u8,
        sheet_len: usize,
    ) -> u64;

    /// Joins a machine of a county in the first unused row. Value: that row.
    pub fn grid_join(table: *mut u8, table_len: usize, name: u16, county: u64) -> u64;

    /// Lists the smallest write quorums of a list of so many members with this grid mark. Value: how many.
    pub fn grid_chart(length: u64, mark: u64, list: *mut u8, list_len: usize) -> u64;

    /// Tells in eight bytes the set that the coordinator calls first; the kind is [`READ`] or [`WRITE`]. Value: how many rows
    /// it has.
    pub fn grid_choice(
        table: *const u8,
        table_len: usize,
        coordinator: u64,
        kind: u64,
        set: *mut u8,
        set_len: usize,
    ) -> u64;

    /// Carries a table of form 1 or 2 over to form 3, or back, into a second buffer. Value: the rows used.
    pub fn grid_move(table: *const u8, table_len: usize, form: u64, to: *mut u8, to_len: usize) -> u64;

    /// Tells in a sentence why a call was refused: the call's number as in [`Call`](crate::Call), the coordinator's name, the
    /// refusal's number, and a buffer of 160 bytes. Value: the length of the sentence; behind it are spaces.
    pub fn grid_notice(call: u64, name: u16, number: u32, buffer: *mut u8, buffer_len: usize) -> u64;
}

#[cfg(test)]
mod tests {
    use super::*;

    #[test]
    fn the_archive_agrees() {
        assert_interface();
    }

    #[test]
    #[should_panic(
        expected = "has interface 12, and this wrapper needs 11: build archive and wrapper from one checkout"
    )]
    fn another_archive_is_refused() {
        agree(12);
    }
}
