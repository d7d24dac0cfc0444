//! The two engines under one roof: the library from its archive, and the reference.

use dyngrid::raw;
use reference::Engine;

/// Who coordinates a read or write, who answers, of which file, and from which byte on.
#[derive(Clone, Copy)]
pub struct Asked {
    pub coordinator: u64,
    pub answering: u64,
    pub file: u64,
    pub offset: u64,
}

/// The sizes of a founding.
#[derive(Clone, Copy)]
pub struct Sizes {
    pub capacity: u64,
    pub file_len: u64,
    pub files: u64,
}

/// All writes are this club's.
pub const CLUB: u64 = 1;

/// Calls on a table's bytes, all with the same arguments for both engines.
pub trait Calls {
    /// Founds a wide table.
    fn found(&self, table: &mut [u8], sizes: Sizes, names: &[u8], counties: &[u8]) -> u64;
    fn read(&self, table: &[u8], asked: Asked, buffer: &mut [u8], called: &mut [u8]) -> u64;
    /// By club 1.
    fn write(&self, table: &mut [u8], asked: Asked, patch: &[u8], called: &mut [u8], sheet: &mut [u8])
        -> u64;
    /// Of orders in bytes.
    fn round(&self, table: &mut [u8], answering: u64, orders: &[u8], sheet: &mut [u8]) -> u64;
    fn send(&self, table: &mut [u8], from: u64, to: u64, answering: u64, file: u64) -> u64;
    fn check(&self, table: &mut [u8], coordinator: u64, answering: u64, sheet: &mut [u8]) -> u64;
    /// In county 1.
    fn join(&self, table: &mut [u8], name: u16) -> u64;
    fn chart(&self, length: u64, mark: u64, list: &mut [u8]) -> u64;
    fn choice(&self, table: &[u8], coordinator: u64, kind: u64, set: &mut [u8]) -> u64;
    fn carry(&self, table: &[u8], form: u64, to: &mut [u8]) -> u64;
}

pub struct Library;

// SAFETY of the blocks below: each slice is live for the call, and Rust's borrows keep them apart.
impl Calls for Library {
    fn found(&self, table: &mut [u8], sizes: Sizes, names: &[u8], counties: &[u8]) -> u64 {
        let Sizes { capacity, file_len, files } = sizes;
        unsafe {
            raw::grid_found(
                table.as_mut_ptr(),
                table.len(),
                capacity,
                file_len,
                names.as_ptr(),
                names.len(),
                raw::WIDE,
                files,
                counties.as_ptr(),
                counties.len(),
            )
        }
    }

    fn read(&self, table: &[u8], asked: Asked, buffer: &mut [u8], called: &mut [u8]) -> u64 {
        let Asked { coordinator, answering, file, offset } = asked;
        let length = buffer.len();
        let lent = buffer.as_mut_ptr();
        unsafe {
            raw::grid_read(
                table.as_ptr(),
                table.len(),
                coordinator,
                answering,
                offset,
                length as u64,
                lent,
                length,
                called.as_mut_ptr(),
                called.len(),
                file,
            )
        }
    }

    fn write(
        &self,
        table: &mut [u8],
        asked: Asked,
        patch: &[u8],
        called: &mut [u8],
        sheet: &mut [u8],
    ) -> u64 {
        let Asked { coordinator, answering, file, offset } = asked;
        unsafe {
            raw::grid_write(
                table.as_mut_ptr(),
                table.len(),
                coordinator,
                answering,
                offset,
                patch.as_ptr(),
                patch.len(),
                called.as_mut_ptr(),
                called.len(),
                file,
                sheet.as_mut_ptr(),
                sheet.len(),
                CLUB,
            )
        }
    }

    fn round(&self, table: &mut [u8], answering: u64, orders: &[u8], sheet: &mut [u8]) -> u64 {
        let (lent, length) = (sheet.as_mut_ptr(), sheet.len());
        let (list, bytes) = (orders.as_ptr(), orders.len());
        unsafe { raw::grid_round(table.as_mut_ptr(), table.len(), answering, list, bytes, lent, length) }
    }

    fn send(&self, table: &mut [u8], from: u64, to: u64, answering: u64, file: u64) -> u64 {
        unsafe { raw::grid_send(table.as_mut_ptr(), table.len(), from, to, answering, file) }
    }

    fn check(&self, table: &mut [u8], coordinator: u64, answering: u64, sheet: &mut [u8]) -> u64 {
        let (lent, length) = (sheet.as_mut_ptr(), sheet.len());
        unsafe { raw::grid_check(table.as_mut_ptr(), table.len(), coordinator, answering, lent, length) }
    }

    fn join(&self, table: &mut [u8], name: u16) -> u64 {
        unsafe { raw::grid_join(table.as_mut_ptr(), table.len(), name, 1) }
    }

    fn chart(&self, length: u64, mark: u64, list: &mut [u8]) -> u64 {
        unsafe { raw::grid_chart(length, mark, list.as_mut_ptr(), list.len()) }
    }

    fn choice(&self, table: &[u8], coordinator: u64, kind: u64, set: &mut [u8]) -> u64 {
        let (lent, length) = (set.as_mut_ptr(), set.len());
        unsafe { raw::grid_choice(table.as_ptr(), table.len(), coordinator, kind, lent, length) }
    }

    fn carry(&self, table: &[u8], form: u64, to: &mut [u8]) -> u64 {
        unsafe { raw::grid_move(table.as_ptr(), table.len(), form, to.as_mut_ptr(), to.len()) }
    }
}

impl Calls for Engine {
    fn found(&self, table: &mut [u8], sizes: Sizes, names: &[u8], counties: &[u8]) -> u64 {
        let Sizes { capacity, file_len, files } = sizes;
        Engine::found(self, table, capacity, file_len, names, raw::WIDE, files, counties)
    }

    fn read(&self, table: &[u8], asked: Asked, buffer: &mut [u8], called: &mut [u8]) -> u64 {
        let Asked { coordinator, answering, file, offset } = asked;
        Engine::read(self, table, coordinator, answering, offset, buffer.len() as u64, buffer, called, file)
    }

    fn write(
        &self,
        table: &mut [u8],
        asked: Asked,
        patch: &[u8],
        called: &mut [u8],
        sheet: &mut [u8],
    ) -> u64 {
        let Asked { coordinator, answering, file, offset } = asked;
        Engine::write(self, table, coordinator, answering, offset, patch, called, file, sheet, CLUB)
    }

    fn round(&self, table: &mut [u8], answering: u64, orders: &[u8], sheet: &mut [u8]) -> u64 {
        Engine::round(self, table, answering, orders, sheet)
    }

    fn send(&self, table: &mut [u8], from: u64, to: u64, answering: u64, file: u64) -> u64 {
        Engine::send(self, table, from, to, answering, file)
    }

    fn check(&self, table: &mut [u8], coordinator: u64, answering: u64, sheet: &mut [u8]) -> u64 {
        Engine::check(self, table, coordinator, answering, sheet)
    }

    fn join(&self, table: &mut [u8], name: u16) -> u64 {
        Engine::join(self, table, name, 1)
    }

    fn chart(&self, length: u64, mark: u64, list: &mut [u8]) -> u64 {
        Engine::chart(self, length, mark, list)
    }

    fn choice(&self, table: &[u8], coordinator: u64, kind: u64, set: &mut [u8]) -> u64 {
        Engine::choice(self, table, coordinator, kind, set)
    }

    fn carry(&self, table: &[u8], form: u64, to: &mut [u8]) -> u64 {
        Engine::carry(self, table, form, to)
    }
}
