//! The archive, called with slices that lie against unmapped pages.

use crate::call::{Answer, Call};
use crate::guard::{Edge, Guard};
use dyngrid::raw;
use std::ffi::c_int;
use std::sync::atomic::{AtomicPtr, AtomicU64, Ordering};

/// A little above the longest table that a case can have, which is the longest list too: the second buffer of a move.
const LONGEST_TABLE: usize = 2_710_000;
/// A little above the longest list for the number called, and the longest one of counties.
const LONGEST_SECOND: usize = 100;
/// A little above the longest sheet, which is none.
const LONGEST_SHEET: usize = 500;

pub struct Archive {
    table: Guard,
    /// The other slice of a call: its names, buffer, patch, orders, the list of a chart or a choice, or the second buffer of a move.
    list: Guard,
    /// The list for the number of machines called, or the counties of a founding.
    second: Guard,
    sheet: Guard,
    pub edge: Edge,
}

impl Archive {
    pub fn new() -> Archive {
        raw::assert_interface();
        let [table, list] = [LONGEST_TABLE; 2].map(Guard::new);
        let [second, sheet] = [LONGEST_SECOND, LONGEST_SHEET].map(Guard::new);
        Archive { table, list, second, sheet, edge: Edge::End }
    }

    /// Makes the call; an error says which lent memory it harmed.
    pub fn call(&mut self, table: &mut [u8], call: &Call) -> Result<Answer, String> {
        let lent: &[u8] = match call {
            Call::Found { names, .. } => names,
            Call::Read { buffer, .. } => buffer,
            Call::Write { patch, .. } => patch,
            Call::Chart { list, .. } => list,
            Call::Choice { set, .. } => set,
            Call::Move { to, .. } => to,
            Call::Round { orders, .. } => orders,
            Call::Send { .. } | Call::Check { .. } | Call::Join { .. } => &[],
        };
        self.table.place(table, self.edge);
        self.list.place(lent, self.edge);
        let (called, counties) = (call.called(), call.counties());
        let second = called.or(counties).unwrap_or_default();
        self.second.place(second, self.edge);
        let sheet = call.sheet().unwrap_or_default();
        self.sheet.place(sheet, self.edge);
        CALL.store(std::ptr::from_ref(call).cast_mut(), Ordering::Relaxed);
        let result = self.enter(table.len(), lent.len(), second.len(), sheet.len(), call);
        CALL.store(std::ptr::null_mut(), Ordering::Relaxed);

        if !self.table.intact() {
            return Err("the archive wrote beside the table".into());
        }
        if !self.list.intact() || !self.second.intact() || !self.sheet.intact() {
            return Err("the archive wrote beside a list".into());
        }
        let written = call.lent().is_some();
        if !written && self.list.slice() != lent || called.is_none() && self.second.slice() != second {
            return Err("the archive altered names, counties, patch or orders".into());
        }
        table.copy_from_slice(self.table.slice());
        let buffer = if written { self.list.slice().to_vec() } else { Vec::new() };
        let called = if called.is_some() { self.second.slice().to_vec() } else { Vec::new() };
        Ok(Answer { result, buffer, called, sheet: self.sheet.slice().to_vec() })
    }

    fn enter(
        &mut self,
        table_len: usize,
        list_len: usize,
        second_len: usize,
        sheet_len: usize,
        call: &Call,
    ) -> u64 {
        let table = lend(&mut self.table, table_len, self.edge);
        let list = lend(&mut self.list, list_len, self.edge);
        let second = lend(&mut self.second, second_len, self.edge);
        let sheet = lend(&mut self.sheet, sheet_len, self.edge);
        // SAFETY: table, list, second and sheet are four slices of these lengths in four mappings.
        unsafe {
            match *call {
                Call::Found { capacity, file_len, choice, files, .. } => raw::grid_found(
                    table, table_len, capacity, file_len, list, list_len, choice, files, second, second_len,
                ),
                Call::Read { coordinator, answering, offset, length, file, .. } => raw::grid_read(
                    table,
                    table_len,
                    coordinator,
                    answering,
                    offset,
                    length,
                    list,
                    list_len,
                    second,
                    second_len,
                    file,
                ),
                Call::Write { coordinator, answering, offset, file, club, .. } => raw::grid_write(
                    table,
                    table_len,
                    coordinator,
                    answering,
                    offset,
                    list,
                    list_len,
                    second,
                    second_len,
                    file,
                    sheet,
                    sheet_len,
                    club,
                ),
                Call::Send { from, to, answering, file } => {
                    raw::grid_send(table, table_len, from, to, answering, file)
                }
                Call::Check { coordinator, answering, .. } => {
                    raw::grid_check(table, table_len, coordinator, answering, sheet, sheet_len)
                }
                Call::Join { name, county } => raw::grid_join(table, table_len, name, county),
                Call::Chart { length, mark, .. } => raw::grid_chart(length, mark, list, list_len),
                Call::Choice { coordinator, kind, .. } => {
                    raw::grid_choice(table, table_len, coordinator, kind, list, list_len)
                }
                Call::Move { form, .. } => raw::grid_move(table, table_len, form, list, list_len),
                Call::Round { answering, .. } => {
                    raw::grid_round(table, table_len, answering, list, list_len, sheet, sheet_len)
                }
            }
        }
    }
}

/// Where a slice lies; an empty one in half of the cases nowhere.
fn lend(guard: &mut Guard, length: usize, edge: Edge) -> *mut u8 {
    if length == 0 && edge == Edge::Start {
        std::ptr::null_mut()
    } else {
        guard.pointer()
    }
}

static SEED: AtomicU64 = AtomicU64::new(0);
static CASE: AtomicU64 = AtomicU64::new(0);
static CALL: AtomicPtr<Call> = AtomicPtr::new(std::ptr::null_mut());

/// Notes which case runs, for the report of a fault.
pub fn now_in(seed: u64, case: u64) {
    SEED.store(seed, Ordering::Relaxed);
    CASE.store(case, Ordering::Relaxed);
}

/// From now on a memory fault inside a call is reported with its seed, case and call, and ends the program.
pub fn report_faults() {
    extern "C" {
        fn signal(number: c_int, handler: extern "C" fn(c_int)) -> usize;
    }
    const SIGBUS: c_int = 7;
    const SIGSEGV: c_int = 11;
    // SAFETY: the handler ends the process, so that it never returns into the faulting call.
    unsafe {
        signal(SIGSEGV, fault);
        signal(SIGBUS, fault);
    }
}

extern "C" fn fault(_: c_int) {
    let (seed, case) = (SEED.load(Ordering::Relaxed), CASE.load(Ordering::Relaxed));
    eprintln!("memory fault: a call touched bytes outside its slices");
    // SAFETY: the pointer is null, or the call that is being made.
    match unsafe { CALL.load(Ordering::Relaxed).as_ref() } {
        Some(call) => eprintln!("  {call}"),
        None => eprintln!("  outside every call"),
    }
    eprintln!("repeat: differ --seed {seed} --case {case}");
    std::process::exit(1);
}
