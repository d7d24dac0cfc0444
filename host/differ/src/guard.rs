//! Memory whose both ends lie against unmapped pages: a stray access faults.

use std::ffi::{c_int, c_long, c_void};
use std::ptr;
use std::slice;

extern "C" {
    fn mmap(
        addr: *mut c_void,
        length: usize,
        prot: c_int,
        flags: c_int,
        fd: c_int,
        offset: c_long,
    ) -> *mut c_void;
    fn mprotect(addr: *mut c_void, length: usize, prot: c_int) -> c_int;
    fn munmap(addr: *mut c_void, length: usize) -> c_int;
    fn getpagesize() -> c_int;
}

const PROT_NONE: c_int = 0;
const PROT_READ_WRITE: c_int = 1 | 2;
const MAP_PRIVATE_ANONYMOUS: c_int = 2 | 32;

/// Bytes on the open side of a slice that must stay as they are.
const CANARY: u8 = 0xc5;
const CANARIES: usize = 256;

/// The end of the memory that a slice lies against.
#[derive(Clone, Copy, Debug, PartialEq, Eq)]
pub enum Edge {
    Start,
    End,
}

/// A stretch of memory between two pages that nobody may touch.
pub struct Guard {
    mapping: *mut u8,
    mapped: usize,
    page: usize,
    /// Where the slice lies now.
    offset: usize,
    length: usize,
}

impl Guard {
    /// Room for slices of up to `capacity` bytes.
    pub fn new(capacity: usize) -> Guard {
        // SAFETY: a fresh private mapping; the calls get only what they returned.
        unsafe {
            let page = getpagesize() as usize;
            let inner = (capacity + CANARIES).next_multiple_of(page);
            let mapped = inner + 2 * page;
            let mapping = mmap(ptr::null_mut(), mapped, PROT_NONE, MAP_PRIVATE_ANONYMOUS, -1, 0).cast::<u8>();
            assert!(mapping as isize != -1, "mmap: no memory");
            assert!(mprotect(mapping.add(page).cast(), inner, PROT_READ_WRITE) == 0, "mprotect failed");
            Guard { mapping, mapped, page, offset: 0, length: 0 }
        }
    }

    /// Lays the bytes against an edge, canaries on the other side.
    pub fn place(&mut self, bytes: &[u8], edge: Edge) {
        let memory = self.memory();
        assert!(bytes.len() + CANARIES <= memory.len(), "the slice is too long for its guard");
        let offset = if edge == Edge::Start { 0 } else { memory.len() - bytes.len() };
        let canaries = canaries(offset, bytes.len());
        memory[offset..offset + bytes.len()].copy_from_slice(bytes);
        memory[canaries].fill(CANARY);
        (self.offset, self.length) = (offset, bytes.len());
    }

    pub fn pointer(&mut self) -> *mut u8 {
        let offset = self.offset;
        self.memory()[offset..].as_mut_ptr()
    }

    pub fn slice(&mut self) -> &[u8] {
        let (offset, length) = (self.offset, self.length);
        &self.memory()[offset..offset + length]
    }

    /// Is every canary alive?
    pub fn intact(&mut self) -> bool {
        let canaries = canaries(self.offset, self.length);
        self.memory()[canaries] == [CANARY; CANARIES]
    }

    fn memory(&mut self) -> &mut [u8] {
        // SAFETY: the pages between the first and the last are mapped for reading and writing, and this is their only owner.
        unsafe { slice::from_raw_parts_mut(self.mapping.add(self.page), self.mapped - 2 * self.page) }
    }
}

impl Drop for Guard {
    fn drop(&mut self) {
        // SAFETY: the mapping is ours, and nobody uses it any more.
        unsafe {
            munmap(self.mapping.cast(), self.mapped);
        }
    }
}

/// The canaries of a slice: after it if it lies at the start, before it otherwise.
fn canaries(offset: usize, length: usize) -> std::ops::Range<usize> {
    if offset == 0 {
        length..length + CANARIES
    } else {
        offset - CANARIES..offset
    }
}

#[cfg(test)]
mod tests {
    use super::*;

    extern "C" {
        fn fork() -> c_int;
        fn waitpid(pid: c_int, status: *mut c_int, options: c_int) -> c_int;
        fn _exit(status: c_int) -> !;
    }

    /// Does reading `distance` bytes from the slice's start end a child process by a signal?
    fn faults(guard: &mut Guard, distance: isize) -> bool {
        let at = guard.pointer().wrapping_offset(distance);
        // SAFETY: the child reads one byte and leaves; a fault is what the test asks about.
        unsafe {
            let child = fork();
            if child == 0 {
                ptr::read_volatile(at);
                _exit(0);
            }
            let mut status = 0;
            waitpid(child, &mut status, 0);
            status != 0
        }
    }

    #[test]
    fn a_stray_read_faults() {
        let mut guard = Guard::new(10_000);
        for length in [0, 1, 160, 10_000] {
            let bytes = vec![7; length];
            guard.place(&bytes, Edge::Start);
            assert!(faults(&mut guard, -1));
            guard.place(&bytes, Edge::End);
            assert!(faults(&mut guard, length as isize));
            assert!(length == 0 || !faults(&mut guard, length as isize - 1));
        }
    }

    #[test]
    fn a_stray_write_on_the_open_side_shows() {
        let mut guard = Guard::new(100);
        for edge in [Edge::Start, Edge::End] {
            guard.place(&[1, 2, 3], edge);
            assert!(guard.intact());
            let stray = if edge == Edge::Start { 3 } else { -1 };
            // SAFETY: the canary is mapped.
            unsafe { *guard.pointer().offset(stray) = 0 };
            assert!(!guard.intact());
        }
    }
}
