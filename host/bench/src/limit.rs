//! The least that a call on a table can take: one look at every byte that says whether the table is well formed.

use crate::states::State;
use reference::{HEADER, PART_HEADER, ROW_HEADER};
use std::hint::black_box;
use std::time::{Duration, Instant};

/// The records of a window.
const WINDOW: usize = 16 * 36;

/// Words of eight bytes, many at a time.
fn joined(bytes: &[u8]) -> u64 {
    let words = bytes.chunks_exact(8).map(|word| u64::from_le_bytes(word.try_into().expect("eight bytes")));
    words.fold(0, |all, word| all | word)
}

/// Goes once over header, heads, copies without their contents, and rows that are not used, and does nothing else.
fn look_over(state: &State) -> u64 {
    let (size, table) = (state.size, &state.table[..]);
    let (row_len, copy_len) = (size.row_at(2) - size.row_at(1), size.copy_len());
    let (used, unused) = table[HEADER..].split_at(size.used * row_len);
    let mut all = joined(&table[..HEADER]);
    for row in used.chunks_exact(row_len) {
        let (head, copies) = row.split_at(ROW_HEADER);
        all |= joined(head);
        for copy in copies.chunks_exact(copy_len) {
            all |= joined(&copy[..PART_HEADER]) | joined(&copy[PART_HEADER - 8..PART_HEADER]);
            let window: &[u8; WINDOW] = copy.last_chunk().expect("a copy ends with its window");
            all |= joined(window);
        }
    }
    all | joined(unused)
}

/// The best of `runs` runs of about `run_time` each, in nanoseconds a look.
pub fn measured(state: &State, runs: usize, run_time: Duration) -> f64 {
    let looks_take = |looks: u32| {
        let start = Instant::now();
        for _ in 0..looks {
            black_box(look_over(black_box(state)));
        }
        start.elapsed()
    };
    let looks = (run_time.as_nanos() / (looks_take(20).as_nanos() / 20).max(1)).clamp(10, 100_000) as u32;
    let times = (0..runs).map(|_| looks_take(looks).as_nanos() as f64 / f64::from(looks));
    times.fold(f64::MAX, f64::min)
}
