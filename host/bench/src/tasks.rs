//! The calls that are timed.

use crate::engines::{Asked, Calls, Sizes, CLUB};
use crate::states::{self, State};
use dyngrid::{raw, Form3Table, OlderForm, Order, Rows, Sheet, Table};
use reference::{rows, Row, Rules, CHART_PLACES, COUNTY, ROW_HEADER};
use std::fmt;
use std::hint::black_box;
use std::ops::Range;
use std::time::{Duration, Instant};

/// Stands for the whole file in a `Task`.
const WHOLE: usize = usize::MAX;

#[derive(Clone, Copy)]
pub enum Task {
    Found,
    /// So many bytes, or the whole file if it is shorter.
    Read(usize),
    Write(usize),
    /// Of 16 bytes, by a club that is at its ceiling.
    RefusedWrite,
    /// Of so many orders as a round can have, each of so many bytes as an order can write.
    Round,
    /// Of the whole file: the sender's window does not reach back to the receiver's version.
    Send,
    /// By window: so many patches are missing.
    SendPatches(u32),
    RefusedSend,
    CheckSame,
    CheckNew,
    /// In the middle of the chain of a founded table.
    Join,
    /// Of as many members as there are machines, in the published grid; the table has no part in it.
    Chart,
    /// Whom to call, for a read or a write.
    Choice(u64),
    /// From form 2 up to form 3, and from that down to form 2, of a table with the same rows.
    MoveUp,
    MoveDown,
}

/// The forms that tables are moved between.
const DOWN: OlderForm = OlderForm::Two;
const UP: OlderForm = OlderForm::Three;

/// The bytes of an order, and how many a round has.
pub const ORDER_BYTES: usize = 8;
pub const ORDERS: u32 = 64;

pub const EVERY_TASK: [Task; 16] = [
    Task::Found,
    Task::Read(16),
    Task::Read(WHOLE),
    Task::Write(16),
    Task::Write(WHOLE),
    Task::RefusedWrite,
    Task::Write(ORDER_BYTES),
    Task::Round,
    Task::Send,
    Task::RefusedSend,
    Task::CheckSame,
    Task::CheckNew,
    Task::Choice(raw::READ),
    Task::Choice(raw::WRITE),
    Task::MoveUp,
    Task::MoveDown,
];

impl fmt::Display for Task {
    fn fmt(&self, f: &mut fmt::Formatter) -> fmt::Result {
        match self {
            Task::Found => f.write_str("found"),
            Task::Read(WHOLE) => f.write_str("read, whole file"),
            Task::Read(length) => write!(f, "read, {length} bytes"),
            Task::Write(WHOLE) => f.write_str("write, whole file"),
            Task::Write(length) => write!(f, "write, {length} bytes"),
            Task::RefusedWrite => f.write_str("write, refused by 18"),
            Task::Round => write!(f, "round, {ORDERS} orders of {ORDER_BYTES} bytes"),
            Task::Send => f.write_str("send, whole file"),
            Task::SendPatches(1) => f.write_str("send, 1 patch"),
            Task::SendPatches(patches) => write!(f, "send, {patches} patches"),
            Task::RefusedSend => f.write_str("send, refused"),
            Task::CheckSame => f.write_str("check, same list"),
            Task::CheckNew => f.write_str("check, new list"),
            Task::Join => f.write_str("join"),
            Task::Chart => f.write_str("chart"),
            Task::Choice(raw::READ) => f.write_str("choice, for a read"),
            Task::Choice(_) => f.write_str("choice, for a write"),
            Task::MoveUp => f.write_str("move, up"),
            Task::MoveDown => f.write_str("move, down"),
        }
    }
}

impl Task {
    /// How many writes one call is.
    pub fn writes(self) -> u32 {
        match self {
            Task::Round => ORDERS,
            _ => 1,
        }
    }

    /// Does a call look over the table of its state, to see that it is well formed?
    pub fn looks_over(self) -> bool {
        !matches!(self, Task::Found | Task::Chart | Task::MoveUp | Task::MoveDown)
    }

    /// The refusal number that every call of the task must have.
    fn refusal(self) -> u64 {
        match self {
            Task::RefusedSend => 10,
            Task::RefusedWrite => 18,
            _ => 0,
        }
    }

    /// Makes `calls` calls on a fresh copy of the table; gives the time of all, and what they leave.
    pub fn run(self, engine: &impl Calls, state: &State, calls: u32) -> (Duration, Left) {
        let State { size, coordinator, answering, .. } = *state;
        let behind = self.behind(state);
        let mut table = state.with_receiver(behind);
        let (all, but_one) = (answering, answering & !rows::only(size.used));
        let (names, counties) = (size.names(), size.counties());
        let mut bytes = match self {
            Task::Read(length) | Task::Write(length) => vec![7; length.min(size.file_len)],
            Task::RefusedWrite => vec![7; 16],
            Task::Round => orders(state),
            Task::Chart => vec![7; 2 * CHART_PLACES],
            Task::Choice(_) => vec![7; 8],
            _ => Vec::new(),
        };
        if let Task::MoveUp | Task::MoveDown = self {
            let form_3 = in_form_3(&table);
            let form_2 = form_3.carry_down(DOWN).expect("form 2 holds every table");
            // The second buffer has the length of the other form; what it holds is of no account.
            (table, bytes) = (form_2, form_3.into_bytes());
            if let Task::MoveDown = self {
                std::mem::swap(&mut table, &mut bytes);
            }
        }
        let (file, receiver) = (size.file() as u64, size.copy_at(2, size.file()));
        let sizes = Sizes {
            capacity: size.capacity as u64,
            file_len: size.file_len as u64,
            files: size.files as u64,
        };
        let (middle, next) = (size.used / 2, size.used + 1);
        let name = u16::from_le_bytes(states::name(middle)) + 1;
        let newest = state.newest;
        let asked = Asked { coordinator, answering, file, offset: 0 };
        let mut called = [0];
        // Of a sheet of zeros every ceiling is 0.
        let mut sheet = if let Task::RefusedWrite = self { vec![0; 196] } else { open_sheet() };
        let mut result = 0;
        let started = Instant::now();
        for call in 0..calls {
            result = match self {
                Task::Found => {
                    engine.found(black_box(&mut table), sizes, black_box(&names), black_box(&counties))
                }
                Task::Read(_) => {
                    engine.read(black_box(&table), asked, black_box(&mut bytes), black_box(&mut called))
                }
                Task::Write(_) | Task::RefusedWrite => engine.write(
                    black_box(&mut table),
                    asked,
                    black_box(&bytes),
                    black_box(&mut called),
                    black_box(&mut sheet),
                ),
                Task::Round => {
                    engine.round(black_box(&mut table), answering, black_box(&bytes), black_box(&mut sheet))
                }
                Task::Send | Task::SendPatches(_) => {
                    states::make_stale(&mut table, receiver, newest - behind, newest);
                    engine.send(black_box(&mut table), 1, 2, 3, file)
                }
                Task::RefusedSend => engine.send(black_box(&mut table), 1, 2, 3, file),
                Task::CheckSame => {
                    engine.check(black_box(&mut table), coordinator, all, black_box(&mut sheet))
                }
                Task::CheckNew => {
                    let set = if call % 2 == 0 { but_one } else { all };
                    engine.check(black_box(&mut table), coordinator, set, black_box(&mut sheet))
                }
                Task::Join => {
                    unjoin(&mut table, size.row_at(middle), size.row_at(next));
                    engine.join(black_box(&mut table), name)
                }
                Task::Chart => engine.chart(size.used as u64, 0, black_box(&mut bytes)),
                Task::Choice(kind) => {
                    engine.choice(black_box(&table), coordinator, kind, black_box(&mut bytes))
                }
                Task::MoveUp => engine.carry(black_box(&table), UP.number().into(), black_box(&mut bytes)),
                Task::MoveDown => {
                    engine.carry(black_box(&table), DOWN.number().into(), black_box(&mut bytes))
                }
            };
            assert!(black_box(result) >> 32 == self.refusal(), "{}: {self} has another refusal", state.title);
        }
        let time = started.elapsed();
        (time, Left { table, bytes, called, sheet, result })
    }

    /// How many writes the receiver of a send misses.
    fn behind(self, state: &State) -> u32 {
        match self {
            Task::Send => state.kept + 1,
            Task::SendPatches(patches) => patches,
            _ => 0,
        }
    }

    /// What a send carries, where windows are full; none for other calls.
    pub fn carried(self, state: &State) -> Option<Carried> {
        let State { size, newest, kept, .. } = *state;
        let behind = self.behind(state);
        if kept == 0 || behind == 0 {
            return None;
        }
        let mut table = state.with_receiver(behind);
        states::make_stale(&mut table, size.copy_at(2, size.file()), newest - behind, newest);
        let before = Table::from_bytes(table).expect("well formed");
        let mut after = before.clone();
        after.file_mut(size.file()).send(1, 2, Rows::first(2)).expect("row 2 is stale");
        let ranges = after.changed_ranges(&before, 2);
        let given = ROW_HEADER + size.copy_len();
        Some(Carried {
            given: if behind <= kept { given - size.file_len } else { given },
            changed: ranges.iter().map(Range::len).sum(),
            ranges: ranges.len(),
        })
    }
}

/// What a send carries, in bytes.
pub struct Carried {
    /// What the sender's machine gives: the head of its row and its copy of the file, without the contents if the send is by window.
    pub given: usize,
    /// What changes in the receiver's row.
    pub changed: usize,
    /// In so many ranges.
    pub ranges: usize,
}

/// What the calls of a task leave: the table, the other bytes that were lent, how many machines the last read or write
/// called, the sheet, and the last result.
#[derive(PartialEq, Eq)]
pub struct Left {
    table: Vec<u8>,
    bytes: Vec<u8>,
    called: [u8; 1],
    sheet: Vec<u8>,
    result: u64,
}

/// The orders of a round, by the coordinator of the state, each in another place if there are enough.
fn orders(state: &State) -> Vec<u8> {
    let size = state.size;
    let places = size.file_len / ORDER_BYTES;
    let order = |number: usize| {
        let order = Order::new(state.coordinator as usize, number % places * ORDER_BYTES, &[7; ORDER_BYTES]);
        order.expect("8 bytes").in_file(size.file()).by_club(CLUB as usize).to_bytes()
    };
    (0..ORDERS as usize).flat_map(order).collect()
}

/// The bytes of a sheet without limits.
pub fn open_sheet() -> Vec<u8> {
    Sheet::open().as_bytes().to_vec()
}

/// The rows of a table of one file, in form 3.
fn in_form_3(newest: &[u8]) -> Form3Table {
    let table = reference::Table::decode(newest).expect("well formed");
    let reference::Table { capacity, used, file_len, files, .. } = table;
    let older = reference::Table::new(Rules::OneFile, capacity, used, file_len, files, table.chain);
    let mut bytes = vec![0; Rules::OneFile.table_length(capacity, file_len, files)];
    older.write_header(&mut bytes, newest[3].into());
    for row in 1..=used {
        older.write_row(&mut bytes, row, &Row { county: 0, ..table.row(newest, row) });
        older.write_part(&mut bytes, row, 1, &table.part(newest, row, 1));
        older.contents_mut(&mut bytes, row, 1).copy_from_slice(table.contents(newest, row, 1));
        *older.window_mut(&mut bytes, row, 1) = *table.window(newest, row, 1);
    }
    Form3Table::from_bytes(bytes).expect("the rules are the same")
}

/// Takes the row that begins at `joined` out of the chain, if it is in; it comes behind the row that begins at `before`.
fn unjoin(table: &mut [u8], before: usize, joined: usize) {
    if table[joined + 2] != 0 {
        table[2] -= 1;
        table[before + 2] = table[joined + 2];
        table[joined..joined + 3].fill(0);
        table[joined + COUNTY] = 0;
    }
}
