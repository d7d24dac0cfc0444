//! The tables that the calls are timed on.

use crate::tasks::{self, Task, EVERY_TASK, ORDER_BYTES};
use dyngrid::{raw, Rows};
use reference::rows::{self, Order};
use reference::{Counties, Engine, Grid, Layout, Quorum, Rules, Shape, Table, ROW_HEADER};

/// A well-formed table, and the calls that are timed on it.
pub struct State {
    pub title: String,
    pub size: Size,
    pub table: Vec<u8>,
    /// The row that coordinates reads, writes and checks.
    pub coordinator: u64,
    /// The rows that answer them, the coordinator's among them.
    pub answering: u64,
    pub tasks: &'static [Task],
    /// How many patches every window has, and of how many bytes.
    pub kept: u32,
    patch_len: usize,
    /// The version of the sender in a send.
    pub newest: u32,
}

/// Where a copy has its stale mark, its version, and what it desires.
const STALE: usize = 0;
const VERSION: usize = 4;
const DESIRED: usize = 8;

/// The patches that a window has room for.
const PLACES: u32 = 16;
/// Writes until windows are full; as many as a window and a whole send need, and some more.
const WRITES: u32 = 40;
/// The bytes of a result, and of the longest patch that a window keeps.
const RESULT: usize = 3;
const LONGEST: usize = 32;

#[derive(Clone, Copy)]
pub struct Size {
    title: &'static str,
    pub used: usize,
    pub capacity: usize,
    pub file_len: usize,
    pub files: usize,
    /// The machines are of so many counties, by turns.
    counties: usize,
}

const SIZES: [Size; 3] = [
    Size::new("4 machines, 64 bytes", 4, 64, 1),
    Size::new("16 machines, 1,024 bytes", 16, 1024, 1),
    Size::new("64 machines, 4,096 bytes", 64, 4096, 1),
];
const GROUPS: [Size; 3] = [
    Size::new("4 machines, 8 files of 64 bytes", 4, 64, 8),
    Size::new("16 machines, 8 files of 1,024 bytes", 16, 1024, 8),
    Size::new("64 machines, 8 files of 4,096 bytes", 64, 4096, 8),
];
/// Sizes of tall tables; twelve lie in four rows and three columns, where a wide table has three and four.
const TALL_SIZES: [Size; 2] =
    [Size::new("12 machines, 1,024 bytes", 12, 1024, 1), Size::new("64 machines, 4,096 bytes", 64, 4096, 1)];
const CHARTED: Size = Size::new("9 machines, 64 bytes", 9, 64, 1);
const SPARSE: Size = Size { capacity: 64, ..Size::new("5 of 64 rows used, 4,096 bytes", 5, 4096, 1) };
const SPARSE_GROUP: Size =
    Size { capacity: 64, ..Size::new("5 of 64 rows used, 8 files of 4,096 bytes", 5, 4096, 8) };

const SOME_TASKS: &[Task] = &[Task::Read(16), Task::Write(16), Task::Send, Task::CheckSame];
const SPARSE_TASKS: &[Task] = &[Task::Read(16), Task::Write(16), Task::Send, Task::CheckSame, Task::Join];
const FULL_TASKS: &[Task] = &[
    Task::Read(16),
    Task::Write(16),
    Task::Write(ORDER_BYTES),
    Task::Round,
    Task::Send,
    Task::SendPatches(1),
    Task::SendPatches(PLACES),
    Task::RefusedSend,
    Task::CheckSame,
    Task::CheckNew,
    Task::Choice(raw::WRITE),
    Task::MoveDown,
];
const GROUP_TASKS: &[Task] = &[
    Task::Read(16),
    Task::Write(16),
    Task::Write(ORDER_BYTES),
    Task::Round,
    Task::Send,
    Task::RefusedSend,
    Task::CheckSame,
    Task::CheckNew,
];
const FULL_GROUP_TASKS: &[Task] = &[
    Task::Read(16),
    Task::Write(16),
    Task::Send,
    Task::SendPatches(1),
    Task::SendPatches(PLACES),
    Task::CheckSame,
    Task::CheckNew,
];
const COUNTY_TASKS: &[Task] = &[
    Task::Found,
    Task::Read(16),
    Task::Write(16),
    Task::Write(ORDER_BYTES),
    Task::Round,
    Task::Send,
    Task::CheckSame,
    Task::CheckNew,
    Task::Choice(raw::READ),
    Task::Choice(raw::WRITE),
];
const READ_AND_WRITE: &[Task] = &[Task::Read(16), Task::Write(16)];
const READ_WRITE_AND_CHECK: &[Task] = &[Task::Read(16), Task::Write(16), Task::CheckSame];

/// Every state, small tables first.
pub fn all() -> Vec<State> {
    let mut states: Vec<State> = SIZES
        .into_iter()
        .flat_map(|size| {
            [
                founded(size),
                full_windows(size, RESULT),
                two_epochs(size),
                falling_rows(size),
                partial_list(size),
                few_answering(size),
                one_row_left(size),
                joined(size),
                joined_coordinates(size),
            ]
        })
        .collect();
    states.push(State { tasks: SPARSE_TASKS, ..founded(SPARSE) });
    states.extend(TALL_SIZES.map(tall));
    states.extend(SIZES.map(four_counties));
    states.push(full_windows(SIZES[2], LONGEST));
    states.extend(GROUPS.into_iter().flat_map(|size| {
        let full = full_windows(size, RESULT);
        [State { tasks: GROUP_TASKS, ..founded(size) }, State { tasks: FULL_GROUP_TASKS, ..full }]
    }));
    states.push(State { tasks: SOME_TASKS, ..founded(SPARSE_GROUP) });
    states.push(State { tasks: &[Task::Chart], ..founded(CHARTED) });
    for state in &states {
        assert!(Table::decode(&state.table).is_some(), "{}: malformed", state.title);
    }
    states
}

impl Size {
    /// All rows in use.
    const fn new(title: &'static str, used: usize, file_len: usize, files: usize) -> Size {
        Size { title, used, capacity: used, file_len, files, counties: 1 }
    }

    pub fn names(&self) -> Vec<u8> {
        (1..=self.used).flat_map(name).collect()
    }

    pub fn counties(&self) -> Vec<u8> {
        (0..self.used).map(|place| (place % self.counties) as u8 + 1).collect()
    }

    fn title(&self, state: &str) -> String {
        format!("{}: {state}", self.title)
    }

    /// Where a row begins.
    pub fn row_at(&self, row: usize) -> usize {
        Table::length(row - 1, self.file_len, self.files)
    }

    /// The file that is read, written and sent: the last.
    pub fn file(&self) -> usize {
        self.files
    }

    /// How many bytes a copy takes.
    pub fn copy_len(&self) -> usize {
        Rules::Newest.part_length(self.file_len)
    }

    /// Where a row has its copy of a file.
    pub fn copy_at(&self, row: usize, file: usize) -> usize {
        self.row_at(row) + ROW_HEADER + (file - 1) * self.copy_len()
    }
}

/// The name of so high a rank, two bytes; between two of them there is room.
pub fn name(rank: usize) -> [u8; 2] {
    (1000 * rank as u16).to_le_bytes()
}

fn founded(size: Size) -> State {
    founded_as(size, raw::WIDE)
}

/// Founded tall.
fn tall(size: Size) -> State {
    State { title: size.title("tall"), tasks: READ_AND_WRITE, ..founded_as(size, raw::TALL) }
}

/// Founded with as many machines of each of four counties.
fn four_counties(size: Size) -> State {
    let size = Size { counties: 4, ..size };
    State { title: size.title("four counties"), tasks: COUNTY_TASKS, ..founded(size) }
}

fn founded_as(size: Size, choice: u64) -> State {
    let mut table = vec![0; Table::length(size.capacity, size.file_len, size.files)];
    let (capacity, file_len, files) = (size.capacity as u64, size.file_len as u64, size.files as u64);
    let (names, counties) = (size.names(), size.counties());
    Engine::default().found(&mut table, capacity, file_len, &names, choice, files, &counties);
    let answering = rows::first(size.used);
    let title = size.title("founded");
    State {
        title,
        size,
        table,
        coordinator: 1,
        answering,
        tasks: &EVERY_TASK,
        kept: 0,
        patch_len: 0,
        newest: 1,
    }
}

/// Every row has every write of every file, and full windows on patches of so many bytes.
fn full_windows(size: Size, patch_len: usize) -> State {
    let mut state = founded(size);
    let copy = written(size.file_len, WRITES, patch_len);
    for (row, file) in (1..=size.used).flat_map(|row| (1..=size.files).map(move |file| (row, file))) {
        lay_copy(&mut state.table[size.copy_at(row, file)..], &copy);
    }
    let title = size.title(&format!("windows full of {patch_len} bytes each"));
    State { title, tasks: FULL_TASKS, kept: PLACES, patch_len, newest: WRITES, ..state }
}

/// A copy after so many writes of so many bytes, each in another place if there are enough.
fn written(file_len: usize, writes: u32, patch_len: usize) -> Vec<u8> {
    let mut table = dyngrid::Table::found(1, file_len, &[1], dyngrid::Shape::Wide).expect("a plain founding");
    let places = file_len / (patch_len + 1);
    for write in 0..writes as usize {
        let offset = write % places * (patch_len + 1);
        let patch = vec![write as u8 + 1; patch_len];
        table.file_mut(1).write(1, Rows::first(1), offset, &patch).expect("one is enough");
    }
    let copy = table.file(1).range().expect("a file of the group");
    table.row_bytes(1).expect("in use")[copy].to_vec()
}

/// Puts a copy in the place of the one that begins here.
fn lay_copy(place: &mut [u8], copy: &[u8]) {
    place[..copy.len()].copy_from_slice(copy);
}

/// Marks the copy that begins here: of this version, desiring another.
pub fn make_stale(table: &mut [u8], copy: usize, version: u32, desired: u32) {
    table[copy + STALE] = 1;
    table[copy + VERSION..copy + DESIRED].copy_from_slice(&version.to_le_bytes());
    table[copy + DESIRED..copy + DESIRED + 4].copy_from_slice(&desired.to_le_bytes());
}

impl State {
    /// The table for a send whose receiver, row 2, is so many writes behind row 1; for another call that of the state.
    pub fn with_receiver(&self, behind: u32) -> Vec<u8> {
        let (mut table, size) = (self.table.clone(), self.size);
        if behind > 0 && self.kept == 0 {
            // Row 1 has a version that its empty window says nothing of.
            table[size.copy_at(1, size.file()) + VERSION] = self.newest as u8;
        } else if behind > 0 {
            let copy = written(size.file_len, self.newest - behind, self.patch_len);
            lay_copy(&mut table[size.copy_at(2, size.file())..], &copy);
        }
        table
    }
}

/// The odd rows are a list of their own with a higher epoch, so that no two neighbours are of one epoch.
fn two_epochs(size: Size) -> State {
    let mut state = founded(size);
    let odd = (1..=size.used).step_by(2).fold(0, |set, row| set | rows::only(row));
    for row in rows::members(odd) {
        let at = size.row_at(row);
        state.table[at + 12] = 1;
        state.table[at + 16..at + 24].copy_from_slice(&odd.to_le_bytes());
    }
    State { title: size.title("two epochs by turns"), answering: odd, tasks: SOME_TASKS, ..state }
}

/// Row indexes fall along the chain.
fn falling_rows(size: Size) -> State {
    let mut state = founded(size);
    state.table[3] = size.used as u8;
    for row in 1..=size.used {
        let at = size.row_at(row);
        state.table[at..at + 2].copy_from_slice(&name(size.used + 1 - row));
        state.table[at + 2] = row as u8 - 1;
    }
    State { title: size.title("reversed chain"), tasks: SOME_TASKS, ..state }
}

/// After a check that a quarter of the machines missed: the last ones outside the first column.
fn partial_list(size: Size) -> State {
    let mut state = founded(size);
    let columns = Grid::of(size.used).columns;
    let outside = (1..=size.used).rev().filter(|row| (row - 1) % columns != 0).take(size.used / 4);
    let list = outside.fold(state.answering, |list, row| list & !rows::only(row));
    let result = Engine::default().check(&mut state.table, 1, list, &mut tasks::open_sheet());
    assert_eq!(result, 1, "the check was refused");
    State { title: size.title("list of three quarters"), answering: list, tasks: SOME_TASKS, ..state }
}

/// Only the first column and the last row of the grid answer: a write quorum. What answers of the coordinator's own
/// choice holds none.
fn few_answering(size: Size) -> State {
    let columns = Grid::of(size.used).columns;
    let quorum = (1..=size.used).filter(|row| (row - 1) % columns == 0 || *row > size.used - columns);
    let answering = quorum.fold(0, |set, row| set | rows::only(row));
    let list = Rules::default().lay(Shape::Wide, rows::first(size.used), &Counties::ONE);
    let layout = Layout::of(list, &Order::first(size.used), &Counties::ONE);
    for quorum in [Quorum::Read, Quorum::Write] {
        let choice = layout.choice(quorum, u16::from_le_bytes(name(1)));
        assert!(layout.holds(quorum, answering) && !layout.holds(quorum, choice & answering));
    }
    State { title: size.title("a quorum answers"), answering, tasks: READ_AND_WRITE, ..founded(size) }
}

/// Founded with one row less than there are.
fn one_row_left(size: Size) -> State {
    let size = Size { used: size.used - 1, ..size };
    State { title: size.title("one row left"), tasks: &[Task::Join], ..founded(size) }
}

/// A quarter of the machines joined, each behind a founded one, and no check took them in; the list in force answers.
fn joined(size: Size) -> State {
    let listed = Size { used: size.used - size.used / 4, ..size };
    let mut state = founded(listed);
    for rank in 1..=size.used / 4 {
        let name = u16::from_le_bytes(name(rank)) + 1;
        let result = Engine::default().join(&mut state.table, name, 1);
        assert_eq!(result, (listed.used + rank) as u64, "the joining was refused");
    }
    State { title: size.title("a quarter joined"), size, tasks: READ_WRITE_AND_CHECK, ..state }
}

/// The same table; a joined row coordinates, so that the call works on all that answered, and all do.
fn joined_coordinates(size: Size) -> State {
    let title = size.title("a joined row coordinates");
    let (coordinator, answering) = (size.used as u64, rows::first(size.used));
    State { title, coordinator, answering, tasks: READ_AND_WRITE, ..joined(size) }
}
