//! How often each call was done and refused, on which kinds of tables, and at which sizes its twin was asked.

use crate::call::{whole_orders, Call};
use crate::damage::{self, Damaged};
use crate::generate::MOVE_FORMS;
use crate::sheets;
use crate::tables::Picture;
use reference::round::{Order, MOST_ORDERS, ORDER};
use reference::window::RECORDS;
use reference::{Quorum, Rules, Shape, Sheet, MAX_COUNTIES, MAX_FILES, SEVERAL};
use std::collections::{BTreeMap, BTreeSet};
use std::fmt;
use std::ops::RangeInclusive;

const KINDS: usize = Call::KINDS.len();

/// What came up in a run.
#[derive(Clone)]
pub struct Counts {
    /// For each kind of call, how often it gave each answer: 0 for done, else the refusal number.
    answers: [BTreeMap<u32, u64>; KINDS],
    /// For each kind of call and number of used rows, how often its twin was asked.
    twins: [[u64; 65]; KINDS],
    /// For each kind of call, how often it was made on each kind of table.
    grounds: [[u64; Ground::ALL.len()]; KINDS],
    /// For each kind of call, how often the scope's rules alone judged it too, on a well-formed table.
    published: [u64; KINDS],
    /// For each kind of call and grid mark, how often a list of that mark judged it that its other grid would have judged
    /// otherwise.
    decided: [[u64; MARKS.len()]; KINDS],
    /// For each kind of call, answer and length of the list for the number called, or for a choice, how often they came together.
    lents: [BTreeMap<(u32, usize), u64>; KINDS],
    /// For each kind of call and answer, how often it surely stayed with the own choice, and how often it surely did not.
    stayed: [BTreeMap<(u32, bool), u64>; KINDS],
    /// How often each of `CHOICES` was told.
    chosen: [u64; CHOICES.len()],
    /// For each kind of call, how often a relay made it too.
    relayed: [u64; KINDS],
    /// How many done sends were of each of `SENDS`, in founded histories and elsewhere.
    sent: [[u64; SENDS.len()]; 2],
    /// For each length of `PATCHES` and each of `FILLS`, how many done writes added such a patch to such a window.
    added: [[u64; FILLS.len()]; PATCHES.len()],
    /// For each form, how many tables of it broke each rule.
    damages: [[u64; damage::RULES.len()]; Rules::ALL.len()],
    /// How many tables broke each rule of what a row says of a file in the last of several files.
    damaged_last: [u64; damage::RULES.len()],
    /// For each kind of call, how often it was done on a table of each number of files.
    files: [[u64; MAX_FILES]; KINDS],
    /// For each kind of call, how often it was done with each file.
    named: [[u64; MAX_FILES]; KINDS],
    /// For each kind of call, how often it was refused by 16 for each of `ABSENT`.
    absent: [[u64; ABSENT.len()]; KINDS],
    /// For each kind of call and number of files, how often it was made again with other parts of other files.
    other_files: [[u64; MAX_FILES]; KINDS],
    /// For each kind of call, how often it was made on each file alone, in tables of one file and of several; of one county by the rules
    /// of form 3.
    alone: [[u64; GROUPS.len()]; KINDS],
    /// How many checks were of each of `CHECKS`.
    checks: [u64; CHECKS.len()],
    /// For each kind of call, how often it was done on a table of each number of counties.
    counties: [[u64; MAX_COUNTIES]; KINDS],
    /// How often each of `NO_COUNTIES` was refused by 20.
    no_counties: [u64; NO_COUNTIES.len()],
    /// For each kind of call, for each shape and for each of `OTHERWISE`, how often a list of several counties judged it that would have
    /// judged otherwise if it were laid so.
    otherwise: [[[u64; OTHERWISE.len()]; SHAPES.len()]; KINDS],
    /// For each kind of call, how often a list of one county judged it in a table of several.
    at_home: [u64; KINDS],
    /// How many checks took in a row of a county that the list before had no member of.
    newcomers: u64,
    /// For each kind of call, how often the rules of form 4 judged it too, on a table of one county.
    former: [u64; KINDS],
    /// For each kind of call, how often it was made again with a row that did not answer in another county, and gave the same, and how
    /// often it did not.
    moved_counties: [[u64; 2]; KINDS],
    /// For each form, each of `MOVE_FORMS` and each of `BUFFERS`, how many moves of well-formed tables were so.
    moved: [[[u64; BUFFERS.len()]; MOVE_FORMS.len()]; Rules::ALL.len()],
    /// For each of `WAYS`, how many tables went that way and were moved on.
    went_on: [u64; WAYS.len()],
    /// For each form, how many moves to form 1 were of tables with one alone of `UNPUBLISHED`.
    unpublished: [[u64; UNPUBLISHED.len()]; Rules::ALL.len()],
    /// How many writes met each of `SHARES`.
    shares: [u64; SHARES.len()],
    /// How many writes, and how many checks, were refused by 1 for a sheet with each rule of one broken alone.
    wrong_sheets: [[u64; sheets::RULES.len()]; SHEETED.len()],
    /// How many writes were made again with other lines of the sheet.
    other_sheets: u64,
    /// How many times the counts of one sheet were the writes done since the last changing check, 0 of them and more.
    summed: [u64; 2],
    /// How many rounds were of each of `ROUNDS`, how many lists left over each number of bytes, and how many orders were done.
    rounds: [u64; ROUNDS.len()],
    left_over: [u64; ORDER],
    ordered: u64,
    /// How many well-formed tables were looked at through the wrapper, and how many sends would be done there.
    looked: u64,
    sends: u64,
}

/// So many calls must be made by a relay too.
pub const RELAYED: u64 = 200_000;

/// So many sends must be listed by the wrapper.
pub const LISTED: u64 = 100_000;

/// What a done send did.
#[derive(Clone, Copy, Debug, PartialEq, Eq)]
pub struct Sent {
    /// In a founded history?
    pub founded: bool,
    /// How many versions the receiver was behind.
    pub behind: usize,
    /// How many patches the sender's window has.
    pub patches: usize,
    /// Has the receiver the sender's contents?
    pub like_whole: bool,
}

impl Sent {
    /// Does the sender's window reach back to the receiver's version?
    pub fn by_window(self) -> bool {
        self.behind <= self.patches
    }
}

/// What a move was asked of a well-formed table.
#[derive(Clone, Copy, Debug, PartialEq, Eq)]
pub struct Moved {
    /// The rules of the table's own form.
    pub from: Rules,
    pub form: u64,
    /// How much longer the buffer is than that form asks for, or the newest if there is no such form.
    pub over: isize,
    /// Has a list a grid mark? Has a row an empty list?
    pub marked: bool,
    pub unlisted: bool,
    /// Did the calls go on on the new table?
    pub went_on: bool,
}

impl Moved {
    pub fn of(table: &Picture, form: u64, length: usize) -> Moved {
        let rules = u8::try_from(form).ok().and_then(Rules::of_form).unwrap_or_default();
        let files = table.files.min(rules.most_files());
        let right = rules.table_length(table.capacity, table.file_len, files);
        Moved {
            from: table.rules,
            form,
            over: length as isize - right as isize,
            marked: (1..=table.used).any(|row| table.row(row).list.mark != 0),
            unlisted: table.unlisted() != 0,
            went_on: false,
        }
    }
}

/// The moves that there are, from and to these forms.
const WAYS: [(u8, u64); 4] = [(1, 3), (2, 3), (3, 1), (3, 2)];

/// The lengths of a move's buffer that must come.
const BUFFERS: [(&str, isize); 3] = [("a byte short", -1), ("right", 0), ("a byte long", 1)];

/// What keeps a table from moving to form 1.
const UNPUBLISHED: [&str; 2] = ["a grid mark", "an empty list"];

/// What the files had to do with a check.
#[derive(Clone, Copy, Debug, PartialEq, Eq)]
pub enum Checked {
    /// It was done, and so many of the files got marks.
    Done { marked: usize, files: usize },
    /// It was refused by 7; because of one file alone?
    NotCurrent { only: Option<usize>, files: usize },
}

/// Something that must come, and how it is known.
type Known<T> = (&'static str, fn(T) -> bool);

/// The kinds of checks of several files that must come.
const CHECKS: [Known<Checked>; 5] = [
    ("refused by 7 because of the first file alone", |checked| {
        matches!(checked, Checked::NotCurrent { only: Some(1), files: 2.. })
    }),
    (
        "refused by 7 because of the last file alone",
        |checked| matches!(checked, Checked::NotCurrent { only: Some(only @ 2..), files } if only == files),
    ),
    (
        "refused by 7 because of a file between alone",
        |checked| matches!(checked, Checked::NotCurrent { only: Some(only @ 2..), files } if only < files),
    ),
    (
        "that marked in some files and not in others",
        |checked| matches!(checked, Checked::Done { marked: marked @ 1.., files } if marked < files),
    ),
    (
        "that marked in each of several files",
        |checked| matches!(checked, Checked::Done { marked: marked @ 2.., files } if marked == files),
    ),
];

/// The kinds of calls that name a file: read, write, send; those that files have a part in; those that are made on each file alone
/// too; and those that other files have no part in.
const NAMING: RangeInclusive<usize> = 1..=3;
const ON_FILES: [usize; 8] = [0, 1, 2, 3, 4, 5, 7, 9];
const ALONE: [usize; 7] = [1, 2, 3, 4, 5, 7, 9];
const WITHIN: [usize; 4] = [1, 2, 3, 9];

/// The files that a group does not have and that must be named, by their number and how many there are.
const ABSENT: [Known<(u64, usize)>; 4] = [
    ("file 0", |(file, _)| file == 0),
    ("the file behind the last", |(file, files)| file == files as u64 + 1),
    ("file 9", |(file, _)| file == MAX_FILES as u64 + 1),
    ("file 2^32 + 1", |(file, _)| file == (1 << 32) + 1),
];

/// A call of this kind that must come, and how it is known.
type KnownCall = (usize, &'static str, fn(&Call) -> bool);

/// The foundings and joinings that must be refused by 20.
const NO_COUNTIES: [KnownCall; 11] = [
    (0, "founding with a county less than names", |call| surplus(call) == Some(-1)),
    (0, "founding with a county more than names", |call| surplus(call) == Some(1)),
    (0, "founding without counties", |call| call.counties() == Some(&[])),
    (0, "founding with county 0", |call| call.counties().is_some_and(|counties| counties.contains(&0))),
    (0, "founding with county 9", |call| call.counties().is_some_and(|counties| counties.contains(&9))),
    (0, "founding with county 255", |call| call.counties().is_some_and(|counties| counties.contains(&255))),
    (5, "joining from county 0", |call| matches!(call, Call::Join { county: 0, .. })),
    (5, "joining from county 9", |call| matches!(call, Call::Join { county: 9, .. })),
    (5, "joining from county 257", |call| matches!(call, Call::Join { county: 257, .. })),
    (5, "joining from county 2^32 + 1", |call| matches!(call, Call::Join { county: 0x1_0000_0001, .. })),
    (5, "joining from county 2^64 - 1", |call| matches!(call, Call::Join { county: u64::MAX, .. })),
];

/// How many counties a founding names beyond its machines.
fn surplus(call: &Call) -> Option<isize> {
    match call {
        Call::Found { names, counties, .. } => Some(counties.len() as isize - names.len() as isize / 2),
        _ => None,
    }
}

/// How a list of several counties could be laid wrongly.
pub const OTHERWISE: [&str; 4] = [
    "in one grid",
    "with five machines of a county in the published grid",
    "with five counties in the published grid",
    "with its counties in chain order",
];
const SHAPES: [&str; 2] = ["wide", "tall"];

/// A write with this answer that must come, by its right sheet and its club.
type Share = (&'static str, u32, fn(&Sheet, u64) -> bool);

const SHARES: [Share; 11] = [
    ("below its assured number, nothing left to share", 0, |sheet, club| {
        sheet.remainder() == 0 && sheet.line(club).is_some_and(|line| line.count < line.assured)
    }),
    ("at its assured number", 0, |sheet, club| {
        sheet.line(club).is_some_and(|line| line.count == line.assured && line.assured > 0)
    }),
    ("with the last that is left to share", 0, |sheet, club| {
        sheet.remainder() == 1 && sheet.line(club).is_some_and(|line| line.count >= line.assured)
    }),
    ("one below its ceiling", 0, |sheet, club| {
        sheet.line(club).is_some_and(|line| line.count + 1 == line.ceiling)
    }),
    ("at its ceiling, something left to share", 18, |sheet, club| {
        sheet.remainder() > 0 && sheet.line(club).is_some_and(|line| line.count == line.ceiling)
    }),
    ("at its ceiling, nothing left to share", 18, |sheet, club| {
        sheet.remainder() == 0 && sheet.line(club).is_some_and(|line| line.count == line.ceiling)
    }),
    ("of club 0", 18, |_, club| club == 0),
    ("of club 17", 18, |_, club| club == 17),
    ("of club 257", 18, |_, club| club == 257),
    ("of club 2^32 + 1", 18, |_, club| club == (1 << 32) + 1),
    ("with nothing left to share", 19, |sheet, _| sheet.remainder() == 0),
];

/// The kinds of calls that are lent a sheet: write, check and round.
const SHEETED: [usize; 3] = [2, 4, 9];

/// What a round was, and what it came to.
#[derive(Clone, Copy, Debug, PartialEq, Eq)]
pub struct Round {
    /// In a founded history?
    pub founded: bool,
    /// How many whole orders the list has, and how many bytes are left over.
    pub orders: usize,
    pub over: usize,
    /// 0 if it was done, and how many orders were.
    pub refusal: u32,
    pub done: usize,
    /// The order that was refused, if one was.
    pub refused: Option<Order>,
    /// Did done orders name more than one file, club and coordinator?
    pub several: [bool; 3],
    /// Would the sheet as it was lent have let the refused order pass?
    pub by_own_counts: bool,
    pub sheet_is_right: bool,
    pub nobody_answers: bool,
    /// How many files the table has, if it is well formed.
    pub files: Option<usize>,
    /// Did the wrapper enter it too?
    pub wrapped: bool,
}

impl Round {
    pub fn of(call: &Call, result: u64, files: Option<usize>) -> Round {
        let list = if let Call::Round { orders, .. } = call { &orders[..] } else { &[] };
        let (refusal, done) = ((result >> 32) as u32, result as u32 as usize);
        let orders: Vec<Order> = whole_orders(list).collect();
        let over = list.len() % ORDER;
        let is_order = refusal != 0 && over == 0 && done < MOST_ORDERS as usize;
        let refused = orders.get(done).copied().filter(|_| is_order);
        let several =
            |of: fn(&Order) -> u8| orders.iter().take(done).map(of).collect::<BTreeSet<u8>>().len() > 1;
        let sheet = call.sheet().and_then(Sheet::judge);
        let share = sheet.zip(refused).and_then(|(sheet, order)| sheet.refusal(order.club.into()));
        Round {
            founded: false,
            orders: orders.len(),
            over,
            refusal,
            done,
            refused,
            several: [
                several(|order| order.file),
                several(|order| order.club),
                several(|order| order.coordinator),
            ],
            by_own_counts: matches!(refusal, 18 | 19) && share.is_none(),
            sheet_is_right: sheet.is_some(),
            nobody_answers: call.answering() == Some(0),
            files,
            wrapped: false,
        }
    }

    /// Of no order at all?
    fn is_empty(self) -> bool {
        self.orders == 0 && self.over == 0
    }

    /// Of so many orders, all done?
    fn is_done(self, orders: usize) -> bool {
        self.refusal == 0 && self.orders == orders
    }

    /// Refused by this number for an order, behind some that were done?
    fn stopped(self, refusal: u32) -> bool {
        self.refusal == refusal && self.done > 0 && self.refused.is_some()
    }

    /// Was such an order refused by this number?
    fn refused(self, refusal: u32, is_such: impl Fn(Order) -> bool) -> bool {
        self.refusal == refusal && self.refused.is_some_and(is_such)
    }

    /// Does the list end inside an order, and was it refused by this number?
    fn is_broken(self, refusal: u32) -> bool {
        self.over > 0 && self.refusal == refusal
    }
}

/// The kinds of rounds that must come.
const ROUNDS: [Known<Round>; 55] = [
    ("of no order, done", |round| round.is_empty() && round.refusal == 0),
    ("of no order, nobody answering, done", |round| {
        round.is_empty() && round.refusal == 0 && round.nobody_answers
    }),
    ("of no order, refused by 1 for the table", |round| {
        round.is_empty() && round.refusal == 1 && round.sheet_is_right
    }),
    ("of no order, refused by 1 for the sheet", |round| {
        round.is_empty() && round.refusal == 1 && round.files.is_some()
    }),
    ("of no order, refused by 2", |round| round.is_empty() && round.refusal == 2),
    ("that ends inside its first order, refused by 4", |round| round.is_broken(4) && round.orders == 0),
    ("that ends inside an order behind others, refused by 4", |round| round.is_broken(4) && round.orders > 0),
    ("that ends inside an order behind 64, refused by 4", |round| round.is_broken(4) && round.orders == 64),
    ("that ends inside an order behind 65 and more, refused by 4", |round| {
        round.is_broken(4) && round.orders > 64
    }),
    ("that ends inside an order, refused by 1 for the table", |round| {
        round.is_broken(1) && round.sheet_is_right
    }),
    ("that ends inside an order, refused by 1 for the sheet", |round| {
        round.is_broken(1) && round.files.is_some()
    }),
    ("that ends inside an order, refused by 2", |round| round.is_broken(2)),
    ("of 1 order, done", |round| round.is_done(1)),
    ("of 2 orders, done", |round| round.is_done(2)),
    ("of 63 orders, done", |round| round.is_done(63)),
    ("of 64 orders, done", |round| round.is_done(64)),
    ("of 65 orders, 64 done", |round| round.orders == 65 && round.done == 64),
    ("of 70 orders, 64 done", |round| round.orders == 70 && round.done == 64),
    ("of 65 and more orders, refused before", |round| round.orders > 64 && round.refused.is_some()),
    ("of 64 orders done in a founded history", |round| round.is_done(64) && round.founded),
    ("refused by 2 behind done orders", |round| round.stopped(2)),
    ("refused by 3 behind done orders", |round| round.stopped(3)),
    ("refused by 4 behind done orders", |round| round.stopped(4)),
    ("refused by 6 behind done orders", |round| round.stopped(6)),
    ("refused by 7 behind done orders", |round| round.stopped(7)),
    ("refused by 8 behind done orders", |round| round.stopped(8)),
    ("refused by 16 behind done orders", |round| round.stopped(16)),
    ("refused by 18 behind done orders", |round| round.stopped(18)),
    ("refused by 19 behind done orders", |round| round.stopped(19)),
    ("refused by 7 behind done orders in a founded history", |round| round.stopped(7) && round.founded),
    ("refused by 19 behind done orders in a founded history", |round| round.stopped(19) && round.founded),
    ("refused by 18 for what its own orders counted", |round| round.by_own_counts && round.refusal == 18),
    ("refused by 19 for what its own orders counted", |round| round.by_own_counts && round.refusal == 19),
    ("with an order by row 0", |round| round.refused(2, |order| order.coordinator == 0)),
    ("with an order by row 255", |round| round.refused(2, |order| order.coordinator == 255)),
    ("with an order of length 0", |round| round.refused(4, |order| order.length == 0)),
    ("with an order of length 9", |round| round.refused(4, |order| order.length == 9)),
    ("with an order of length 255", |round| round.refused(4, |order| order.length == 255)),
    ("with an order at offset 65,535", |round| round.refused(4, |order| order.offset == 65_535)),
    ("with an order of file 0", |round| round.refused(16, |order| order.file == 0)),
    ("with an order of the file behind the last", |round| {
        round.refused(16, |order| Some(usize::from(order.file)) == round.files.map(|files| files + 1))
    }),
    ("with an order of file 9", |round| round.refused(16, |order| order.file == 9)),
    ("with an order of file 255", |round| round.refused(16, |order| order.file == 255)),
    ("with an order by club 0", |round| round.refused(18, |order| order.club == 0)),
    ("with an order by club 17", |round| round.refused(18, |order| order.club == 17)),
    ("with an order by club 255", |round| round.refused(18, |order| order.club == 255)),
    ("with an order of a wrong length by a row that is none", |round| {
        round.refused(2, |order| order.written().is_empty())
    }),
    ("with an order of a wrong length of a file that is none", |round| {
        round.refused(16, |order| order.written().is_empty())
    }),
    ("with an order of a wrong length by a club that is none", |round| {
        round.refused(4, |order| order.written().is_empty() && order.club == 17)
    }),
    ("with done orders of several files", |round| round.several[0]),
    ("with done orders by several clubs", |round| round.several[1]),
    ("with done orders by several rows", |round| round.several[2]),
    ("done by the wrapper", |round| round.wrapped && round.done > 0 && round.refusal == 0),
    ("refused by the wrapper behind done orders", |round| {
        round.wrapped && round.done > 0 && round.refused.is_some()
    }),
    ("of more than 64 orders by the wrapper", |round| round.wrapped && round.orders > 64 && round.done == 64),
];

/// How many files a table has that its files are asked of alone.
const GROUPS: [&str; 2] = ["of one", "of several"];

/// What a done write added to the window of a row.
#[derive(Clone, Copy, Debug, PartialEq, Eq)]
pub struct Added {
    pub length: usize,
    /// How many patches the window had before.
    pub patches: usize,
}

/// The kinds of sends, in founded histories and elsewhere.
const SENDS: [Known<Sent>; 7] = [
    ("by window, 1 behind", |sent| sent.by_window() && sent.behind == 1),
    ("by window, 15 behind", |sent| sent.by_window() && sent.behind == 15),
    ("by window, 16 behind", |sent| sent.by_window() && sent.behind == 16),
    ("whole, 17 behind a full window", |sent| sent.behind == 17 && sent.patches == 16),
    ("whole, from an emptied window", |sent| sent.patches == 0),
    ("by window, like a whole one", |sent| sent.by_window() && sent.like_whole),
    ("by window, unlike a whole one", |sent| !sent.like_whole),
];
/// In a founded history none is of this kind.
const UNLIKE: usize = 6;
const HISTORIES: [&str; 2] = ["on a table that no founding leads to", "in a founded history"];

/// The lengths of patches on either side of a record's limits, and the windows that they are added to.
const PATCHES: [usize; 4] = [1, 31, 32, 33];
const FILLS: [&str; 3] = ["an empty window", "a window with room", "a full window"];

fn fill(patches: usize) -> usize {
    match patches {
        0 => 0,
        RECORDS.. => 2,
        _ => 1,
    }
}

/// The answers that each kind of call can give, 0 for done, in the order of `Call::KINDS`.
const POSSIBLE: [&[u32]; KINDS] = [
    &[0, 11, 12, 20],
    &[0, 1, 2, 3, 4, 5, 6, 7, 16],
    &[0, 1, 2, 3, 4, 5, 6, 7, 8, 16, 18, 19],
    &[0, 1, 2, 3, 9, 10, 16],
    &[0, 1, 2, 3, 6, 7, 8],
    &[0, 1, 13, 14, 20],
    &[0, 5, 17],
    &[0, 1, 2, 4, 5],
    &[0, 1, 12, 15],
    &[0, 1, 2, 3, 4, 6, 7, 8, 16, 18, 19],
];

/// The kinds of calls that are not asked what the table holds: founding and chart.
const TABLELESS: [usize; 2] = [0, 6];

/// A move looks at every row: it has no twin.
const MOVE: usize = 8;

/// The kinds of calls that the scope's rules alone judge too: those it puts question 1 to, and a round, which stands for such calls.
const PUBLISHED: [usize; 5] = [1, 2, 3, 4, 9];

/// The kinds of calls that the grid of a list decides: read, write, check, choice.
const BY_GRID: [usize; 4] = [1, 2, 4, 7];

/// The kinds of calls that the rules of form 4 judge too: all but a chart.
const BY_FORM_4: [usize; 9] = [0, 1, 2, 3, 4, 5, 7, 8, 9];

/// The kinds of calls that say how many machines were called: read and write.
const CALLING: [usize; 2] = [1, 2];
/// The kinds of calls that are lent a list of one length: those, and a choice. Each of these refusals must come with each
/// of these lengths of the list, the right one among them; 5 comes with that one from a read only.
const LENT: [(usize, &[u32], &[usize], usize); 3] = [
    (1, &[1, 2, 3, 4, 5, 16], &[0, 1, 2], 1),
    (2, &[1, 2, 3, 4, 5, 16], &[0, 1, 2], 1),
    (7, &[1, 2, 4, 5], &[0, 7, 8, 9], 8),
];
/// The answers that both a call that stayed with its own choice and one that did not can give.
const EITHER: [u32; 4] = [0, 8, 18, 19];

/// The lists that can lie in two grids, by grid mark.
const MARKS: [&str; 4] = [
    "a five in the published grid",
    "a five in the new grid",
    "a tall list",
    "a list of several counties in a wide table",
];

/// The choices that can be told, by kind and by the grid mark of the own list, or none.
const CHOICES: [&str; 10] = [
    "read over a list in the published grid",
    "read over a list in the new grid",
    "read over a tall list",
    "read over a list of several counties in a wide table",
    "read over an empty list",
    "write over a list in the published grid",
    "write over a list in the new grid",
    "write over a tall list",
    "write over a list of several counties in a wide table",
    "write over an empty list",
];

/// The place in `CHOICES` of one over a list with this mark, or over an empty one.
pub fn choice_told(quorum: Quorum, mark: Option<u8>) -> usize {
    5 * usize::from(quorum == Quorum::Write) + mark.map_or(4, usize::from)
}

/// The kinds of tables that a call is made on.
#[derive(Clone, Copy, Debug, PartialEq, Eq)]
pub enum Ground {
    Malformed,
    /// Every row has a list, and all lie in the published grid.
    Published,
    /// Every row has a list of one county, and some lie in the new grid of five.
    Marked,
    /// Every row has a list, none of them tall, and some are of several counties.
    Several,
    /// Every row has a list of one county, and all are tall.
    Tall,
    /// Every row has a list, all are tall, and some are of several counties.
    TallSeveral,
    /// Some rows have a list, none of them tall, and some have none.
    Mixed,
    /// Some rows have a list, all of them tall, and some have none.
    TallMixed,
    /// No row has a list.
    Unlisted,
}

impl Ground {
    pub const ALL: [Ground; 9] = [
        Ground::Malformed,
        Ground::Published,
        Ground::Marked,
        Ground::Several,
        Ground::Tall,
        Ground::TallSeveral,
        Ground::Mixed,
        Ground::TallMixed,
        Ground::Unlisted,
    ];

    /// Judges a table, which is there if it is well formed.
    pub fn of(table: Option<&Picture>) -> Ground {
        let Some(table) = table else { return Ground::Malformed };
        let Some(shape) = table.shape() else { return Ground::Unlisted };
        let mut lists = table.rows.iter().map(|row| row.list);
        match (shape, table.unlisted()) {
            (Shape::Wide, 0) if lists.clone().all(|list| list.mark == 0) => Ground::Published,
            (Shape::Wide, 0) if lists.any(|list| list.mark == SEVERAL) => Ground::Several,
            (Shape::Wide, 0) => Ground::Marked,
            (Shape::Tall, 0) if lists.any(|list| table.several(list.members)) => Ground::TallSeveral,
            (Shape::Tall, 0) => Ground::Tall,
            (Shape::Wide, _) => Ground::Mixed,
            (Shape::Tall, _) => Ground::TallMixed,
        }
    }

    fn shown(self) -> &'static str {
        match self {
            Ground::Malformed => "malformed table",
            Ground::Published => "table whose rows all have a list in the published grid",
            Ground::Marked => "table whose rows all have a list, some in the new grid",
            Ground::Several => "table whose rows all have a list, some of several counties",
            Ground::Tall => "table whose rows all have a tall list",
            Ground::TallSeveral => "table whose rows all have a tall list, some of several counties",
            Ground::Mixed => "table with and without lists",
            Ground::TallMixed => "table with and without tall lists",
            Ground::Unlisted => "table without a list",
        }
    }
}

/// What happened at one call.
#[derive(Clone, Copy, Debug, PartialEq, Eq)]
pub struct Step {
    pub result: u64,
    pub ground: Ground,
    /// The used rows of the table, if the call was made again on a twin that differs from it.
    pub twin_of: Option<usize>,
    /// Was the call judged by the scope's rules alone too?
    pub published: bool,
    /// The mark of the list that judged the call, if its other grid would have judged otherwise.
    pub decided: Option<u8>,
    /// The length of the list for the number called, or for a choice, if one was lent.
    pub lent: Option<usize>,
    /// The number of machines called, if there was a byte for it.
    pub called: Option<u8>,
    /// Did the call stay with the own choice? None if that cannot be told.
    pub stayed: Option<bool>,
    /// The place in `CHOICES` of the choice that was told.
    pub chosen: Option<usize>,
    /// Did a relay make the call too?
    pub relayed: bool,
    /// How many sends would be done, if the table that the call left was looked at and is well formed.
    pub sends: Option<usize>,
    /// What a done send did, and what a done write added to a window.
    pub sent: Option<Sent>,
    pub added: Option<Added>,
    /// What a move was asked of a well-formed table.
    pub moved: Option<Moved>,
    /// How many files the table has, if it is well formed.
    pub files: Option<usize>,
    /// The same, if the call was made again with other parts of other files, or on one file alone.
    pub other_files: Option<usize>,
    pub alone: Option<usize>,
    /// What the files had to do with a check.
    pub checked: Option<Checked>,
    /// How many counties the table has, if it is well formed.
    pub counties: Option<usize>,
    /// What the counties had to do with a list that judged the call, or that a check laid.
    pub judged: Option<Judged>,
    /// Did a check take in a row of a county that the list before had no member of?
    pub newcomer: bool,
    /// Was the call judged by the rules of form 4 too, on a table of one county?
    pub former: bool,
    /// Did the call give the same with a row that did not answer in another county? None if it was not asked.
    pub moved_county: Option<bool>,
    /// Was the call made again with other lines of the sheet?
    pub other_sheet: bool,
    /// The writes done since the last changing check, if they were compared with the counts of one sheet.
    pub summed: Option<u64>,
    /// What a round was, and what it came to.
    pub round: Option<Round>,
}

/// What the counties had to do with a list that judged a call.
#[derive(Clone, Copy, Debug, PartialEq, Eq)]
pub enum Judged {
    /// It is of one county in a table of several.
    AtHome,
    /// It is of several, in a table of this shape, and would have judged otherwise if it were laid as these of `OTHERWISE`.
    Several(Shape, [bool; OTHERWISE.len()]),
}

impl Step {
    /// A call that gave this, and of which nothing else is known.
    pub fn of(result: u64, ground: Ground) -> Step {
        Step {
            result,
            ground,
            twin_of: None,
            published: false,
            decided: None,
            lent: None,
            called: None,
            stayed: None,
            chosen: None,
            relayed: false,
            sends: None,
            sent: None,
            added: None,
            moved: None,
            files: None,
            other_files: None,
            alone: None,
            checked: None,
            counties: None,
            judged: None,
            newcomer: false,
            former: false,
            moved_county: None,
            other_sheet: false,
            summed: None,
            round: None,
        }
    }
}

impl Default for Counts {
    fn default() -> Counts {
        Counts {
            answers: Default::default(),
            twins: [[0; 65]; KINDS],
            grounds: Default::default(),
            published: Default::default(),
            decided: Default::default(),
            lents: Default::default(),
            stayed: Default::default(),
            chosen: Default::default(),
            relayed: Default::default(),
            sent: Default::default(),
            added: Default::default(),
            damages: [[0; damage::RULES.len()]; Rules::ALL.len()],
            damaged_last: [0; damage::RULES.len()],
            files: Default::default(),
            named: Default::default(),
            absent: Default::default(),
            other_files: Default::default(),
            alone: Default::default(),
            checks: Default::default(),
            counties: Default::default(),
            no_counties: Default::default(),
            otherwise: Default::default(),
            at_home: Default::default(),
            newcomers: 0,
            former: Default::default(),
            moved_counties: Default::default(),
            moved: Default::default(),
            went_on: Default::default(),
            unpublished: Default::default(),
            shares: Default::default(),
            wrong_sheets: Default::default(),
            other_sheets: 0,
            summed: Default::default(),
            rounds: [0; ROUNDS.len()],
            left_over: [0; ORDER],
            ordered: 0,
            looked: 0,
            sends: 0,
        }
    }
}

impl Counts {
    pub fn add(&mut self, call: &Call, step: Step) {
        let answer = (step.result >> 32) as u32;
        *self.answers[call.kind()].entry(answer).or_default() += 1;
        if let Some(lent) = step.lent {
            *self.lents[call.kind()].entry((answer, lent)).or_default() += 1;
        }
        if let Some(stayed) = step.stayed {
            *self.stayed[call.kind()].entry((answer, stayed)).or_default() += 1;
        }
        self.relayed[call.kind()] += u64::from(step.relayed);
        if let Some(chosen) = step.chosen {
            self.chosen[chosen] += 1;
        }
        if let Some(sent) = step.sent {
            let counts = &mut self.sent[usize::from(sent.founded)];
            SENDS.iter().zip(counts).for_each(|((_, is_such), count)| *count += u64::from(is_such(sent)));
        }
        if let Some(added) = step.added {
            let lengths = PATCHES.iter().zip(&mut self.added).find(|(length, _)| **length == added.length);
            lengths.into_iter().for_each(|(_, fills)| fills[fill(added.patches)] += 1);
        }
        if let Some(Moved { from, form, over, marked, unlisted, went_on }) = step.moved {
            let ways =
                WAYS.iter().zip(&mut self.went_on).filter(|(way, _)| went_on && **way == (from.form(), form));
            ways.for_each(|(_, count)| *count += 1);
            let to = MOVE_FORMS.iter().position(|&such| such == form);
            let buffer = BUFFERS.iter().position(|&(_, such)| such == over);
            if let (Some(to), Some(buffer)) = (to, buffer) {
                self.moved[from as usize][to][buffer] += 1;
            }
            if form == 1 {
                let counts = &mut self.unpublished[from as usize];
                counts[0] += u64::from(marked && !unlisted);
                counts[1] += u64::from(unlisted && !marked);
            }
        }
        self.add_files(call, answer, &step);
        self.add_counties(call, answer, &step);
        self.add_sheet(call, answer, &step);
        if let Some(round) = step.round {
            let counts = ROUNDS.iter().zip(&mut self.rounds);
            counts.for_each(|((_, is_such), count)| *count += u64::from(is_such(round)));
            self.left_over[round.over] += 1;
            self.ordered += round.done as u64;
        }
        self.looked += u64::from(step.sends.is_some());
        self.sends += step.sends.unwrap_or(0) as u64;
        self.grounds[call.kind()][step.ground as usize] += 1;
        self.published[call.kind()] += u64::from(step.published && step.ground == Ground::Published);
        if let Some(mark) = step.decided {
            self.decided[call.kind()][usize::from(mark)] += 1;
        }
        if let Some(used) = step.twin_of {
            self.twins[call.kind()][used] += 1;
        }
    }

    /// What the files had to do with a call.
    fn add_files(&mut self, call: &Call, answer: u32, step: &Step) {
        let kind = call.kind();
        let place = |number: usize| number.checked_sub(1).filter(|&place| place < MAX_FILES);
        let files = if let Call::Found { files, .. } = call { Some(*files as usize) } else { step.files };
        if let (0, Some(files)) = (answer, files.and_then(place)) {
            self.files[kind][files] += 1;
        }
        if let (Some(file), Some(files)) = (call.file(), step.files) {
            if let (0, Some(file)) = (answer, place(file as usize)) {
                self.named[kind][file] += 1;
            }
            let absent = ABSENT.iter().zip(&mut self.absent[kind]).filter(|_| answer == 16);
            absent.for_each(|((_, is_such), count)| *count += u64::from(is_such((file, files))));
        }
        if let Some(files) = step.other_files.and_then(place) {
            self.other_files[kind][files] += 1;
        }
        if let Some(files) = step.alone {
            self.alone[kind][usize::from(files > 1)] += 1;
        }
        if let Some(checked) = step.checked {
            let counts = CHECKS.iter().zip(&mut self.checks);
            counts.for_each(|((_, is_such), count)| *count += u64::from(is_such(checked)));
        }
    }

    /// What the counties had to do with a call.
    fn add_counties(&mut self, call: &Call, answer: u32, step: &Step) {
        let kind = call.kind();
        let founded = call.counties().map(|counties| BTreeSet::from_iter(counties).len());
        if let (0, Some(place)) = (answer, founded.or(step.counties).and_then(|count| count.checked_sub(1))) {
            self.counties[kind][place] += 1;
        }
        for ((of, _, is_such), count) in NO_COUNTIES.iter().zip(&mut self.no_counties) {
            *count += u64::from(answer == 20 && *of == kind && is_such(call));
        }
        match step.judged {
            Some(Judged::AtHome) => self.at_home[kind] += 1,
            Some(Judged::Several(shape, otherwise)) => {
                let counts = &mut self.otherwise[kind][usize::from(shape == Shape::Tall)];
                counts.iter_mut().zip(otherwise).for_each(|(count, such)| *count += u64::from(such));
            }
            None => {}
        }
        self.newcomers += u64::from(step.newcomer);
        self.former[kind] += u64::from(step.former);
        if let Some(same) = step.moved_county {
            self.moved_counties[kind][usize::from(!same)] += 1;
        }
    }

    /// What its sheet had to do with a call.
    fn add_sheet(&mut self, call: &Call, answer: u32, step: &Step) {
        let Some(bytes) = call.sheet() else { return };
        if let (Call::Write { club, .. }, Some(sheet)) = (call, Sheet::judge(bytes)) {
            for ((_, of, is_such), count) in SHARES.iter().zip(&mut self.shares) {
                *count += u64::from(*of == answer && is_such(&sheet, *club));
            }
        }
        let place = SHEETED.iter().position(|&kind| kind == call.kind());
        if let (1, Some(place), Some(rule)) = (answer, place, sheets::only_broken(bytes)) {
            self.wrong_sheets[place][rule] += u64::from(step.ground != Ground::Malformed);
        }
        self.other_sheets += u64::from(step.other_sheet);
        if let Some(writes) = step.summed {
            self.summed[usize::from(writes > 0)] += 1;
        }
    }

    /// A case began with this table.
    pub fn add_damage(&mut self, damaged: &Damaged) {
        self.damages[damaged.table.rules as usize][damaged.rule] += 1;
        self.damaged_last[damaged.rule] += u64::from(damaged.in_last_file());
    }

    /// How often other parts of other files were tried, and how often each file alone.
    pub fn on_files(&self) -> [u64; 2] {
        [self.other_files.iter().flatten().sum(), self.alone.iter().flatten().sum()]
    }

    /// How many writes were made again with other lines of the sheet, and how often the counts of one sheet were summed.
    pub fn sheets(&self) -> [u64; 2] {
        [self.other_sheets, self.summed.iter().sum()]
    }

    /// How many rounds were compared with their writes, and how many of their orders were done.
    pub fn rounds(&self) -> [u64; 2] {
        [self.left_over.iter().sum(), self.ordered]
    }

    /// How often the rules of form 4 judged a call too.
    pub fn former(&self) -> u64 {
        self.former.iter().sum()
    }

    /// How often a call gave the same with a row that did not answer in another county, and how often it did not.
    pub fn moved_counties(&self) -> [u64; 2] {
        [0, 1].map(|other| self.moved_counties.iter().map(|counts| counts[other]).sum())
    }

    /// How many sends went by window and left what a whole one would have, and how many did not.
    pub fn sent_by_window(&self) -> [u64; 2] {
        [UNLIKE - 1, UNLIKE].map(|kind| self.sent.iter().map(|counts| counts[kind]).sum())
    }

    pub fn total(&self) -> u64 {
        self.answers.iter().flat_map(BTreeMap::values).sum()
    }

    /// How often a call was made again on a twin.
    pub fn twins(&self) -> u64 {
        self.twins.iter().flatten().sum()
    }

    /// How often the scope's rules alone judged a call too, on a well-formed table.
    pub fn published(&self) -> u64 {
        self.published.iter().sum()
    }

    /// How often a relay made a call too.
    pub fn relayed(&self) -> u64 {
        self.relayed.iter().sum()
    }

    /// How many tables were looked at through the wrapper, and how many sends would be done there.
    pub fn looked(&self) -> [u64; 2] {
        [self.looked, self.sends]
    }

    /// How often the grid of a list judged a call that its other grid would have judged otherwise.
    pub fn decided(&self) -> u64 {
        self.decided.iter().flatten().sum()
    }

    /// What never came: answers that a call can give, kinds of tables, twins of a call at each size, the scope's rules
    /// alone, and lists whose grid tells.
    pub fn missing(&self) -> Vec<String> {
        let mut missing = Vec::new();
        for (kind, name) in Call::KINDS.into_iter().enumerate() {
            let answers = POSSIBLE[kind].iter().filter(|answer| !self.answers[kind].contains_key(answer));
            missing.extend(answers.map(|answer| format!("{name} {answer}")));
            if TABLELESS.contains(&kind) {
                continue;
            }
            let grounds = Ground::ALL.into_iter().filter(|&ground| self.grounds[kind][ground as usize] == 0);
            missing.extend(grounds.map(|ground| format!("{name} on a {}", ground.shown())));
            let sizes = (1..=64).filter(|&used| self.twins[kind][used] == 0 && kind != MOVE);
            missing.extend(sizes.map(|used| format!("twin of a {name} with {used} rows")));
            if PUBLISHED.contains(&kind) && self.published[kind] == 0 {
                missing.push(format!("{name} by the scope's rules alone"));
            }
        }
        for kind in BY_GRID {
            let never = MARKS.into_iter().zip(self.decided[kind]).filter(|&(_, count)| count == 0);
            missing.extend(never.map(|(list, _)| format!("{} decided by {list}", Call::KINDS[kind])));
        }
        for (kind, answer, lent) in lent_lists() {
            if !self.lents[kind].contains_key(&(answer, lent)) {
                missing.push(format!("{} {answer} with a list of {lent} bytes", Call::KINDS[kind]));
            }
        }
        for (founded, counts) in self.sent.iter().enumerate() {
            let never = SENDS
                .iter()
                .zip(counts)
                .enumerate()
                .filter(|&(kind, (_, &count))| count == 0 && (kind, founded) != (UNLIKE, 1));
            missing.extend(never.map(|(_, ((send, _), _))| format!("send {send} {}", HISTORIES[founded])));
        }
        for (length, counts) in PATCHES.iter().zip(self.added) {
            let never = FILLS.iter().zip(counts).filter(|&(_, count)| count == 0);
            missing.extend(never.map(|(fill, _)| format!("write of {length} bytes into {fill}")));
        }
        for (form, rules) in (1..).zip(Rules::ALL) {
            let broken = damage::RULES.iter().zip(self.damages[rules as usize]);
            let unbroken = broken.filter(|&((_, needs, _), count)| count == 0 && needs.allow(rules));
            missing.extend(unbroken.map(|((rule, ..), _)| format!("table of form {form} with {rule}")));
            for (to, counts) in MOVE_FORMS.iter().zip(self.moved[rules as usize]) {
                let never = BUFFERS.iter().zip(counts).filter(|&(_, count)| count == 0);
                missing.extend(
                    never.map(|((buffer, _), _)| format!("move from form {form} to {to}, buffer {buffer}")),
                );
            }
            let never = UNPUBLISHED.iter().zip(self.unpublished[rules as usize]);
            let never = never.filter(|&(_, count)| count == 0 && rules != Rules::Published);
            missing.extend(never.map(|(ground, _)| format!("move from form {form} to 1 with {ground}")));
        }
        let never = WAYS.iter().zip(self.went_on).filter(|&(_, count)| count == 0);
        missing
            .extend(never.map(|((from, to), _)| format!("table that moved from form {from} to {to} and on")));
        self.missing_files(&mut missing);
        self.missing_counties(&mut missing);
        self.missing_sheets(&mut missing);
        self.missing_rounds(&mut missing);
        let untold = CHOICES.into_iter().zip(self.chosen).filter(|&(_, count)| count == 0);
        missing.extend(untold.map(|(choice, _)| format!("choice of a {choice}")));
        let not_relayed = Call::KINDS.into_iter().zip(self.relayed).filter(|&(_, count)| count == 0);
        missing.extend(not_relayed.map(|(name, _)| format!("{name} through a relay")));
        if self.relayed() < RELAYED {
            missing.push(format!("{RELAYED} calls through a relay"));
        }
        if self.sends < LISTED {
            missing.push(format!("{LISTED} sends listed by the wrapper"));
        }
        for kind in CALLING {
            let (name, possible) = (Call::KINDS[kind], POSSIBLE[kind]);
            for answer in EITHER.into_iter().filter(|answer| possible.contains(answer)) {
                let never =
                    [true, false].into_iter().filter(|&own| !self.stayed[kind].contains_key(&(answer, own)));
                let by = |own| if own { "by its own choice" } else { "by all" };
                missing.extend(never.map(|own| format!("{name} {answer} {}", by(own))));
            }
        }
        missing
    }

    /// What never came of files.
    fn missing_files(&self, missing: &mut Vec<String>) {
        let last = damage::RULES.iter().zip(self.damaged_last);
        let never = last.filter(|((_, needs, _), count)| *count == 0 && needs.of_a_file());
        missing
            .extend(never.map(|((rule, ..), _)| format!("table with {rule} in the last of several files")));
        let numbers = |counts: [u64; MAX_FILES]| (1..).zip(counts).filter(|&(_, count)| count == 0);
        for (kind, name) in ON_FILES.map(|kind| (kind, Call::KINDS[kind])) {
            let never = numbers(self.files[kind]);
            missing.extend(never.map(|(files, _)| format!("{name} on a group of {files}")));
        }
        for (kind, name) in NAMING.map(|kind| (kind, Call::KINDS[kind])) {
            let never = numbers(self.named[kind]);
            missing.extend(never.map(|(file, _)| format!("{name} of file {file}")));
            let never = ABSENT.iter().zip(self.absent[kind]).filter(|&(_, count)| count == 0);
            missing.extend(never.map(|((file, _), _)| format!("{name} of {file}")));
        }
        for (kind, name) in WITHIN.map(|kind| (kind, Call::KINDS[kind])) {
            let never = numbers(self.other_files[kind]).filter(|&(files, _)| files > 1);
            missing
                .extend(never.map(|(files, _)| format!("{name} among {files} files with other other files")));
        }
        for (kind, name) in ALONE.map(|kind| (kind, Call::KINDS[kind])) {
            let never = GROUPS.iter().zip(self.alone[kind]).filter(|&(_, count)| count == 0);
            missing.extend(never.map(|(files, _)| format!("{name} on a file {files} alone")));
        }
        let never = CHECKS.iter().zip(self.checks).filter(|&(_, count)| count == 0);
        missing.extend(never.map(|((check, _), _)| format!("check {check}")));
    }

    /// What never came of counties.
    fn missing_counties(&self, missing: &mut Vec<String>) {
        for (kind, name) in ON_FILES.map(|kind| (kind, Call::KINDS[kind])) {
            let never = (1..).zip(self.counties[kind]).filter(|&(_, count)| count == 0);
            missing.extend(never.map(|(counties, _)| format!("{name} on a table of {counties} counties")));
        }
        let never = NO_COUNTIES.iter().zip(self.no_counties).filter(|&(_, count)| count == 0);
        missing.extend(never.map(|((_, call, _), _)| format!("{call} refused by 20")));
        for (kind, name) in BY_GRID.map(|kind| (kind, Call::KINDS[kind])) {
            for (shape, counts) in SHAPES.iter().zip(self.otherwise[kind]) {
                let never = OTHERWISE.iter().zip(counts).filter(|&(_, count)| count == 0);
                missing.extend(never.map(|(laid, _)| format!("{name} on a {shape} table not laid {laid}")));
            }
            if self.at_home[kind] == 0 {
                missing.push(format!("{name} by a list of one county in a table of several"));
            }
            if self.moved_counties[kind][1] == 0 {
                missing.push(format!("{name} that another county of a row that did not answer alters"));
            }
        }
        if self.newcomers == 0 {
            missing.push("check that takes in a row of a new county".into());
        }
        let never = BY_FORM_4.into_iter().filter(|&kind| self.former[kind] == 0);
        missing.extend(never.map(|kind| format!("{} by the rules of form 4", Call::KINDS[kind])));
    }

    /// What never came of sheets.
    fn missing_sheets(&self, missing: &mut Vec<String>) {
        let never = SHARES.iter().zip(self.shares).filter(|&(_, count)| count == 0);
        missing.extend(never.map(|((share, answer, _), _)| format!("write {answer} {share}")));
        for (kind, counts) in SHEETED.iter().zip(self.wrong_sheets) {
            let never = sheets::RULES.iter().zip(counts).filter(|&(_, count)| count == 0);
            missing.extend(
                never.map(|((rule, _), _)| format!("{} with a sheet with {rule}", Call::KINDS[*kind])),
            );
        }
        if self.other_sheets == 0 {
            missing.push("write with other lines of the sheet".into());
        }
        if self.summed.contains(&0) {
            missing.push("counts of one sheet summed, 0 and more".into());
        }
    }

    /// What never came of rounds.
    fn missing_rounds(&self, missing: &mut Vec<String>) {
        let never = ROUNDS.iter().zip(self.rounds).filter(|&(_, count)| count == 0);
        missing.extend(never.map(|((round, _), _)| format!("round {round}")));
        let never = self.left_over.iter().enumerate().filter(|&(_, &count)| count == 0);
        missing.extend(never.map(|(over, _)| format!("round with {over} bytes left over")));
    }

    /// How often a read or write stayed with its own choice, and how often it did not, where that can be told.
    pub fn stayed(&self) -> [u64; 2] {
        [true, false].map(|own| {
            let counts = self.stayed.iter().flatten();
            counts.filter(|((_, stayed), _)| *stayed == own).map(|(_, count)| count).sum()
        })
    }

    /// Answers that came, and that the call cannot give.
    pub fn impossible(&self) -> Vec<String> {
        let mut impossible = Vec::new();
        for (kind, name) in Call::KINDS.into_iter().enumerate() {
            let came = self.answers[kind].keys().filter(|answer| !POSSIBLE[kind].contains(answer));
            impossible.extend(came.map(|answer| format!("{name} {answer}")));
        }
        impossible
    }
}

/// The kinds of calls, refusals and lengths of a lent list that must come together.
fn lent_lists() -> impl Iterator<Item = (usize, u32, usize)> {
    LENT.into_iter().flat_map(|(kind, answers, lengths, right)| {
        let pairs = answers.iter().flat_map(|&answer| lengths.iter().map(move |&lent| (answer, lent)));
        let by_the_list = move |&(answer, lent): &(u32, usize)| answer != 5 || lent != right || kind == 1;
        pairs.filter(by_the_list).map(move |(answer, lent)| (kind, answer, lent))
    })
}

impl fmt::Display for Counts {
    fn fmt(&self, f: &mut fmt::Formatter) -> fmt::Result {
        let refusals: BTreeSet<u32> =
            POSSIBLE.into_iter().flatten().copied().filter(|&answer| answer > 0).collect();
        write!(f, "{:7}{:>8}", "", "done")?;
        for refusal in &refusals {
            write!(f, "{refusal:>7}")?;
        }
        for (kind, counts) in Call::KINDS.into_iter().zip(&self.answers) {
            write!(f, "\n{kind:7}{:>8}", counts.get(&0).unwrap_or(&0))?;
            for refusal in &refusals {
                write!(f, "{:>7}", counts.get(refusal).map_or("-".into(), u64::to_string))?;
            }
        }
        Ok(())
    }
}

#[cfg(test)]
mod tests {
    use super::*;
    use crate::random::Random;
    use reference::sheet::Line;

    fn calls() -> [Call; KINDS] {
        [
            Call::Found {
                capacity: 1,
                file_len: 1,
                names: vec![1, 0],
                choice: 0,
                files: 1,
                counties: vec![1],
            },
            Call::Read {
                coordinator: 1,
                answering: 1,
                offset: 0,
                length: 1,
                buffer: vec![0],
                called: vec![0],
                file: 1,
            },
            Call::Write {
                coordinator: 1,
                answering: 1,
                offset: 0,
                patch: vec![0],
                called: vec![0],
                file: 1,
                sheet: Sheet::OPEN.bytes().to_vec(),
                club: 1,
            },
            Call::Send { from: 1, to: 2, answering: 3, file: 1 },
            Call::Check { coordinator: 1, answering: 1, sheet: Sheet::OPEN.bytes().to_vec() },
            Call::Join { name: 1, county: 1 },
            Call::Chart { length: 1, mark: 0, list: vec![0; 128] },
            Call::Choice { coordinator: 1, kind: 0, set: vec![0; 8] },
            Call::Move { form: 3, to: vec![0; 8], taken: false },
            Call::Round { answering: 1, orders: ONE.bytes().to_vec(), sheet: Sheet::OPEN.bytes().to_vec() },
        ]
    }

    /// An order for the first byte of the first file.
    const ONE: Order = Order { coordinator: 1, length: 1, offset: 0, patch: [0; 8], file: 1, club: 1 };

    /// A call that gave this answer, on a table whose rows all have a list in the published grid.
    fn step(answer: u32) -> Step {
        Step::of(u64::from(answer) << 32, Ground::Published)
    }

    /// Groups of each number of files, each file of them and those that they do not have, and checks of every kind.
    fn every_kind_of_group(counts: &mut Counts) {
        for mut call in ON_FILES.map(|kind| calls()[kind].clone()) {
            for number in 1..=MAX_FILES {
                if let Call::Found { files, .. } = &mut call {
                    *files = number as u64;
                }
                let other_files = call.file().map(|_| number);
                let alone = ALONE.contains(&call.kind()).then_some(number);
                let step = Step { files: Some(number), other_files, alone, ..step(0) };
                call.rename_files(|_| number as u64);
                counts.add(&call, step);
            }
            if call.file().is_some() {
                for file in [0, 8, 9, (1 << 32) + 1] {
                    call.rename_files(|_| file);
                    counts.add(&call, Step { files: Some(7), ..step(16) });
                }
            }
        }
        let never = [(1, 1), (2, 2), (2, 3)];
        let checks = never.map(|(only, files)| Checked::NotCurrent { only: Some(only), files });
        let missing_before = counts.missing().len();
        for checked in checks.into_iter().chain([
            Checked::NotCurrent { only: None, files: 2 },
            Checked::Done { marked: 0, files: 2 },
            Checked::Done { marked: 1, files: 1 },
            Checked::Done { marked: 2, files: 3 },
            Checked::Done { marked: 3, files: 3 },
        ]) {
            counts.add(&calls()[4], Step { checked: Some(checked), ..step(0) });
        }
        assert_eq!(counts.missing().len(), missing_before - 4);
        let first = "check refused by 7 because of the first file alone".to_string();
        assert!(counts.missing().contains(&first));
        let checked = Some(Checked::NotCurrent { only: Some(1), files: 2 });
        counts.add(&calls()[4], Step { checked, ..step(0) });
    }

    /// Tables of each number of counties, calls refused by 20, lists that would have judged otherwise, and other rules and counties.
    fn every_kind_of_county(counts: &mut Counts) {
        for mut call in ON_FILES.map(|kind| calls()[kind].clone()) {
            for number in 1..=MAX_COUNTIES {
                if let Call::Found { counties, .. } = &mut call {
                    *counties = (1..=number as u8).chain([1]).collect();
                }
                counts.add(&call, Step { counties: Some(number), ..step(0) });
            }
        }
        for (kind, answer) in [(0, 11), (0, 20), (5, 14), (5, 20)] {
            counts.add(&calls()[kind], step(answer));
        }
        let missing_before = counts.missing().len();
        for wrong in [&[][..], &[1, 1], &[0], &[9], &[255]] {
            let mut call = calls()[0].clone();
            if let Call::Found { counties, .. } = &mut call {
                *counties = wrong.to_vec();
            }
            counts.add(&call, step(11));
            counts.add(&call, step(20));
        }
        for county in [0, 9, 257, (1 << 32) + 1, u64::MAX] {
            counts.add(&Call::Join { name: 1, county }, step(14));
            counts.add(&Call::Join { name: 1, county }, step(20));
        }
        assert_eq!(counts.missing().len(), missing_before - NO_COUNTIES.len());
        for call in BY_GRID.map(|kind| calls()[kind].clone()) {
            for (shape, place) in [Shape::Wide, Shape::Tall]
                .into_iter()
                .flat_map(|shape| (0..4).map(move |place| (shape, place)))
            {
                let missing_before = counts.missing().len();
                let mut otherwise = [false; OTHERWISE.len()];
                otherwise[place] = true;
                counts.add(&call, Step { judged: Some(Judged::Several(shape, otherwise)), ..step(0) });
                assert_eq!(counts.missing().len(), missing_before - 1);
            }
            counts.add(&call, Step { judged: Some(Judged::AtHome), moved_county: Some(true), ..step(0) });
            let missing_before = counts.missing().len();
            counts.add(&call, Step { moved_county: Some(false), ..step(0) });
            assert_eq!(counts.missing().len(), missing_before - 1);
        }
        counts.add(&calls()[4], Step { newcomer: true, ..step(0) });
        BY_FORM_4.into_iter().for_each(|kind| counts.add(&calls()[kind], Step { former: true, ..step(0) }));
    }

    /// Writes with every share, and writes and checks with each rule of a sheet broken.
    fn every_kind_of_sheet(counts: &mut Counts) {
        for (kind, answer) in [(2, 18), (2, 19), (2, 1), (4, 1), (9, 1)] {
            counts.add(&calls()[kind], step(answer));
        }
        let mut lines = [Line::default(); 16];
        lines[0] = Line { assured: 2, ceiling: 4, count: 0 };
        let missing_before = counts.missing().len();
        for (number, left, by, answer) in [
            (1, 0, 1, 0),
            (2, 1, 1, 0),
            (3, 1, 1, 0),
            (4, 1, 1, 18),
            (4, 0, 1, 18),
            (0, 1, 0, 18),
            (0, 1, 17, 18),
            (0, 1, 257, 18),
            (0, 1, (1 << 32) + 1, 18),
            (2, 0, 1, 19),
        ] {
            lines[0].count = number;
            let lent = Sheet { lines, total: 2 + lines[0].beyond() + left };
            assert!(Sheet::judge(&lent.bytes()).is_some());
            let mut call = calls()[2].clone();
            call.lend(&lent.bytes());
            if let Call::Write { club, .. } = &mut call {
                *club = by;
            }
            counts.add(&call, step(answer));
        }
        assert_eq!(counts.missing().len(), missing_before - SHARES.len());
        let mut random = Random::new(15, 0);
        for broken in (0..400).map(|_| sheets::broken(&mut random)) {
            for mut call in SHEETED.map(|kind| calls()[kind].clone()) {
                call.lend(&broken);
                counts.add(&call, step(1));
            }
        }
        assert_eq!(counts.missing().len(), missing_before - SHARES.len() - 3 * sheets::RULES.len());
        counts.add(&calls()[2], Step { other_sheet: true, summed: Some(0), ..step(0) });
        counts.add(&calls()[2], Step { summed: Some(1), ..step(0) });
    }

    /// So many orders, the last of which may be another, and so many bytes left over; gave this on a table of two files.
    fn round(count: usize, other: Option<Order>, over: usize, refusal: u32, done: u32) -> Round {
        let mut orders = vec![ONE; count];
        if let (Some(last), Some(other)) = (orders.last_mut(), other) {
            *last = other;
        }
        let mut orders: Vec<u8> = orders.iter().flat_map(Order::bytes).collect();
        orders.resize(orders.len() + over, 0);
        let call = Call::Round { answering: 1, orders, sheet: Sheet::OPEN.bytes().to_vec() };
        Round::of(&call, u64::from(refusal) << 32 | u64::from(done), Some(2))
    }

    /// Each kind of round, and every number of bytes left over.
    fn every_kind_of_round(counts: &mut Counts) {
        let done = |count| round(count, None, 0, 0, count as u32);
        let broken = |count, refusal| round(count, None, 1, refusal, 0);
        let wrong = |other, refusal| round(2, Some(other), 0, refusal, 1);
        let by_table = |round| Round { files: None, ..round };
        let by_sheet = |round| Round { sheet_is_right: false, ..round };
        let in_history = |round| Round { founded: true, ..round };
        let by_counts = |refusal, by_own_counts| Round { by_own_counts, ..wrong(ONE, refusal) };
        let several = |several| Round { several, ..done(3) };
        let wrapped = |round| Round { wrapped: true, ..round };
        // Each is of one more kind that has not come yet than the one before.
        let no_length = Order { length: 0, ..ONE };
        let rounds = [
            done(0),
            Round { nobody_answers: true, ..done(0) },
            by_table(round(0, None, 0, 1, 0)),
            by_sheet(round(0, None, 0, 1, 0)),
            round(0, None, 0, 2, 0),
            broken(0, 4),
            broken(1, 4),
            broken(64, 4),
            broken(65, 4),
            by_table(broken(1, 1)),
            by_sheet(broken(1, 1)),
            broken(1, 2),
            done(1),
            done(2),
            done(63),
            done(64),
            round(65, None, 0, 4, 64),
            round(70, None, 0, 4, 64),
            round(66, None, 0, 6, 0),
            in_history(done(64)),
            wrong(ONE, 2),
            wrong(ONE, 3),
            wrong(ONE, 4),
            wrong(ONE, 6),
            wrong(ONE, 7),
            wrong(ONE, 8),
            wrong(ONE, 16),
            by_counts(18, false),
            by_counts(19, false),
            in_history(wrong(ONE, 7)),
            in_history(by_counts(19, false)),
            by_counts(18, true),
            by_counts(19, true),
            wrong(Order { coordinator: 0, ..ONE }, 2),
            wrong(Order { coordinator: 255, ..ONE }, 2),
            wrong(no_length, 4),
            wrong(Order { length: 9, ..ONE }, 4),
            wrong(Order { length: 255, ..ONE }, 4),
            wrong(Order { offset: 65_535, ..ONE }, 4),
            wrong(Order { file: 0, ..ONE }, 16),
            wrong(Order { file: 3, ..ONE }, 16),
            wrong(Order { file: 9, ..ONE }, 16),
            wrong(Order { file: 255, ..ONE }, 16),
            wrong(Order { club: 0, ..ONE }, 18),
            wrong(Order { club: 17, ..ONE }, 18),
            wrong(Order { club: 255, ..ONE }, 18),
            wrong(Order { coordinator: 7, ..no_length }, 2),
            wrong(Order { file: 7, ..no_length }, 16),
            wrong(Order { club: 17, ..no_length }, 4),
            several([true, false, false]),
            several([false, true, false]),
            several([false, false, true]),
            wrapped(done(1)),
            wrapped(wrong(ONE, 3)),
            wrapped(round(65, None, 0, 4, 64)),
        ];
        for over in 0..ORDER {
            counts.add(&calls()[9], Step { round: Some(round(3, None, over, 3, 0)), ..step(3) });
        }
        for made in rounds {
            let missing_before = counts.missing().len();
            counts.add(&calls()[9], Step { round: Some(made), ..step(made.refusal) });
            assert!(counts.missing().len() < missing_before, "{made:?}");
        }
        assert!(counts.rounds.iter().all(|&count| count > 0));
        let orders = rounds.iter().map(|round| round.done as u64).sum();
        assert_eq!(counts.rounds(), [ROUNDS.len() as u64 + 16, orders]);
    }

    /// What a round came to is read off the call and its answer.
    #[test]
    fn rounds_are_told_apart() {
        let last = Order { coordinator: 2, file: 2, club: 3, ..ONE };
        let refused = round(3, Some(last), 0, 19, 2);
        assert_eq!((refused.refused, refused.several, refused.by_own_counts), (Some(last), [false; 3], true));
        assert_eq!(round(3, Some(last), 0, 0, 3).several, [true; 3]);
        assert_eq!(round(3, None, 5, 4, 0).refused, None, "it ends inside an order");
        assert_eq!(round(65, None, 0, 4, 64).refused, None, "the 65th is no order");
        assert_eq!(
            (round(64, Some(last), 0, 7, 63).refused, round(1, None, 0, 1, 0).refused),
            (Some(last), Some(ONE))
        );
        let no_club = round(3, Some(Order { club: 17, ..ONE }), 0, 18, 2);
        assert!(!no_club.by_own_counts && !round(3, Some(last), 0, 7, 2).by_own_counts);
    }

    #[test]
    fn every_answer_table_and_size_must_come() {
        let mut counts = Counts::default();
        let answers: usize = POSSIBLE.iter().map(|answers| answers.len()).sum();
        let called = (6 * 3 + 2) + (6 * 3 - 1 + 8);
        let choices = (4 * 4 - 1) + CHOICES.len();
        let (relayed, listed) = (KINDS + 1, 1);
        let windows = (7 + 6) + 4 * 3;
        let rules_of = |rules: Rules| {
            (0..damage::RULES.len())
                .filter(move |&rule| damage::RULES[rule].1.allow(rules))
                .map(move |rule| (rules, rule))
        };
        let broken: Vec<(Rules, usize)> = Rules::ALL.into_iter().flat_map(rules_of).collect();
        let moves = 5 * 8 * 3 + 4 * 2 + 4;
        let last: Vec<usize> =
            (0..damage::RULES.len()).filter(|&rule| damage::RULES[rule].1.of_a_file()).collect();
        let files = last.len() + 8 * 8 + 3 * (8 + 4) + 4 * 7 + 7 * 2 + 5;
        let counties = 8 * MAX_COUNTIES + NO_COUNTIES.len() + 4 * (2 * 4 + 2) + 1 + 9;
        let of_tables = answers + 7 * 64 + 8 * Ground::ALL.len() + 5 + 16;
        let of_forms = broken.len() + moves;
        let sheets = SHARES.len() + 3 * sheets::RULES.len() + 2;
        let rounds = ROUNDS.len() + ORDER;
        assert_eq!(
            counts.missing().len(),
            of_tables
                + called
                + choices
                + relayed
                + listed
                + windows
                + of_forms
                + files
                + counties
                + sheets
                + rounds
        );
        broken.into_iter().for_each(|(rules, rule)| counts.damages[rules as usize][rule] += 1);
        last.into_iter().for_each(|rule| counts.damaged_last[rule] += 1);
        every_kind_of_group(&mut counts);
        every_kind_of_county(&mut counts);
        every_kind_of_sheet(&mut counts);
        every_kind_of_round(&mut counts);
        for from in Rules::ALL {
            for (form, (_, over)) in
                MOVE_FORMS.into_iter().flat_map(|form| BUFFERS.map(|buffer| (form, buffer)))
            {
                for (marked, unlisted) in [(true, false), (false, true)] {
                    let moved = Moved { from, form, over, marked, unlisted, went_on: true };
                    counts.add(&calls()[MOVE], Step { moved: Some(moved), ..step(0) });
                }
            }
        }
        for founded in [false, true] {
            for (behind, patches, like_whole) in [
                (1, 1, true),
                (15, 15, true),
                (16, 16, !founded),
                (16, 16, true),
                (17, 16, true),
                (3, 0, true),
            ] {
                let sent = Sent { founded, behind, patches, like_whole: like_whole == founded };
                counts.add(&calls()[3], Step { sent: Some(sent), ..step(0) });
                let sent = Sent { like_whole, ..sent };
                counts.add(&calls()[3], Step { sent: Some(sent), ..step(0) });
            }
        }
        for length in PATCHES {
            for patches in [0, 1, 16] {
                counts.add(&calls()[2], Step { added: Some(Added { length, patches }), ..step(0) });
            }
        }
        for sends in [Some(0), Some(LISTED as usize - 1), None, Some(1)] {
            assert!(counts.missing().contains(&format!("{LISTED} sends listed by the wrapper")));
            counts.add(&calls()[1], Step { sends, ..step(0) });
        }
        assert_eq!(counts.looked(), [3, LISTED]);
        for _ in 0..RELAYED - KINDS as u64 {
            counts.add(&calls()[1], Step { relayed: true, ..step(0) });
        }
        for (kind, name) in Call::KINDS.into_iter().enumerate() {
            let missing = counts.missing();
            assert_eq!(missing.contains(&format!("{name} through a relay")), kind != 1);
            assert!(missing.contains(&format!("{RELAYED} calls through a relay")));
            counts.add(&calls()[kind], Step { relayed: true, ..step(0) });
        }
        for (kind, answer, lent) in lent_lists() {
            counts.add(&calls()[kind], Step { lent: Some(lent), ..step(answer) });
        }
        for (quorum, mark) in [Quorum::Read, Quorum::Write]
            .into_iter()
            .flat_map(|quorum| [Some(0), Some(1), Some(2), Some(3), None].map(|mark| (quorum, mark)))
        {
            counts.add(&calls()[7], Step { chosen: Some(choice_told(quorum, mark)), ..step(0) });
        }
        for kind in CALLING {
            for (answer, own) in EITHER.into_iter().flat_map(|answer| [(answer, true), (answer, false)]) {
                if POSSIBLE[kind].contains(&answer) {
                    counts.add(&calls()[kind], Step { stayed: Some(own), ..step(answer) });
                }
            }
        }
        assert_eq!(counts.stayed(), [5, 5]);
        for (call, possible) in calls().iter().zip(POSSIBLE) {
            for &answer in possible {
                counts.add(call, step(answer));
            }
            for used in (1..=64).filter(|_| !TABLELESS.contains(&call.kind())) {
                counts.add(call, Step { twin_of: Some(used), ..step(0) });
            }
            for ground in Ground::ALL {
                counts.add(call, Step { ground, ..step(0) });
            }
        }
        // On malformed tables the scope's rules alone do not count.
        for call in calls() {
            counts.add(&call, Step { ground: Ground::Malformed, published: true, ..step(1) });
        }
        let rules = ["read", "write", "send", "check", "round"]
            .map(|name| format!("{name} by the scope's rules alone"));
        let decided = ["read", "write", "check", "choice"]
            .map(|name| MARKS.map(|list| format!("{name} decided by {list}")));
        assert_eq!(counts.missing(), [&rules, decided.as_flattened()].concat());
        for kind in PUBLISHED {
            counts.add(&calls()[kind], Step { published: true, ..step(0) });
        }
        assert_eq!((counts.missing(), counts.published()), (decided.as_flattened().to_vec(), 5));
        for kind in BY_GRID {
            for mark in [0, 1, 2, 3] {
                counts.add(&calls()[kind], Step { decided: Some(mark), ..step(0) });
            }
        }
        assert_eq!((counts.missing(), counts.decided()), (vec![], 16));
        assert_eq!(counts.impossible(), ["found 1", "chart 1"]);
    }

    #[test]
    fn no_other_answer_may_come() {
        let mut counts = Counts::default();
        for (call, answer) in calls().iter().zip([13, 14, 15, 8, u32::MAX, 12, 6, 3, 2, 5]) {
            counts.add(call, step(answer));
        }
        let others = [
            "found 13",
            "read 14",
            "write 15",
            "send 8",
            "check 4294967295",
            "join 12",
            "chart 6",
            "choice 3",
            "move 2",
            "round 5",
        ];
        assert_eq!(counts.impossible(), others);
    }

    #[test]
    fn every_refusal_has_a_column() {
        let shown = Counts::default().to_string();
        let heads: Vec<&str> = shown.lines().next().expect("a line of heads").split_whitespace().collect();
        assert_eq!(heads.join(" "), "done 1 2 3 4 5 6 7 8 9 10 11 12 13 14 15 16 17 18 19 20");
        assert_eq!(shown.lines().count(), 1 + KINDS);
    }
}
