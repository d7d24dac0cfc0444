//! Which tables are tried, and which calls are made on them.

use crate::call::Call;
use crate::damage::{self, Damaged};
use crate::ledger::Ledger;
use crate::random::Random;
use crate::rounds;
use crate::sheets;
use crate::tables::{self, Picture, Size};
use reference::round::{Order, ORDER};
use reference::window::LONGEST_PATCH;
use reference::{
    rows, Engine, Layout, Part, Quorum, Rules, Sheet, Table, MAX_COUNTIES, MAX_FILE, MAX_FILES, MAX_ROWS,
};
use std::collections::VecDeque;

/// What every chart is asked for: the lengths of lists of members, some beyond nine; grid marks; bytes of the list to fill.
const CHART_LENGTHS: [u64; 13] = [0, 1, 2, 3, 4, 5, 6, 7, 8, 9, 10, 1 << 32, (1 << 32) + 5];
const CHART_MARKS: [u64; 7] = [0, 1, 2, 3, 4, 257, 1 << 32];
const CHART_LISTS: [usize; 5] = [0, 127, 128, 129, 200];

/// What every choice is asked for besides the coordinators from 0 to one beyond the used rows: coordinators further beyond; kinds,
/// two of which there are; bytes of the list for the set.
const NO_COORDINATORS: [u64; 6] = [64, 65, 257, (1 << 32) + 1, 1 << 63, u64::MAX];
const CHOICE_KINDS: [u64; 7] = [0, 1, 2, 256, 257, 1 << 32, (1 << 32) + 1];
const CHOICE_LISTS: [usize; 4] = [0, 7, 8, 9];

/// What every move is asked for: every form that there is or that a request names, and others.
pub const MOVE_FORMS: [u64; 8] = [0, 1, 2, 3, 4, 5, 6, (1 << 32) + 3];
/// The first bytes of the tables that every move is asked of.
pub const MOVED_FORMS: [u8; 7] = [0, 1, 2, 3, 4, 5, 6];

/// What a case tries: a table to start from, and how its calls are picked.
pub struct Plan {
    start: Vec<u8>,
    /// The book of the history that led to the start, if one did.
    ledger: Ledger,
    calls: usize,
    /// Made first, in this order.
    opening: VecDeque<Call>,
    /// Every call is a founding of about this size.
    foundings: Option<Size>,
    /// The table as last seen well formed: other calls are fitted to it.
    known: Option<Picture>,
    /// Rows whose machines are up.
    up: u64,
    /// A row that falls behind before any other calls are made.
    straggler: Option<Straggler>,
    /// Every call is a move.
    moves: bool,
    /// The table as it was damaged.
    pub damage: Option<Damaged>,
    /// The sheet that writes, checks and rounds are lent, as the last of them left it; none if each has one of its own.
    sheet: Option<Vec<u8>>,
}

/// A row that misses some writes of a file, is marked by a check and then gets a send.
struct Straggler {
    file: usize,
    /// How many writes are left to be made before.
    writes: usize,
    /// The row, once it stays away.
    row: Option<usize>,
    /// How many writes are left that it misses; the one with a long patch, if there is one; are they entered in one round?
    missed: usize,
    long: Option<usize>,
    together: bool,
    marked: bool,
}

impl Straggler {
    fn pick(random: &mut Random, files: usize) -> Straggler {
        let missed = random.pick(&[1, 15, 16, 17]);
        let long = random.chance(1, 4).then(|| random.between(1, missed));
        let file = random.between(1, files);
        let together = long.is_none() && random.chance(1, 3);
        let writes = random.pick(&[0, 1, 17]);
        Straggler { file, writes, row: None, missed, long, together, marked: false }
    }

    /// The next call; the send is the last one.
    fn next(&mut self, random: &mut Random, table: &Picture) -> (Call, bool) {
        let all = table.all_used();
        let file = self.file;
        let newest = (1..=table.used).max_by_key(|&row| table.part(row, file).version).expect("a row");
        let Some(row) = self.row.or_else(|| (self.writes == 0).then_some(newest)) else {
            self.writes -= 1;
            return (short_write(random, table, file, all, false), false);
        };
        let others = all & !rows::only(row);
        let check = |random: &mut Random, answering| checking(random.row(others), answering);
        if self.row.is_none() {
            self.row = Some(row);
            return (check(random, others), false);
        }
        if self.missed > 0 && self.together {
            let count = std::mem::take(&mut self.missed);
            return (round_of_file(random, table, others, count, file), false);
        }
        if self.missed > 0 {
            let long = self.long == Some(self.missed);
            self.missed -= 1;
            return (short_write(random, table, file, others, long), false);
        }
        if !self.marked {
            self.marked = true;
            return (check(random, all), false);
        }
        let answering = rows::only(newest) | rows::only(row);
        (Call::Send { from: newest as u64, to: row as u64, answering, file: file as u64 }, true)
    }
}

/// A write that these rows answer, of 1 to 32 bytes, or a long one.
fn short_write(random: &mut Random, table: &Picture, file: usize, answering: u64, long: bool) -> Call {
    let any = random.between(1, LONGEST_PATCH);
    let length = if long { LONGEST_PATCH + 1 } else { random.pick(&[1, 31, 32, any]) };
    let offset = random.between(0, table.file_len - length) as u64;
    let (coordinator, patch) = (random.row(answering), random.bytes(length));
    writing(random, coordinator, answering, offset, patch, vec![0xee], file as u64)
}

/// So many orders by these rows, one of which may be another.
fn rounds_of(
    random: &mut Random,
    table: &Picture,
    coordinators: u64,
    count: usize,
    other: Option<(usize, Order)>,
) -> Vec<u8> {
    let mut orders: Vec<Order> = (0..count).map(|_| rounds::order(random, table, coordinators)).collect();
    if let Some((place, other)) = other {
        orders[place] = other;
    }
    rounds::list(random, &orders)
}

/// So many orders of one file, by rows that all answer.
fn round_of_file(random: &mut Random, table: &Picture, answering: u64, count: usize, file: usize) -> Call {
    let mut call = Call::Round {
        answering,
        orders: rounds_of(random, table, answering, count, None),
        sheet: Vec::new(),
    };
    call.rename_files(|_| file as u64);
    call
}

/// A check; it is lent its sheet later.
fn checking(coordinator: usize, answering: u64) -> Call {
    Call::Check { coordinator: coordinator as u64, answering, sheet: Vec::new() }
}

/// A write by a club, mostly one of a few; it is lent its sheet later.
fn writing(
    random: &mut Random,
    coordinator: usize,
    answering: u64,
    offset: u64,
    patch: Vec<u8>,
    called: Vec<u8>,
    file: u64,
) -> Call {
    let any = random.between(1, 16) as u64;
    let club = random.pick(&[1, 1, 2, 16, any]);
    let (coordinator, sheet) = (coordinator as u64, Vec::new());
    Call::Write { coordinator, answering, offset, patch, called, file, sheet, club }
}

impl Plan {
    pub fn pick(random: &mut Random) -> Plan {
        match random.between(0, 99) {
            0..=9 => Plan::founded(random),
            10..=11 => Plan::falling_behind(random),
            12..=13 => Plan::from_the_scope(random),
            14 => Plan::blocked(random),
            15 => Plan::joined_by_a_county(random),
            16..=55 => Plan::unfounded(random),
            56..=59 => Plan::older(random),
            60..=84 => Plan::damaged(random),
            _ => Plan::foundings(random),
        }
    }

    /// A history after one founding on bytes that hold anything.
    pub fn founded(random: &mut Random) -> Plan {
        let size = Size::pick(random);
        let (choice, counties) = (choice(random), tables::counties(random, size.used));
        let mut plan = Plan::founded_as(random, size, choice, counties);
        // Tight in half of the histories; few lend each call another.
        if random.chance(1, 2) {
            plan.sheet = Some(sheets::right(random, false).bytes().to_vec());
        } else if random.chance(1, 5) {
            plan.sheet = None;
        }
        plan
    }

    fn founded_as(random: &mut Random, size: Size, choice: u64, counties: Vec<u8>) -> Plan {
        let length = Table::length(size.capacity, size.file_len, size.files);
        let start = if random.chance(1, 2) { vec![0; length] } else { random.bytes(length) };
        let opening = founding(random, size, choice, counties);
        let sheet = Some(Sheet::OPEN.bytes().to_vec());
        let up = random.subset(rows::first(size.used), 4, 5);
        Plan {
            start,
            ledger: Ledger::default(),
            calls: random.between(10, 100),
            opening: vec![opening].into(),
            foundings: None,
            known: None,
            up,
            straggler: None,
            moves: false,
            damage: None,
            sheet,
        }
    }

    /// A founded history that begins with a row that falls behind.
    pub fn falling_behind(random: &mut Random) -> Plan {
        // Four machines and more of one county bear the loss of one.
        let used = random.between(4, 9);
        let (capacity, file_len) = (random.between(used, 10), random.pick(&[33, 40, 64]));
        let size = Size { used, capacity, file_len, files: random.pick(&[1, 2, 3, 8]) };
        let (choice, counties) = (choice(random), tables::one_county(random, used));
        let mut plan = Plan::founded_as(random, size, choice, counties);
        let straggler = Straggler::pick(random, size.files);
        plan.calls = straggler.writes + straggler.missed + 4 + random.between(0, 20);
        plan.straggler = Some(straggler);
        plan
    }

    /// A founded history on four machines of one county in which one file keeps the last two from being checked, until it is sent. Row 4 misses
    /// the first write of the file and row 3 the second; then rows 2 and 1 go away.
    pub fn blocked(random: &mut Random) -> Plan {
        let size = Size { used: 4, capacity: random.between(4, 6), ..Size::pick(random) };
        let (choice, counties) = (choice(random), tables::one_county(random, 4));
        let mut plan = Plan::founded_as(random, size, choice, counties);
        let file = random.between(1, size.files) as u64;
        let set = |rows: &[usize]| rows.iter().fold(0, |set, &row| set | rows::only(row));
        let write = |random: &mut Random, answering| {
            let patch = random.bytes(1);
            writing(random, 1, answering, 0, patch, vec![0xee], file)
        };
        let (last, all) = (set(&[3, 4]), set(&[1, 3, 4]));
        let [first, second] = [set(&[1, 2, 3]), set(&[1, 2, 4])].map(|set| write(random, set));
        let send = Call::Send { from: 1, to: 3, answering: all, file };
        plan.opening.extend([first, second, checking(1, all), checking(3, last), send, checking(3, last)]);
        plan.calls += plan.opening.len();
        plan
    }

    /// A founded history of one county into which machines of another one join, until a check takes them in.
    pub fn joined_by_a_county(random: &mut Random) -> Plan {
        let (used, joining) = (random.between(1, 6), random.between(1, 6));
        let size = Size { used, capacity: used + joining + random.between(0, 2), ..Size::pick(random) };
        let (choice, counties) = (choice(random), tables::one_county(random, used));
        let other = u64::from(counties[0]) % MAX_COUNTIES as u64 + 1;
        let mut plan = Plan::founded_as(random, size, choice, counties);
        let Some(Call::Found { names, .. }) = plan.opening.front() else { unreachable!("it is founded") };
        let free = tables::names_beside(random, names, joining);
        plan.opening.extend(free.into_iter().map(|name| Call::Join { name, county: other }));
        let answering = rows::first(used + joining);
        plan.opening.push_back(checking(random.row(answering), answering));
        plan.up = answering;
        plan.calls += plan.opening.len();
        plan
    }

    /// A history that began before there were requests, by the scope's rules alone, and goes on in the newest form: its lists, some of
    /// five among them, lie in the published grid.
    pub fn from_the_scope(random: &mut Random) -> Plan {
        let size = Size { used: random.pick(&[5, 5, 5, 6, 7, 9]), files: 1, ..Size::pick(random) };
        let size = Size { capacity: size.capacity.max(size.used), ..size };
        let counties = tables::counties(random, size.used);
        let mut plan = Plan::founded_as(random, size, 0, counties);
        let engine = Engine { rules: Rules::Published, ..Engine::default() };
        plan.start = random.bytes(engine.rules.table_length(size.capacity, size.file_len, 1));
        plan.ledger = Ledger::published();
        for _ in 0..random.between(1, 12) {
            let mut table = plan.table();
            let call = plan.next(random, &table);
            let of_a_request = matches!(
                call,
                Call::Join { .. }
                    | Call::Chart { .. }
                    | Call::Choice { .. }
                    | Call::Move { .. }
                    | Call::Round { .. }
                    | Call::Found { choice: 1.., .. }
                    | Call::Found { files: 0 | 2.., .. }
            );
            if !of_a_request && call.file().is_none_or(|file| file == 1) {
                let answer = call.refer(engine, &mut table);
                plan.ledger
                    .hear(&call, &answer)
                    .expect("reference and book agree by the scope's rules alone");
                plan.left(&call, &answer.sheet);
                plan.start = table;
            }
        }
        plan.start = tables::alone(&plan.start, 1, Rules::Newest);
        plan.ledger.go_on_with_requests();
        plan
    }

    /// A few calls on a well-formed table that no founding leads to.
    fn unfounded(random: &mut Random) -> Plan {
        let size = Size::pick(random);
        let start = tables::well_formed(random, size);
        let known = Picture::of(&start);
        let up = random.subset(rows::first(size.used), 4, 5);
        Plan {
            start,
            ledger: Ledger::default(),
            calls: random.between(1, 9),
            opening: VecDeque::new(),
            foundings: None,
            known,
            up,
            straggler: None,
            moves: false,
            damage: None,
            sheet: None,
        }
    }

    /// A few calls on a well-formed table of an older form, half of them only moves.
    fn older(random: &mut Random) -> Plan {
        let rules = random.pick(&[Rules::Published, Rules::Windowless, Rules::OneFile, Rules::OneCounty]);
        let size = Size::pick(random);
        let start = tables::well_formed_by(random, size, rules);
        let known = Picture::of_any_form(&start);
        Plan {
            start,
            ledger: Ledger::default(),
            calls: random.between(1, 6),
            opening: VecDeque::new(),
            foundings: None,
            known,
            up: rows::first(size.used),
            straggler: None,
            moves: random.chance(1, 2),
            damage: None,
            sheet: None,
        }
    }

    /// A few calls on a table with one rule broken; moves only on one of an older form, where other calls ask no more.
    fn damaged(random: &mut Random) -> Plan {
        let any = random.pick(&Rules::ALL);
        let rules = random.pick(&[Rules::Newest, any]);
        let damaged = damage::damaged(random, rules);
        let up = damaged.table.all_used();
        Plan {
            start: damaged.bytes.clone(),
            ledger: Ledger::default(),
            calls: random.between(2, 6),
            opening: VecDeque::new(),
            foundings: None,
            known: Some(damaged.table.clone()),
            up,
            straggler: None,
            moves: rules != Rules::Newest,
            damage: Some(damaged),
            sheet: None,
        }
    }

    /// Foundings, most with something wrong.
    fn foundings(random: &mut Random) -> Plan {
        let size = Size::pick(random);
        let Size { capacity, file_len, files, .. } = size;
        let length = Table::length(capacity, file_len, files);
        let [wider, none, more, nine] = [
            Table::length(capacity + 1, file_len, files),
            Table::length(capacity, file_len, 0),
            Table::length(capacity, file_len, files + 1),
            Table::length(capacity, file_len, MAX_FILES + 1),
        ];
        let older = Rules::OneFile.table_length(capacity, file_len, 1);
        let wrong = random.pick(&[
            0,
            1,
            15,
            16,
            17,
            length - 1,
            length + 1,
            older,
            wider,
            none,
            none,
            more,
            nine,
            nine,
        ]);
        let length = if random.chance(1, 3) { wrong } else { length };
        let (choice, counties) = (choice(random), tables::counties(random, size.used));
        let opening = founding(random, size, choice, counties);
        let start = random.bytes(length);
        Plan {
            start,
            ledger: Ledger::default(),
            calls: random.between(2, 6),
            opening: vec![opening].into(),
            foundings: Some(size),
            known: None,
            up: 0,
            straggler: None,
            moves: false,
            damage: None,
            sheet: None,
        }
    }

    /// Every chart, and every way to be refused one: a length, a mark and a list of bytes at or beyond its limit.
    pub fn charts(random: &mut Random) -> Plan {
        let mut calls = Vec::new();
        for length in CHART_LENGTHS {
            for mark in CHART_MARKS {
                calls.extend(CHART_LISTS.map(|bytes| Call::Chart {
                    length,
                    mark,
                    list: random.bytes(bytes),
                }));
            }
        }
        Plan::of(Vec::new(), calls)
    }

    /// Every choice on a well-formed table of a few rows, and every way to be refused one.
    pub fn choices(random: &mut Random) -> Plan {
        let used = random.between(5, 9);
        let (capacity, file_len) = (random.between(used, 11), random.between(1, 6));
        let size = Size { used, capacity, file_len, files: random.between(1, 3) };
        let start = tables::well_formed(random, size);
        let beyond = NO_COORDINATORS.into_iter().filter(|&row| row > used as u64);
        let mut calls = Vec::new();
        for coordinator in (0..=used as u64 + 1).chain(beyond) {
            for kind in CHOICE_KINDS {
                calls.extend(CHOICE_LISTS.map(|bytes| Call::Choice {
                    coordinator,
                    kind,
                    set: random.bytes(bytes),
                }));
            }
        }
        Plan::of(start, calls)
    }

    /// Every move from a table with this first byte, and every way to be refused one: into buffers of the length that the form asks
    /// for, of a byte less and more, and of none. Forms that there are not have the newest one's rows and lengths. The
    /// lists are published, or any.
    pub fn moves(random: &mut Random, form: u8, published: bool) -> Plan {
        let used = random.between(2, 9);
        let (capacity, file_len) = (random.between(used, 11), random.between(1, 40));
        let rules = Rules::of_form(form).unwrap_or_default();
        let files = random.between(1, rules.most_files());
        let size = Size { used, capacity, file_len, files };
        // By the scope alone every table is published; it is given the lists of others.
        let made = if rules == Rules::Published { Rules::Windowless } else { rules };
        let mut start =
            if published { tables::published(random, size, made) } else { unpublished(random, size, made) };
        start[0] = form;
        let mut calls = Vec::new();
        for to in MOVE_FORMS {
            let right = length_in(to, size);
            calls.extend([0, right - 1, right, right + 1].map(|length| Call::Move {
                form: to,
                to: random.bytes(length),
                taken: false,
            }));
        }
        Plan::of(start, calls)
    }

    /// On a founded table of a few machines, rounds of every number of orders that must come with every number of bytes left over, and
    /// rounds with an order at or beyond each limit as the first, the second and the last.
    pub fn rounds(random: &mut Random) -> Plan {
        let used = random.between(1, 9);
        let (capacity, file_len) = (random.between(used, 11), random.between(8, 40));
        let size = Size { used, capacity, file_len, files: random.between(1, 3) };
        let (choice, counties) = (choice(random), tables::counties(random, used));
        let mut plan = Plan::founded_as(random, size, choice, counties);
        let mut founded = vec![0; plan.start.len()];
        plan.opening[0].refer(Engine::default(), &mut founded);
        let table = Picture::of(&founded).expect("founded");
        let answering = table.all_used();
        let mut calls = Vec::new();
        for count in rounds::COUNTS {
            for over in 0..ORDER {
                let mut orders = rounds_of(random, &table, answering, count, None);
                orders.extend(random.bytes(over));
                calls.push(Call::Round { answering, orders, sheet: Vec::new() });
            }
        }
        for place in [0, 1, 3] {
            let some = rounds::order(random, &table, answering);
            for wrong in rounds::wrong(some, &table) {
                let orders = rounds_of(random, &table, answering, 4, Some((place, wrong)));
                calls.push(Call::Round { answering, orders, sheet: Vec::new() });
            }
        }
        plan.opening.extend(calls);
        plan.calls = plan.opening.len();
        plan
    }

    /// These calls, and no others.
    fn of(start: Vec<u8>, calls: Vec<Call>) -> Plan {
        Plan {
            start,
            ledger: Ledger::default(),
            calls: calls.len(),
            opening: calls.into(),
            foundings: None,
            known: None,
            up: 0,
            straggler: None,
            moves: false,
            damage: None,
            sheet: None,
        }
    }

    pub fn table(&self) -> Vec<u8> {
        self.start.clone()
    }

    /// The book as it stands at the start.
    pub fn ledger(&self) -> Ledger {
        self.ledger.clone()
    }

    pub fn calls(&self) -> usize {
        self.calls
    }

    /// The next call on a table that now holds these bytes.
    pub fn next(&mut self, random: &mut Random, bytes: &[u8]) -> Call {
        let mut call = self.pick_next(random, bytes);
        self.lend(random, &mut call);
        call
    }

    /// What a call left of its sheet.
    pub fn left(&mut self, call: &Call, sheet: &[u8]) {
        if self.sheet.is_some() && self.sheet.as_deref() == call.sheet() {
            self.sheet = Some(sheet.to_vec());
        }
    }

    /// Lends a write, a check or a round its sheet: that of the history, or one of its own, or now and then none that is right.
    fn lend(&self, random: &mut Random, call: &mut Call) {
        if call.sheet().is_none() {
            return;
        }
        let (wrong, other) = if self.sheet.is_some() { (80, 80) } else { (12, 1) };
        if random.chance(1, wrong) {
            call.lend(&sheets::broken(random));
            return;
        }
        match &self.sheet {
            Some(sheet) if !random.chance(1, other) => call.lend(sheet),
            // Most sheets are spent before a long round is done.
            _ if matches!(call, Call::Round { .. }) && random.chance(1, 3) => {
                call.lend(&Sheet::OPEN.bytes());
            }
            _ => call.lend(&sheets::right(random, true).bytes()),
        }
    }

    fn pick_next(&mut self, random: &mut Random, bytes: &[u8]) -> Call {
        if let Some(call) = self.opening.pop_front() {
            return call;
        }
        if let Some(size) = self.foundings {
            return bad_founding(random, size);
        }
        let used_before = self.known.as_ref().map(|table| table.all_used());
        self.known = Picture::of_any_form(bytes).or(self.known.take());
        let table = self.known.as_ref().expect("founded by now, or known from the start");
        if self.moves {
            let taken = random.chance(1, 2);
            return moving(random, table, taken);
        }
        if let Some(straggler) = &mut self.straggler {
            let (call, last) = straggler.next(random, table);
            if last {
                self.straggler = None;
            }
            return call;
        }
        // Who joined is mostly up.
        self.up |= random.subset(table.all_used() & !used_before.unwrap_or(u64::MAX), 3, 4);
        if random.chance(1, 8) {
            self.up ^= rows::only(random.between(1, table.used));
        }
        // A founding in mid-history may leave fewer rows; someone is always up.
        self.up = Some(self.up & table.all_used()).filter(|&up| up != 0).unwrap_or(1);
        let mut call = fitting(random, table, self.up);
        while random.chance(1, 5) {
            spoil(random, &mut call, table);
        }
        call
    }
}

/// Wide, or in a third of the tables tall.
fn choice(random: &mut Random) -> u64 {
    random.pick(&[0, 0, 1])
}

fn founding(random: &mut Random, size: Size, choice: u64, counties: Vec<u8>) -> Call {
    let names = tables::names(random, size.used);
    Call::Found {
        capacity: size.capacity as u64,
        file_len: size.file_len as u64,
        names: tables::names_in_bytes(&names),
        choice,
        files: size.files as u64,
        counties,
    }
}

/// Counties that are none, or too few or too many of them.
fn spoil_counties(random: &mut Random, counties: &mut Vec<u8>) {
    let wrong = random.pick(&[0, 9, 16, 128, 255]);
    match random.between(0, 5) {
        0 => counties.clear(),
        1 => drop(counties.pop()),
        2 => counties.push(1),
        3 => counties.resize(random.between(0, MAX_ROWS + 1), 1),
        _ if counties.is_empty() => counties.push(wrong),
        _ => {
            let place = random.between(0, counties.len() - 1);
            counties[place] = wrong;
        }
    }
}

/// A number that is no county; some agree with one in their low bits.
fn no_county(random: &mut Random) -> u64 {
    random.pick(&[0, 9, 255, 256, 257, 264, 1 << 32, (1 << 32) + 1, 1 << 63, u64::MAX])
}

/// No choice but 0 and 1 is one; some of the others agree with these in their low bits.
fn any_choice(random: &mut Random) -> u64 {
    random.pick(&[0, 1, 2, 3, 256, 257, 1 << 32, (1 << 32) + 1, 1 << 63, u64::MAX])
}

/// A founding with arguments at or beyond their limits.
fn bad_founding(random: &mut Random, size: Size) -> Call {
    let mut names = tables::names(random, size.used);
    let mut capacity = size.capacity as u64;
    let mut file_len = size.file_len as u64;
    let mut half_a_name = None;
    let mut choice = choice(random);
    let mut files = size.files as u64;
    let mut counties = tables::counties(random, size.used);
    for _ in 0..random.between(1, 2) {
        match random.between(0, 15) {
            0 => names.clear(),
            1 => names.insert(0, 0),
            2 => names.extend(names.last().copied()),
            3 => names.reverse(),
            4 => names = tables::names(random, MAX_ROWS + 1),
            5 => names = tables::names(random, (size.capacity + 1).min(MAX_ROWS)),
            6 => capacity = edge(random, MAX_ROWS as u64, capacity),
            7 => file_len = edge(random, MAX_FILE as u64, file_len),
            8 => half_a_name = Some(random.byte()),
            9 => choice = any_choice(random),
            10..=11 => files = any_files(random, files),
            12..=14 => spoil_counties(random, &mut counties),
            _ => {}
        }
    }
    let mut names = tables::names_in_bytes(&names);
    names.extend(half_a_name);
    Call::Found { capacity, file_len, names, choice, files, counties }
}

/// Another number of files; most are none that a group can have.
fn any_files(random: &mut Random, files: u64) -> u64 {
    let edge = edge(random, MAX_FILES as u64, files);
    random.pick(&[0, MAX_FILES as u64 + 1, files + 1, edge])
}

/// A file that a group of so many does not have.
fn absent_file(random: &mut Random, files: usize) -> u64 {
    let files = files as u64;
    random.pick(&[0, files + 1, MAX_FILES as u64 + 1, (1 << 32) + 1, files + 256, u64::MAX])
}

/// Another value for an argument whose highest sensible value is `limit`; some agree with `now` in their low bits.
fn edge(random: &mut Random, limit: u64, now: u64) -> u64 {
    random.pick(&[
        0,
        1,
        limit.saturating_sub(1),
        limit,
        limit + 1,
        now.wrapping_add(1),
        now.wrapping_add(256),
        now.wrapping_add(1 << 32),
        now.wrapping_add(1 << 63),
        1 << 63,
        now.wrapping_neg(),
        u64::MAX,
    ])
}

/// A call that may well be done.
fn fitting(random: &mut Random, table: &Picture, up: u64) -> Call {
    let unlisted = table.unlisted() & up;
    let coordinators = if random.chance(1, 4) && unlisted != 0 { unlisted } else { up };
    let coordinator = random.row(coordinators);
    let file = random.between(1, table.files) as u64;
    match random.between(0, 115) {
        0..=29 => {
            let answering = answering(random, table, up, coordinator, Quorum::Read);
            let (offset, length) = range(random, table);
            let (buffer, called) = (random.bytes(length), called(random));
            let (coordinator, length) = (coordinator as u64, length as u64);
            Call::Read { coordinator, answering, offset, length, buffer, called, file }
        }
        30..=61 => {
            let answering = answering(random, table, up, coordinator, Quorum::Write);
            let (offset, length) = patch_range(random, table);
            let (patch, called) = (random.bytes(length), called(random));
            writing(random, coordinator, answering, offset, patch, called, file)
        }
        62..=78 => send(random, table, up),
        79..=92 => {
            let answering = answering(random, table, up, coordinator, Quorum::Write);
            checking(coordinator, answering)
        }
        93..=97 => {
            let known = table.row(random.between(1, table.used)).county;
            let any = random.between(1, MAX_COUNTIES) as u64;
            let county =
                if random.chance(1, 8) { no_county(random) } else { random.pick(&[known.into(), any]) };
            Call::Join { name: joining_name(random, table), county }
        }
        98 => chart(random),
        99..=104 => {
            let unlisted = if unlisted != 0 { unlisted } else { table.unlisted() };
            let coordinators = if random.chance(1, 4) { unlisted } else { table.all_used() };
            choice_of(random, coordinators)
        }
        105..=106 => moving(random, table, false),
        107..=114 => round(random, table, up, coordinator),
        _ => {
            let used = random.between(1, table.capacity);
            let (choice, counties) = (choice(random), tables::counties(random, used));
            let Table { capacity, file_len, files, .. } = **table;
            founding(random, Size { used, capacity, file_len, files }, choice, counties)
        }
    }
}

/// A round, mostly with one coordinator; in a third of the rounds one order has something wrong, and few lists end inside an order.
fn round(random: &mut Random, table: &Picture, up: u64, coordinator: usize) -> Call {
    let count = rounds::count(random);
    if count > 1 && random.chance(1, 8) {
        return round_by_a_choice(random, table, coordinator, count);
    }
    let answering = answering(random, table, up, coordinator, Quorum::Write);
    let coordinators = rounds::coordinators(random, coordinator, answering, table.all_used());
    let other = (count > 0 && random.chance(1, 3)).then(|| {
        let order = rounds::order(random, table, coordinators);
        (random.between(0, count - 1), random.pick(&rounds::wrong(order, table)))
    });
    let mut orders = rounds_of(random, table, coordinators, count, other);
    if random.chance(1, 10) {
        let over = random.between(1, ORDER - 1);
        orders.extend(random.bytes(over));
    }
    Call::Round { answering, orders, sheet: Vec::new() }
}

/// A round whose first order may be done by the own choice of its coordinator, and the others, by any that answer, not at all.
fn round_by_a_choice(random: &mut Random, table: &Picture, coordinator: usize, count: usize) -> Call {
    let own = table.row(coordinator);
    let choice = Layout::of(own.list, &table.chain, &table.counties).choice(Quorum::Write, own.name);
    let some = random.pick(&[table.all_used(), table.all_used() & !own.list.members]);
    let answering = choice | rows::only(coordinator) | random.subset(some, 1, 3);
    let first = rounds::order(random, table, rows::only(coordinator));
    let orders = rounds_of(random, table, answering, count, Some((0, first)));
    Call::Round { answering, orders, sheet: Vec::new() }
}

/// Who answers the coordinator: by turns all, those up, a quorum and a little less, some counties, and rows without a list.
fn answering(random: &mut Random, table: &Picture, up: u64, coordinator: usize, quorum: Quorum) -> u64 {
    let own = table.row(coordinator);
    let in_force = table.newest(table.all_used());
    let newest = in_force.members;
    let unlisted = table.unlisted();
    let choice = |list, name| Layout::of(list, &table.chain, &table.counties).choice(quorum, name);
    let county = random.pick(&table.parts());
    let set = match random.between(0, if unlisted == 0 { 11 } else { 13 }) {
        0 => table.all_used(),
        1..=3 => up,
        4 => up ^ rows::only(random.between(1, table.used)),
        5 => random.subset(table.all_used(), 1, 2),
        6 => newest,
        7 => newest & !rows::only(random.row(newest)),
        8 => choice(own.list, own.name) | random.subset(up, 1, 4),
        9 => choice(in_force, random.byte().into()) & !rows::only(random.between(1, 64)),
        10 if table.several(newest) => newest & !county,
        11 if table.several(newest) => newest & !random.subset(county, 1, 2),
        10 | 11 => up,
        12 => unlisted,
        _ => newest | random.subset(unlisted, 1, 2),
    };
    let with_coordinator = if random.chance(29, 30) { set | rows::only(coordinator) } else { set };
    if random.chance(1, 60) {
        with_coordinator | rows::only(random.between(table.used, 64))
    } else {
        with_coordinator
    }
}

fn range(random: &mut Random, table: &Picture) -> (u64, usize) {
    let offset = random.between(0, table.file_len - 1);
    let rest = table.file_len - offset;
    let length = if random.chance(3, 4) { random.between(1, rest.min(8)) } else { random.between(1, rest) };
    (offset as u64, length)
}

/// The range of a patch: in a third of the cases about as long as a record takes, if the file is.
fn patch_range(random: &mut Random, table: &Picture) -> (u64, usize) {
    let length = random.pick(&[LONGEST_PATCH - 1, LONGEST_PATCH, LONGEST_PATCH + 1]);
    if length <= table.file_len && random.chance(1, 3) {
        (random.between(0, table.file_len - length) as u64, length)
    } else {
        range(random, table)
    }
}

/// The list for the number of machines called: mostly of one byte, of none or two now and then.
fn called(random: &mut Random) -> Vec<u8> {
    let length = if random.chance(1, 12) { random.pick(&[0, 2]) } else { 1 };
    random.bytes(length)
}

/// A send, mostly of a file that some row is stale in, and from a good row to a stale one.
fn send(random: &mut Random, table: &Picture, up: u64) -> Call {
    let such = |file: usize, test: &dyn Fn(&Part) -> bool| {
        let rows = rows::members(table.all_used()).filter(|&row| test(table.part(row, file)));
        rows.fold(0, |set, row| set | rows::only(row))
    };
    let any = random.between(1, table.files);
    let behind: Vec<usize> = (1..=table.files).filter(|&file| such(file, &|part| part.stale) != 0).collect();
    let file = if random.chance(4, 5) && !behind.is_empty() { random.pick(&behind) } else { any };
    let stale = such(file, &|part| part.stale);
    let to = if random.chance(4, 5) && stale != 0 { random.row(stale) } else { random.row(table.all_used()) };
    let desired = table.part(to, file).desired;
    let newer = such(file, &|part| !part.stale && part.version >= desired);
    let from =
        if random.chance(3, 4) && newer != 0 { random.row(newer) } else { random.row(table.all_used()) };
    let ends = rows::only(from) | rows::only(to);
    let answering = match random.between(0, 19) {
        0 => ends & !rows::only(from),
        1 => ends & !rows::only(to),
        2 => table.all_used(),
        3..=6 => up | ends,
        _ => ends,
    };
    Call::Send { from: from as u64, to: to as u64, answering, file: file as u64 }
}

/// A name to join with: below all names, between two of them or above, mostly; or 0, in use, or any.
fn joining_name(random: &mut Random, table: &Picture) -> u16 {
    let name_at = |place: usize| usize::from(table.row(table.at(place)).name);
    let place = random.between(0, table.used);
    let before = if place == 0 { 0 } else { name_at(place - 1) };
    let behind = if place == table.used { 65_536 } else { name_at(place) };
    let name = match random.between(0, 11) {
        0 => 0,
        1 => name_at(random.between(0, table.used - 1)),
        2 => random.between(0, 65_535),
        // Side by side with a name in use; neighbours may leave no room.
        3 => before + 1,
        4 => behind - 1,
        _ if before + 1 < behind => random.between(before + 1, behind - 1),
        _ => before,
    };
    name.min(65_535) as u16
}

/// A chart that mostly can be given.
fn chart(random: &mut Random) -> Call {
    let length = random.between(1, 9) as u64;
    let mark = if length == 5 { random.pick(&[0, 1, 2]) } else { random.pick(&[0, 2]) };
    let bytes = random.between(128, 300);
    Call::Chart { length, mark, list: random.bytes(bytes) }
}

/// The choice of one of these rows, mostly in a list of its length.
fn choice_of(random: &mut Random, coordinators: u64) -> Call {
    let coordinator = random.row(coordinators) as u64;
    let bytes = if random.chance(1, 8) { random.pick(&CHOICE_LISTS) } else { 8 };
    Call::Choice { coordinator, kind: random.pick(&[0, 1]), set: random.bytes(bytes) }
}

/// The length of a table in this form; of one that there is not, in the newest. Older forms have one file.
fn length_in(form: u64, size: Size) -> usize {
    let rules = u8::try_from(form).ok().and_then(Rules::of_form).unwrap_or_default();
    rules.table_length(size.capacity, size.file_len, size.files.min(rules.most_files()))
}

/// A move, mostly one that there is, if there is one from such a table, and mostly into a buffer of the right length.
fn moving(random: &mut Random, table: &Picture, taken: bool) -> Call {
    let form = match table.rules {
        _ if random.chance(1, 5) => random.pick(&MOVE_FORMS),
        Rules::Published => 3,
        Rules::Windowless => random.pick(&[1, 3, 3]),
        Rules::OneFile => random.pick(&[1, 2]),
        Rules::OneCounty | Rules::Newest => random.pick(&[1, 2, 3, 4, 5]),
    };
    let Table { used, capacity, file_len, files, .. } = **table;
    let right = length_in(form, Size { used, capacity, file_len, files });
    let any = random.between(0, right);
    let length = if random.chance(1, 4) { random.pick(&[0, right - 1, right + 1, any]) } else { right };
    Call::Move { form, to: random.bytes(length), taken }
}

/// A table that cannot move to form 1: some list is empty, or does not lie in the published grid.
fn unpublished(random: &mut Random, size: Size, rules: Rules) -> Vec<u8> {
    loop {
        let bytes = tables::well_formed_by(random, size, rules);
        if !Table::decode_by(rules, &bytes).expect("made well formed").is_published(&bytes) {
            return bytes;
        }
    }
}

/// Gives one argument of the call a value at or beyond its limits.
fn spoil(random: &mut Random, call: &mut Call, table: &Picture) {
    let (used, longest) = (table.used as u64, table.file_len as u64);
    match call {
        Call::Found { capacity, file_len, names, choice, files, counties } => match random.between(0, 5) {
            0 => *capacity = edge(random, MAX_ROWS as u64, *capacity),
            1 => *file_len = edge(random, MAX_FILE as u64, *file_len),
            2 => *choice = any_choice(random),
            3 => *files = any_files(random, *files),
            4 => spoil_counties(random, counties),
            _ => names.push(random.byte()),
        },
        Call::Read { coordinator, answering, offset, length, buffer, file, .. } => match random.between(0, 6)
        {
            0 => *coordinator = edge(random, used, *coordinator),
            1 => *answering = bad_set(random, table),
            2 => *offset = edge(random, longest, *offset),
            3 => *length = edge(random, longest, *length),
            4 => {
                *length = edge(random, longest, *length);
                buffer.resize((*length).min(MAX_FILE as u64 + 2) as usize, 0);
            }
            5 => *file = absent_file(random, table.files),
            _ => resize(random, buffer, table.file_len),
        },
        Call::Write { coordinator, answering, offset, patch, file, club, .. } => match random.between(0, 5) {
            0 => *coordinator = edge(random, used, *coordinator),
            1 => *answering = bad_set(random, table),
            2 => *offset = edge(random, longest, *offset),
            3 => *file = absent_file(random, table.files),
            4 => *club = random.pick(&[0, 17, 255, 256, 257, 1 << 32, (1 << 32) + 1, u64::MAX]),
            _ => resize(random, patch, table.file_len),
        },
        Call::Send { from, to, answering, file } => match random.between(0, 4) {
            0 => *from = edge(random, used, *from),
            1 => *to = edge(random, used, *to),
            2 => *answering = bad_set(random, table),
            3 => *file = absent_file(random, table.files),
            _ => *to = *from,
        },
        Call::Check { coordinator, answering, .. } => match random.between(0, 1) {
            0 => *coordinator = edge(random, used, *coordinator),
            _ => *answering = bad_set(random, table),
        },
        Call::Join { name, county } => match random.between(0, 2) {
            0 => *county = no_county(random),
            _ => *name = random.pick(&[0, 1, 65_535, *name ^ 1, *name ^ 0x100, table.row(1).name]),
        },
        Call::Chart { length, mark, list } => match random.between(0, 2) {
            0 => *length = edge(random, 9, *length),
            1 => *mark = edge(random, 3, *mark),
            _ => list.truncate(random.between(0, 129)),
        },
        Call::Choice { coordinator, kind, set } => match random.between(0, 2) {
            0 => *coordinator = edge(random, used, *coordinator),
            1 => *kind = edge(random, 1, *kind),
            _ => set.resize(random.pick(&[0, 1, 7, 9, 16]), 0),
        },
        Call::Round { answering, orders, .. } => match random.between(0, 2) {
            0 => *answering = bad_set(random, table),
            1 => orders.truncate(random.between(0, orders.len())),
            _ => {
                let any = random.between(0, 2 * ORDER);
                orders.extend(random.bytes(any));
            }
        },
        Call::Move { form, to, .. } => match random.between(0, 1) {
            0 => *form = edge(random, 4, *form),
            _ => {
                let length = to.len();
                to.resize(random.pick(&[0, length.saturating_sub(1), length + 1, length + 576]), 0);
            }
        },
    }
}

fn bad_set(random: &mut Random, table: &Picture) -> u64 {
    let above = rows::only((table.used + 1).min(64));
    let (all, any) = (table.all_used(), random.next());
    random.pick(&[0, 1, all, all | above, (1 << 32) + 1, 1 << 63, u64::MAX, any, all | 1 << 63])
}

/// Gives a list a length that does not fit: none, one less, one more, any, the file's and beyond.
fn resize(random: &mut Random, list: &mut Vec<u8>, file_len: usize) {
    let (length, any) = (list.len(), random.between(0, file_len + 2));
    list.resize(
        random.pick(&[
            0,
            length.saturating_sub(1),
            length + 1,
            any,
            file_len,
            file_len + 1,
            MAX_FILE,
            MAX_FILE + 1,
        ]),
        0,
    );
}

#[cfg(test)]
mod tests {
    use super::*;

    #[test]
    fn every_chart_is_tried() {
        let mut random = Random::new(6, 0);
        let mut plan = Plan::charts(&mut random);
        let mut answers = std::collections::BTreeMap::new();
        for _ in 0..plan.calls() {
            let call = plan.next(&mut random, &[]);
            *answers.entry(call.refer(Engine::default(), &mut []).result >> 32).or_insert(0) += 1;
        }
        // Nineteen pairs of length and mark have a chart; each is asked for with two lists that are too short, and with three more.
        assert_eq!(
            answers.into_iter().collect::<Vec<_>>(),
            [(0, 19 * 3), (5, 19 * 2), (17, (13 * 7 - 19) * 5)]
        );
    }

    #[test]
    fn every_choice_is_tried() {
        for case in 0..50 {
            let mut random = Random::new(6, case);
            let mut plan = Plan::choices(&mut random);
            let mut table = plan.table();
            let used = Table::decode(&table).expect("well formed").used;
            let mut answers = std::collections::BTreeMap::new();
            for _ in 0..plan.calls() {
                let call = plan.next(&mut random, &table);
                *answers.entry(call.refer(Engine::default(), &mut table).result >> 32).or_insert(0) += 1;
            }
            // Two kinds of seven, one length of four; two coordinators besides those far beyond are no rows.
            assert_eq!(
                answers.into_iter().collect::<Vec<_>>(),
                [(0, used * 2), (2, 8 * 7 * 4), (4, used * 5 * 4), (5, used * 2 * 3)]
            );
        }
    }

    #[test]
    fn every_move_is_tried() {
        for (form, published) in MOVED_FORMS.into_iter().flat_map(|form| [(form, true), (form, false)]) {
            let mut random = Random::new(6, form.into());
            let mut plan = Plan::moves(&mut random, form, published);
            let mut table = plan.table();
            let mut answers = std::collections::BTreeMap::new();
            for _ in 0..plan.calls() {
                let call = plan.next(&mut random, &table);
                *answers.entry(call.refer(Engine::default(), &mut table).result >> 32).or_insert(0) += 1;
            }
            // Eight forms, and four buffers for each. By the scope alone a table has no other lists.
            let expected = match (form, published) {
                (0 | 6.., _) | (1, false) => vec![(1, 32)],
                (1 | 2, true) => vec![(0, 1), (12, 31)],
                (2 | 3, false) => vec![(0, 1), (12, 27), (15, 4)],
                (3, true) => vec![(0, 2), (12, 30)],
                (4 | 5, true) => vec![(12, 32)],
                (4 | 5, false) => vec![(12, 28), (15, 4)],
            };
            assert_eq!(answers.into_iter().collect::<Vec<_>>(), expected, "form {form}");
        }
    }

    /// Every number of orders and of bytes left over, and every wrong order after none, one and three that were done.
    #[test]
    fn every_round_is_tried() {
        for case in 0..20 {
            let mut random = Random::new(6, case);
            let mut plan = Plan::rounds(&mut random);
            plan.sheet = None;
            let mut table = plan.table();
            let mut answers = std::collections::BTreeMap::new();
            for number in 0..plan.calls() {
                let mut call = plan.next(&mut random, &table);
                call.lend(&Sheet::OPEN.bytes());
                let result = call.refer(Engine::default(), &mut table).result;
                if number > 0 {
                    *answers.entry((result >> 32, result as u32)).or_insert(0) += 1;
                }
            }
            let broken = answers.remove(&(4, 0)).expect("lists that end inside an order");
            assert!(broken >= 7 * 15 + 4, "case {case}: {broken}");
            let counts = [0, 1, 2, 63, 64].map(|count| answers.remove(&(0, count)).unwrap_or_default());
            assert_eq!((counts, answers.remove(&(4, 64))), ([1; 5], Some(2)), "case {case}");
            for done in [0, 1, 3] {
                let refused = [2, 4, 16, 18].map(|by| answers.remove(&(by, done)).unwrap_or_default());
                let lengths = if done == 0 { 0 } else { 4 };
                assert!(refused[0] >= 4 && refused[1] >= lengths && refused[2] >= 5, "{refused:?}");
                assert_eq!(refused[3], 3);
            }
            assert!(answers.keys().all(|&answer| answer == (0, 4)), "case {case}: {answers:?}");
        }
    }

    #[test]
    fn names_to_join_with_lie_everywhere() {
        let (mut zero, mut in_use, mut below, mut between, mut above) = (0, 0, 0, 0, 0);
        for case in 0..2_000 {
            let mut random = Random::new(6, case);
            let size = Size::pick(&mut random);
            let table = Picture::of(&tables::well_formed(&mut random, size)).expect("well formed");
            let name = joining_name(&mut random, &table);
            let lower = table.rows.iter().filter(|row| row.name < name).count();
            let count = match lower {
                _ if name == 0 => &mut zero,
                _ if table.rows.iter().any(|row| row.name == name) => &mut in_use,
                0 => &mut below,
                lower if lower == table.used => &mut above,
                _ => &mut between,
            };
            *count += 1;
        }
        let counts = [zero, in_use, below, between, above];
        assert!(counts.into_iter().all(|count| count > 50), "{counts:?}");
    }
}
