//! The calls. Each puts its questions in order and is refused by the first no.

use crate::blunder::{self, Blunder};
use crate::chart::{Chart, CHART_PLACES, LONGEST_CHARTED};
use crate::county::is_county;
use crate::round::{self, MOST_ORDERS, ORDER};
use crate::rows::{self, Order};
use crate::sheet::{self, Sheet, CLUBS};
use crate::window;
use crate::{Counties, Grid, Laid, Layout, Part, Quorum, Row, Rules, Shape, Table};
use crate::{HEADER, LIMIT, MAX_FILE, MAX_FILES, MAX_ROWS, OLDEST, ROW_HEADER, SEVERAL};
use std::iter;

/// Answers the calls on a table's bytes; with a blunder, wrongly.
#[derive(Clone, Copy, Debug, Default)]
pub struct Engine {
    pub rules: Rules,
    pub blunder: Option<Blunder>,
}

/// Who coordinates a read or write, who answers, and which file it names.
#[derive(Clone, Copy)]
struct Asked {
    coordinator: u64,
    answering: u64,
    file: u64,
}

/// The sizes that a founding names.
struct Sizes {
    capacity: u64,
    file_len: u64,
    files: u64,
}

/// A file on its way from a row to one that is so many versions behind.
#[derive(Clone, Copy)]
pub struct Transfer {
    pub from: usize,
    pub to: usize,
    pub file: usize,
    pub behind: usize,
}

/// What the rows of a set say together of a file.
#[derive(Clone, Copy, Default)]
struct Poll {
    /// The unmarked rows of the highest version among unmarked rows, and that version.
    good: u64,
    version: u32,
    current: bool,
}

/// The length of the list that is lent for the size of the set called, and that size: 0 until question 6 is put.
struct Called {
    length: usize,
    size: u8,
}

/// The sheet that a write is lent, and the club that it is by.
struct Share<'a> {
    sheet: &'a mut [u8],
    club: u64,
}

/// The value, or the number of the question whose answer is no.
type Answer = Result<u32, u32>;

fn ask(question: u32, yes: bool) -> Result<(), u32> {
    if yes {
        Ok(())
    } else {
        Err(question)
    }
}

fn result(answer: Answer) -> u64 {
    match answer {
        Ok(value) => u64::from(value),
        Err(refusal) => u64::from(refusal) << 32,
    }
}

// The calls have the arguments that a host gives them.
#[allow(clippy::too_many_arguments)]
impl Engine {
    /// In a form without counties there are none to look at.
    pub fn found(
        &self,
        bytes: &mut [u8],
        capacity: u64,
        file_len: u64,
        names: &[u8],
        choice: u64,
        files: u64,
        counties: &[u8],
    ) -> u64 {
        result(self.try_found(bytes, Sizes { capacity, file_len, files }, names, choice, counties))
    }

    pub fn read(
        &self,
        bytes: &[u8],
        coordinator: u64,
        answering: u64,
        offset: u64,
        length: u64,
        buffer: &mut [u8],
        called: &mut [u8],
        file: u64,
    ) -> u64 {
        let mut lent = Called { length: called.len(), size: 0 };
        let asked = Asked { coordinator, answering, file };
        let answer = self.try_read(bytes, asked, offset, length, buffer, &mut lent);
        self.note(called, lent.size, answer);
        result(answer)
    }

    pub fn write(
        &self,
        bytes: &mut [u8],
        coordinator: u64,
        answering: u64,
        offset: u64,
        patch: &[u8],
        called: &mut [u8],
        file: u64,
        sheet: &mut [u8],
        club: u64,
    ) -> u64 {
        let mut lent = Called { length: called.len(), size: 0 };
        let asked = Asked { coordinator, answering, file };
        let answer = self.judge(bytes).and_then(|table| {
            self.try_write(&table, bytes, asked, offset, patch, &mut lent, Share { sheet, club })
        });
        self.note(called, lent.size, answer);
        result(answer)
    }

    /// A list of orders, of 16 bytes each. A refusal leaves what was done before it, and has their number as its value.
    pub fn round(&self, bytes: &mut [u8], answering: u64, orders: &[u8], sheet: &mut [u8]) -> u64 {
        let undone = self.makes(Blunder::RoundUndone).then(|| (bytes.to_vec(), sheet.to_vec()));
        let mut done = 0;
        let Err(refusal) = self.try_round(bytes, answering, orders, sheet, &mut done) else {
            return done.into();
        };
        if let Some((before, lent)) = undone {
            bytes.copy_from_slice(&before);
            sheet.copy_from_slice(&lent);
        }
        let value = if self.makes(Blunder::RefusedRoundsTellNone) { 0 } else { done };
        u64::from(refusal) << 32 | u64::from(value)
    }

    pub fn send(&self, bytes: &mut [u8], from: u64, to: u64, answering: u64, file: u64) -> u64 {
        result(self.try_send(bytes, from, to, answering, file))
    }

    pub fn check(&self, bytes: &mut [u8], coordinator: u64, answering: u64, sheet: &mut [u8]) -> u64 {
        result(self.try_check(bytes, coordinator, answering, sheet))
    }

    /// In a form without counties there is none to look at.
    pub fn join(&self, bytes: &mut [u8], name: u16, county: u64) -> u64 {
        result(self.try_join(bytes, name, county))
    }

    pub fn chart(&self, length: u64, mark: u64, list: &mut [u8]) -> u64 {
        result(self.try_chart(length, mark, list))
    }

    pub fn choice(&self, bytes: &[u8], coordinator: u64, kind: u64, set: &mut [u8]) -> u64 {
        result(self.try_choice(bytes, coordinator, kind, set))
    }

    /// The call move: carries a table over to another form, in a second buffer.
    pub fn carry(&self, bytes: &[u8], form: u64, to: &mut [u8]) -> u64 {
        result(self.try_carry(bytes, form, to))
    }

    /// The sends of a file that would be done on a well-formed table if all rows answered, by receiver and then by sender: for
    /// every two rows, questions 9 and 10.
    pub fn sends(&self, table: &Table, bytes: &[u8], file: usize) -> Vec<(usize, usize)> {
        let parts: Vec<Part> = (1..=table.used).map(|row| table.part(bytes, row, file)).collect();
        let mut sends = Vec::new();
        for (to, receiver) in (1..).zip(&parts) {
            let fits = |sender: &Part| {
                let behind = self.makes(Blunder::BehindReceiver) && receiver.version < sender.version;
                let marked = receiver.stale && receiver.desired <= sender.version;
                (!sender.stale || self.makes(Blunder::StaleSender)) && (marked || !receiver.stale && behind)
            };
            let senders = (1..).zip(&parts).filter(|(from, sender)| *from != to && fits(sender));
            sends.extend(senders.map(|(from, _)| (from, to)));
        }
        sends
    }

    fn try_found(
        &self,
        bytes: &mut [u8],
        sizes: Sizes,
        names: &[u8],
        choice: u64,
        counties: &[u8],
    ) -> Answer {
        let (rules, Sizes { capacity, file_len, files }) = (self.rules, sizes);
        ask(11, names.len().is_multiple_of(2))?;
        let used = names.len() / 2;
        let names = names.chunks_exact(2).map(|name| u16::from_le_bytes([name[0], name[1]]));
        // A 0 before them: so none of rising names is 0.
        let before = iter::once(0).chain(names.clone());
        let rising = before.zip(names.clone()).all(|(before, name)| before < name);
        ask(11, (1..=MAX_ROWS).contains(&used) && rising)?;
        let shape = Shape::chosen(choice).ok_or(11_u32)?;
        if self.makes(Blunder::CountiesFirst) {
            self.ask_counties(used, counties)?;
        }
        let capacity_fits = (used as u64..=MAX_ROWS as u64).contains(&capacity);
        ask(12, capacity_fits && (1..=MAX_FILE as u64).contains(&file_len))?;
        ask(12, (1..=rules.most_files() as u64).contains(&files))?;
        let (capacity, file_len, files) = (capacity as usize, file_len as usize, files as usize);
        ask(12, bytes.len() == rules.table_length(capacity, file_len, files))?;
        self.ask_counties(used, counties)?;

        let mut table = Table::new(rules, capacity, used, file_len, files, Order::first(used));
        if rules.has_counties() {
            // Only a blunder leaves a 0 among them.
            table.counties = Counties::of(counties.iter().map(|&county| county.max(1)));
        }
        bytes.fill(0);
        table.write_header(bytes, 1);
        let list = self.lay(&table, shape, table.all_used());
        for (index, name) in (1..).zip(names) {
            let next = if index < used { index + 1 } else { 0 };
            let county = if rules.has_counties() { counties[index - 1] } else { 0 };
            table.write_row(bytes, index, &Row::new(name, next, list, county));
        }
        Ok(used as u32)
    }

    /// Question 20 of a founding, in a form with counties.
    fn ask_counties(&self, used: usize, counties: &[u8]) -> Result<(), u32> {
        let are_counties = counties.iter().all(|&county| self.is_county(county.into()));
        ask(20, !self.rules.has_counties() || counties.len() == used && are_counties)
    }

    fn is_county(&self, number: u64) -> bool {
        is_county(number) || number == 0 && self.makes(Blunder::CountyZero)
    }

    fn try_read(
        &self,
        bytes: &[u8],
        asked: Asked,
        offset: u64,
        length: u64,
        buffer: &mut [u8],
        called: &mut Called,
    ) -> Answer {
        let table = self.judge(bytes)?;
        let file = self.admit(&table, asked, offset, length)?;
        ask(5, buffer.len() as u64 == length && called.length == 1)?;
        let (_, poll) = self.settle(&table, bytes, asked, file, Quorum::Read, called)?;
        // The set is current, so there is a good row.
        let source = if self.makes(Blunder::HighestGood) {
            64 - poll.good.leading_zeros()
        } else {
            poll.good.trailing_zeros() + 1
        };
        let contents = table.contents(bytes, source as usize, file);
        buffer.copy_from_slice(&contents[offset as usize..][..buffer.len()]);
        Ok(poll.version)
    }

    /// On a table that is well formed, and so remains.
    fn try_write(
        &self,
        table: &Table,
        bytes: &mut [u8],
        asked: Asked,
        offset: u64,
        patch: &[u8],
        called: &mut Called,
        share: Share,
    ) -> Answer {
        let Share { sheet, club } = share;
        let judged = self.judge_sheet(sheet);
        if self.makes(Blunder::RefusedCounts) {
            blunder::count_any(sheet, club);
        }
        // A blunder looks at it later.
        ask(1, judged.is_some() || self.makes(Blunder::SheetAfterRows))?;
        if self.makes(Blunder::CalledLengthFirst) {
            // The first byte is a range that fits.
            self.admit(table, asked, 0, 1)?;
            ask(5, called.length == 1)?;
        }
        let file = self.admit(table, asked, offset, patch.len() as u64)?;
        let judged = judged.ok_or(1_u32)?;
        ask(5, called.length == 1)?;
        if self.makes(Blunder::ClubBeforeQuorum) {
            ask(18, judged.line(club).is_some())?;
        }
        let (set, poll) = self.settle(table, bytes, asked, file, Quorum::Write, called)?;
        if self.makes(Blunder::LimitBeforeClub) {
            ask(8, poll.version < LIMIT)?;
        }
        self.ask_share(&judged, club)?;
        ask(8, poll.version < LIMIT)?;
        let version = poll.version + 1;
        if self.makes(Blunder::WriteForgotten) {
            return Ok(version);
        }
        let file = if self.makes(Blunder::FirstFileWritten) { 1 } else { file };
        let stored = !(self.makes(Blunder::FirstWriteOnly) && poll.version > 0);
        let desired = if self.makes(Blunder::OldMark) { poll.version } else { version };
        for row in rows::members(set) {
            let mut part = table.part(bytes, row, file);
            if rows::has(poll.good, row) {
                part.version = version;
                if stored {
                    let contents = table.contents_mut(bytes, row, file);
                    contents[offset as usize..][..patch.len()].copy_from_slice(patch);
                    part.oldest =
                        self.add_patch(table, bytes, row, file, part.oldest, offset as usize, patch);
                }
            } else {
                part.mark(desired);
            }
            table.write_part(bytes, row, file, &part);
        }
        if !self.makes(Blunder::RefusedCounts) {
            sheet::add(sheet, if self.makes(Blunder::ClubOfAByte) { club & 0xff } else { club });
        }
        Ok(version)
    }

    /// Makes the writes of a round one after the other, and counts those done; the first refusal ends it. A list that has no order, or
    /// ends inside one, is asked about table, sheet and rows alone. A write leaves header, names, links and counties, and a well-formed
    /// table, so that this is judged once.
    fn try_round(
        &self,
        bytes: &mut [u8],
        answering: u64,
        orders: &[u8],
        sheet: &mut [u8],
        done: &mut u32,
    ) -> Result<(), u32> {
        let (whole, rest) = orders.as_chunks::<ORDER>();
        let ends = || ask(4, rest.is_empty());
        if self.makes(Blunder::BrokenListFirst) {
            ends()?;
        }
        let table = self.judge(bytes)?;
        let begun = rest.is_empty() || self.makes(Blunder::BrokenListBegun);
        let Some(first) = whole.first().map(round::Order::read).filter(|_| begun) else {
            ask(1, self.judge_sheet(sheet).is_some() || self.makes(Blunder::EmptyRoundsSheet))?;
            ask(2, only_used(&table, answering))?;
            return ends();
        };
        let most = if self.makes(Blunder::SixtyFifthDone) { MOST_ORDERS + 1 } else { MOST_ORDERS };
        let lent = self.makes(Blunder::CountedAtTheEnd).then(|| sheet.to_vec());
        let mut answer = Ok(());
        for order in whole.iter().map(round::Order::read) {
            let order = match self.blunder {
                Some(Blunder::FirstOrdersFile) => round::Order { file: first.file, ..order },
                Some(Blunder::FirstOrdersClub) => round::Order { club: first.club, ..order },
                Some(Blunder::NineAsEight) => round::Order { length: order.length.min(8), ..order },
                _ => order,
            };
            let entered = ask(4, *done < most).and_then(|()| match &lent {
                Some(lent) => self.enter(&table, bytes, answering, &order, &mut lent.clone()),
                None => self.enter(&table, bytes, answering, &order, sheet),
            });
            match entered {
                Ok(_) => *done += 1,
                Err(refusal) if self.makes(Blunder::RoundGoesOn) => answer = answer.and(Err(refusal)),
                Err(refusal) => return Err(refusal),
            }
            if lent.is_some() {
                sheet::add(sheet, order.club.into());
            }
        }
        answer.and_then(|()| ends())
    }

    /// An order is a write; nobody is told how many it called.
    fn enter(
        &self,
        table: &Table,
        bytes: &mut [u8],
        answering: u64,
        order: &round::Order,
        sheet: &mut [u8],
    ) -> Answer {
        if self.makes(Blunder::OrdersLengthFirst) {
            ask(4, !order.written().is_empty())?;
        }
        let (coordinator, file, club) = (order.coordinator.into(), order.file.into(), order.club.into());
        let asked = Asked { coordinator, answering, file };
        let mut called = Called { length: 1, size: 0 };
        let share = Share { sheet, club };
        self.try_write(table, bytes, asked, order.offset.into(), order.written(), &mut called, share)
    }

    /// Question 1, put to a sheet.
    fn judge_sheet(&self, bytes: &[u8]) -> Option<Sheet> {
        if self.makes(Blunder::LongSheet) {
            return Sheet::judge(bytes.get(..sheet::SHEET)?);
        }
        Sheet::judge(bytes)
    }

    /// Questions 18 and 19.
    fn ask_share(&self, sheet: &Sheet, club: u64) -> Result<(), u32> {
        let club = if self.makes(Blunder::ClubOfAByte) { club & 0xff } else { club };
        let line = sheet.line(club).ok_or(18_u32)?;
        let at_ceiling = line.count >= line.ceiling;
        let spent = line.count >= line.assured && sheet.remainder() == 0;
        match self.blunder {
            Some(Blunder::CeilingPassed) if at_ceiling => ask(19, !spent),
            Some(Blunder::SpentFirst) if spent => Err(19),
            Some(Blunder::SharedNeverSpent) if spent && !at_ceiling => ask(19, sheet.shared() > 0),
            Some(Blunder::AssuredTurnedDown) if !at_ceiling => ask(19, sheet.remainder() > 0),
            _ => sheet.refusal(club).map_or(Ok(()), Err),
        }
    }

    fn try_check(&self, bytes: &mut [u8], coordinator: u64, answering: u64, sheet: &mut [u8]) -> Answer {
        let table = self.judge(bytes)?;
        let sheet_fits = self.judge_sheet(sheet).is_some();
        // Two blunders look at it later.
        let of_changes_only = self.makes(Blunder::SheetOfChangesOnly);
        ask(1, sheet_fits || of_changes_only || self.makes(Blunder::SheetAfterRows))?;
        ask(2, is_used(&table, coordinator) && only_used(&table, answering))?;
        ask(3, answers(answering, coordinator))?;
        ask(1, sheet_fits || of_changes_only)?;
        let (epoch, in_force) = self.in_force(&table, bytes, answering);
        let layout = self.layout(&table, in_force);
        ask(6, self.holds(&table, &layout, Quorum::Write, answering))?;
        if answering == in_force.members {
            if self.makes(Blunder::SameListClears) {
                sheet::clear(sheet);
            }
            return Ok(epoch);
        }
        ask(1, sheet_fits)?;
        let mut polls = [Poll::default(); MAX_FILES];
        let polls = &mut polls[..table.files];
        for (file, poll) in (1..).zip(polls.iter_mut()) {
            *poll = self.poll(&table, bytes, answering, file);
        }
        let asked = if self.makes(Blunder::LastFileCurrent) { table.files - 1 } else { 0 };
        ask(7, polls[asked..].iter().all(|poll| poll.current))?;
        ask(8, epoch < LIMIT)?;
        let shape = match self.blunder {
            Some(Blunder::NeverTall) => Shape::Wide,
            Some(Blunder::CoordinatorsShape) => table.row(bytes, coordinator as usize).list.shape(),
            _ => in_force.shape(),
        };
        let mut list = self.lay(&table, shape, answering);
        if self.makes(Blunder::OldGrid) {
            list.mark = in_force.mark;
        }
        for row in rows::members(answering) {
            let head = Row { epoch: epoch + 1, list, ..table.row(bytes, row) };
            table.write_row(bytes, row, &head);
        }
        for (file, poll) in (1..).zip(polls.iter()) {
            let desired = if self.makes(Blunder::FirstFileMarks) { polls[0].version } else { poll.version };
            for row in rows::members(answering & !poll.good) {
                let mut part = table.part(bytes, row, file);
                part.mark(desired);
                table.write_part(bytes, row, file, &part);
            }
        }
        match self.blunder {
            Some(Blunder::CountsKept) => {}
            Some(Blunder::FifteenCleared) => sheet::clear_first(sheet, CLUBS - 1),
            _ => sheet::clear(sheet),
        }
        Ok(epoch + 1)
    }

    fn try_send(&self, bytes: &mut [u8], from: u64, to: u64, answering: u64, file: u64) -> Answer {
        let table = self.judge(bytes)?;
        ask(2, is_used(&table, from) && is_used(&table, to) && only_used(&table, answering) && from != to)?;
        ask(3, answers(answering, from) && answers(answering, to))?;
        let file = self.in_group(&table, file)?;
        let (from, to) = (from as usize, to as usize);
        let (sender, receiver) = (table.part(bytes, from, file), table.part(bytes, to, file));
        ask(9, !sender.stale)?;
        ask(10, receiver.stale && receiver.desired <= sender.version)?;
        let (mut oldest, mut end) = (sender.oldest, table.part_at(from, file + 1));
        if self.makes(Blunder::WindowKept) {
            (oldest, end) = (receiver.oldest, table.window_at(from, file));
        }
        let caught_up = Part { version: sender.version, stale: false, desired: 0, oldest };
        table.write_part(bytes, to, file, &caught_up);
        // The window lies behind the contents: it is taken over alone, or with them.
        let behind = (sender.version - receiver.version) as usize;
        let laid = self.lay_missing(&table, bytes, Transfer { from, to, file, behind });
        let start = if laid { Table::window_at } else { Table::contents_at };
        bytes.copy_within(start(&table, from, file)..end, start(&table, to, file));
        Ok(sender.version)
    }

    /// Adds a patch to the window of a row on a file, in a table that has windows. Gives the oldest record then.
    fn add_patch(
        &self,
        table: &Table,
        bytes: &mut [u8],
        row: usize,
        file: usize,
        oldest: u8,
        offset: usize,
        patch: &[u8],
    ) -> u8 {
        if !table.rules.has_windows() {
            return 0;
        }
        let window = table.window_mut(bytes, row, file);
        match self.blunder {
            Some(Blunder::LongestEmpties) => blunder::add_shorter(window, oldest, offset, patch),
            Some(Blunder::RecordPassedOver) => blunder::add_in_oldest(window, oldest, offset, patch),
            _ => window::add(window, oldest, offset, patch),
        }
    }

    /// Lays the sender's latest patches over the receiver's contents, older first, if its window reaches back so far.
    fn lay_missing(&self, table: &Table, bytes: &mut [u8], transfer: Transfer) -> bool {
        let Transfer { from, to, file, behind } = transfer;
        if !table.rules.has_windows() {
            return false;
        }
        let (window_at, contents_at) = (table.window_at(from, file), table.contents_at(to, file));
        let oldest = table.part(bytes, from, file).oldest;
        let (count, _) = window::chain(table.window(bytes, from, file), oldest);
        let reach = if count > 0 && self.makes(Blunder::ReachTooFar) { count + 1 } else { count };
        if reach < behind {
            return false;
        }
        if self.makes(Blunder::YoungerFirst) {
            blunder::lay_younger_first(table, bytes, transfer);
            return true;
        }
        let mut index = oldest;
        for place in 0..count {
            let record = window::record(table.window(bytes, from, file), index);
            if place + behind >= count {
                let patch = window_at + record.at;
                bytes.copy_within(patch..patch + record.length, contents_at + record.offset);
            }
            index = record.next;
        }
        true
    }

    fn try_join(&self, bytes: &mut [u8], name: u16, county: u64) -> Answer {
        let table = self.judge(bytes)?;
        let mut place = table.chain.partition_point(|&row| table.row(bytes, row.into()).name < name);
        let in_use = table.chain.get(place).is_some_and(|&row| table.row(bytes, row.into()).name == name);
        ask(13, name != 0 && !in_use)?;
        let (counties, number) = (self.rules.has_counties(), county);
        let number = if self.makes(Blunder::CountyOfAByte) { number & 0xff } else { number };
        if self.makes(Blunder::CountyBeforeRoom) {
            ask(20, !counties || self.is_county(number))?;
        }
        ask(14, table.used < table.capacity)?;
        ask(20, !counties || self.is_county(number))?;
        if self.makes(Blunder::LinkTooFar) {
            place = (place + 1).min(table.used);
        }
        Ok(table.link_in(bytes, name, if counties { number as u8 } else { 0 }, place) as u32)
    }

    fn try_chart(&self, length: u64, mark: u64, list: &mut [u8]) -> Answer {
        if self.makes(Blunder::ShortListFirst) {
            ask(5, list.len() >= 2 * CHART_PLACES)?;
        }
        let mark = if self.makes(Blunder::MarkOfAByte) { mark & 0xff } else { mark };
        ask(17, (1..=LONGEST_CHARTED as u64).contains(&length))?;
        let length = length as usize;
        let mark = u8::try_from(mark).map_err(|_| 17_u32)?;
        let allowed = match self.blunder {
            Some(Blunder::FiveOfAnyLength) if mark == 1 => true,
            Some(Blunder::SeveralCharted) if mark == SEVERAL => true,
            _ => self.rules.allow(length, false, mark),
        };
        ask(17, allowed)?;
        ask(5, list.len() >= 2 * CHART_PLACES)?;
        let grid = Grid::marked(mark, length);
        let chart =
            if self.makes(Blunder::LargerQuorums) { Chart::with_larger(&grid) } else { Chart::of(&grid) };
        if self.makes(Blunder::PlacesCleared) {
            list.fill(0);
        }
        for (place, set) in list.chunks_exact_mut(2).zip(chart.sets()) {
            place.copy_from_slice(&set.to_le_bytes());
        }
        Ok(chart.sets().len() as u32)
    }

    fn try_choice(&self, bytes: &[u8], coordinator: u64, kind: u64, set: &mut [u8]) -> Answer {
        let table = self.judge(bytes)?;
        ask(2, is_used(&table, coordinator))?;
        let kind = if self.makes(Blunder::KindOfAByte) { kind & 0xff } else { kind };
        let mut quorum = Quorum::of_kind(kind).ok_or(4_u32)?;
        let mut own = table.row(bytes, coordinator as usize);
        match self.blunder {
            Some(Blunder::WriteChoiceTold) => quorum = Quorum::Write,
            Some(Blunder::PublishedChoiceTold) => own.list.mark = 0,
            Some(Blunder::NewestChoiceTold) => own.list = self.in_force(&table, bytes, table.all_used()).1,
            _ => {}
        }
        let mut chosen = self.own_choice(&self.layout(&table, own.list), quorum, own.name);
        if own.list.is_empty() && self.makes(Blunder::AllChosen) {
            chosen = table.all_used();
        }
        let told = chosen.to_le_bytes();
        if self.makes(Blunder::SetAtAnyLength) {
            set.iter_mut().zip(told).for_each(|(place, byte)| *place = byte);
        }
        ask(5, set.len() == told.len())?;
        set.copy_from_slice(&told);
        Ok(chosen.count_ones())
    }

    fn try_carry(&self, bytes: &[u8], form: u64, to: &mut [u8]) -> Answer {
        let rules = bytes.first().and_then(|&form| Rules::of_form(form)).ok_or(1_u32)?;
        let table = Engine { rules, ..*self }.judge(bytes)?;
        if self.makes(Blunder::FormsFirst) {
            carried_form(&table, form, to)?;
        }
        let asked = !self.makes(Blunder::MovableListsOnly) || rules == Rules::OneFile;
        ask(15, form != 1 || !asked || table.is_published(bytes))?;
        let rules = carried_form(&table, form, to)?;
        to[..HEADER].copy_from_slice(&bytes[..HEADER]);
        to[0] = rules.form();
        let length = ROW_HEADER + table.file_len;
        for (row, carried) in (1..).zip(to[HEADER..].chunks_exact_mut(rules.row_length(table.file_len, 1))) {
            let (kept, window) = carried.split_at_mut(length);
            kept.copy_from_slice(&bytes[table.row_at(row)..][..length]);
            if !self.makes(Blunder::OldestCarried) {
                kept[OLDEST] = 0;
            }
            if !self.makes(Blunder::WindowsLeft) {
                window.fill(0);
            }
        }
        Ok(table.used as u32)
    }

    /// Question 1.
    fn judge(&self, bytes: &[u8]) -> Result<Table, u32> {
        let judged = match self.blunder {
            Some(Blunder::MarksOfEpoch) => blunder::decode_any_marks(self.rules, bytes),
            Some(Blunder::ShapesOfTable) => blunder::decode_any_shapes(self.rules, bytes),
            Some(Blunder::CountyZero) => blunder::decode_county_zero(self.rules, bytes),
            _ => Table::decode_by(self.rules, bytes),
        };
        judged.ok_or(1)
    }

    /// Questions 2, 3, 16 and 4 of a read or write; gives the file that it names.
    fn admit(&self, table: &Table, asked: Asked, offset: u64, length: u64) -> Result<usize, u32> {
        ask(2, is_used(table, asked.coordinator) && only_used(table, asked.answering))?;
        ask(3, answers(asked.answering, asked.coordinator))?;
        if self.makes(Blunder::FileAfterRange) {
            ask(4, range_fits(table, offset, length))?;
        }
        let file = self.in_group(table, asked.file)?;
        ask(4, range_fits(table, offset, length))?;
        Ok(file)
    }

    /// Question 16: gives the file that this number names.
    fn in_group(&self, table: &Table, file: u64) -> Result<usize, u32> {
        let file = if self.makes(Blunder::FileOfAByte) { file & 0xff } else { file };
        ask(16, (1..=table.files as u64).contains(&file))?;
        Ok(file as usize)
    }

    /// The set that a read or write works on, and what its rows say of the file: the coordinator's own choice as far as it answered,
    /// or else all that answered. Called are all of the choice, or else all used rows.
    fn settle(
        &self,
        table: &Table,
        bytes: &[u8],
        asked: Asked,
        file: usize,
        quorum: Quorum,
        called: &mut Called,
    ) -> Result<(u64, Poll), u32> {
        let Asked { coordinator, answering, .. } = asked;
        let file = if self.makes(Blunder::FirstFilePolled) { 1 } else { file };
        let all = table.used as u8;
        called.size = if self.makes(Blunder::NoneCalledBySix) { 0 } else { all };
        if self.makes(Blunder::SixByCount) {
            ask(6, answering.count_ones() as usize > table.used / 2)?;
        }
        let mut own = table.row(bytes, coordinator as usize);
        if self.makes(Blunder::PublishedChoice) {
            own.list.mark = 0;
        }
        let mut layout = self.layout(table, own.list);
        let chosen = self.own_choice(&layout, quorum, own.name);
        let choice = chosen & answering;
        if choice != 0 && !self.makes(Blunder::NoChoice) {
            let (_, in_force) = self.in_force(table, bytes, choice);
            self.lay_out(table, &mut layout, in_force);
            let poll = self.poll(table, bytes, choice, file);
            if self.holds(table, &layout, quorum, choice) && poll.current {
                called.size = match self.blunder {
                    Some(Blunder::AnsweringCalled) => choice.count_ones() as u8,
                    Some(Blunder::AllCalled) => all,
                    _ => chosen.count_ones() as u8,
                };
                return Ok((choice, poll));
            }
        }
        let (_, in_force) = self.in_force(table, bytes, answering);
        self.lay_out(table, &mut layout, in_force);
        ask(6, self.holds(table, &layout, quorum, answering))?;
        called.size = all;
        let poll = self.poll(table, bytes, answering, file);
        ask(7, poll.current)?;
        Ok((answering, poll))
    }

    /// Writes the size of the set called into its list, if that has one byte.
    fn note(&self, called: &mut [u8], size: u8, answer: Answer) {
        let unwritten = answer.is_err() && self.makes(Blunder::CalledWhenDone);
        if called.len() == 1 && !unwritten || !called.is_empty() && self.makes(Blunder::CalledAtAnyLength) {
            called[0] = size;
        }
    }

    /// The highest epoch among the rows of the set that have a list, and that list; an empty one if none has.
    fn in_force(&self, table: &Table, bytes: &[u8], set: u64) -> (u32, Laid) {
        if self.makes(Blunder::UnlistedEpoch) {
            return blunder::highest_of_all(table, bytes, set);
        }
        let mut in_force = (0, Laid::EMPTY);
        for index in rows::members(set) {
            let row = table.row(bytes, index);
            if row.epoch >= in_force.0 && !row.list.is_empty() {
                in_force = (row.epoch, row.list);
            }
        }
        in_force
    }

    /// Polls the rows of a set that is not empty on a file.
    fn poll(&self, table: &Table, bytes: &[u8], set: u64, file: usize) -> Poll {
        let mut poll = Poll::default();
        let mut desired = 0;
        for row in rows::members(set) {
            let part = table.part(bytes, row, file);
            if part.stale {
                desired = desired.max(part.desired);
            } else if part.version > poll.version || poll.good == 0 {
                (poll.version, poll.good) = (part.version, rows::only(row));
            } else if part.version == poll.version {
                poll.good |= rows::only(row);
            }
        }
        poll.current = poll.good != 0 && (desired <= poll.version || self.makes(Blunder::DesiredIgnored));
        poll
    }

    /// The list of these members, laid now.
    fn lay(&self, table: &Table, shape: Shape, members: u64) -> Laid {
        let mut list = self.rules.lay(shape, members, &table.counties);
        let several = |set| table.counties.several(set);
        match self.blunder {
            Some(Blunder::SeveralInTall) if several(members) => list.mark = SEVERAL,
            Some(Blunder::SeveralOfAll) if several(table.all_used()) && shape == Shape::Wide => {
                list.mark = SEVERAL;
            }
            _ => {}
        }
        list
    }

    fn layout(&self, table: &Table, list: Laid) -> Layout {
        match self.blunder {
            Some(Blunder::OneLevelByMark) if list.mark != SEVERAL => {
                Layout::of(list, &table.chain, &Counties::ONE)
            }
            Some(Blunder::CountiesInChainOrder) => blunder::lay_in_chain_order(list, table),
            _ => Layout::of(list, &table.chain, &table.counties),
        }
    }

    /// Lays out another list, unless it is the one that is laid out already.
    fn lay_out(&self, table: &Table, layout: &mut Layout, list: Laid) {
        if list != layout.list {
            *layout = self.layout(table, list);
        }
    }

    /// The own choice of the caller with this name, over its own list as laid out.
    fn own_choice(&self, layout: &Layout, quorum: Quorum, name: u16) -> u64 {
        match self.blunder {
            Some(Blunder::AllCountiesChosen) => {
                layout.choice_in(rows::first(layout.groups().len()), quorum, name)
            }
            Some(Blunder::ReadChoiceBelow) => {
                layout.choice_in(layout.above.choice(quorum, name), Quorum::Read, name)
            }
            _ => layout.choice(quorum, name),
        }
    }

    /// Does the set hold a quorum of the list that is laid out? Of an empty one it does not.
    fn holds(&self, table: &Table, layout: &Layout, quorum: Quorum, set: u64) -> bool {
        if layout.list.is_empty() && !self.makes(Blunder::VacuousQuorum) {
            return false;
        }
        match self.blunder {
            Some(Blunder::OutsidersCount) => blunder::holds_with_outsiders(layout, &table.chain, quorum, set),
            Some(Blunder::ShortColumnWhole) => layout.holds_by(blunder::holds_long_column, quorum, set),
            Some(Blunder::AllOfThree) => layout.holds_by(blunder::holds_all_of_three, quorum, set),
            Some(Blunder::ReadBelow) => {
                layout.above.holds(quorum, layout.held(Grid::holds, Quorum::Read, set))
            }
            _ => layout.holds(quorum, set),
        }
    }

    fn makes(&self, blunder: Blunder) -> bool {
        self.blunder == Some(blunder)
    }
}

/// The rules that a table is carried over to, if there is such a move and the buffer has the length for it.
fn carried_form(table: &Table, form: u64, to: &[u8]) -> Result<Rules, u32> {
    let rules = match (table.rules, form) {
        (Rules::Published | Rules::Windowless, 3) => Rules::OneFile,
        (Rules::OneFile, 1) => Rules::Published,
        (Rules::OneFile, 2) => Rules::Windowless,
        _ => return Err(12),
    };
    ask(12, to.len() == rules.table_length(table.capacity, table.file_len, 1))?;
    Ok(rules)
}

fn is_used(table: &Table, row: u64) -> bool {
    (1..=table.used as u64).contains(&row)
}

fn only_used(table: &Table, set: u64) -> bool {
    set & !table.all_used() == 0
}

/// Is the row, which is used, in the answering set?
fn answers(answering: u64, row: u64) -> bool {
    rows::has(answering, row as usize)
}

fn range_fits(table: &Table, offset: u64, length: u64) -> bool {
    length >= 1 && u128::from(offset) + u128::from(length) <= table.file_len as u128
}

#[cfg(test)]
mod tests {
    use super::*;

    /// A read or write of one byte by row c, R answering, with a list of so many bytes: refusal number, and the list after.
    fn call(table: &mut [u8], quorum: Quorum, c: u64, r: u64, lent: usize) -> (u64, Vec<u8>) {
        let mut called = vec![0xee; lent];
        let result = match quorum {
            Quorum::Read => Engine::default().read(table, c, r, 0, 1, &mut [0], &mut called, 1),
            Quorum::Write => {
                Engine::default().write(table, c, r, 0, &[7], &mut called, 1, &mut Sheet::OPEN.bytes(), 1)
            }
        };
        (result >> 32, called)
    }

    /// A founded table of one file.
    fn founded(capacity: u64, names: &[u16], choice: u64) -> Vec<u8> {
        founded_by(Engine::default(), capacity, names, choice, 1)
    }

    /// A founded table of so many files of four bytes.
    fn founded_by(engine: Engine, capacity: u64, names: &[u16], choice: u64, files: usize) -> Vec<u8> {
        let names: Vec<u8> = names.iter().flat_map(|name| name.to_le_bytes()).collect();
        let mut table = vec![0; engine.rules.table_length(capacity as usize, 4, files)];
        let counties = vec![1; names.len() / 2];
        assert_eq!(engine.found(&mut table, capacity, 4, &names, choice, files as u64, &counties) >> 32, 0);
        table
    }

    use Quorum::{Read, Write};

    /// Columns {1, 3} and {2, 4}: the write choice of 10 is {1, 2, 3}, its read choice {1, 2}.
    #[test]
    fn the_choice_or_all_used_rows_are_called() {
        let mut table = founded(6, &[10, 20, 30, 40], 0);
        assert_eq!(call(&mut table, Write, 1, 0b1111, 1), (0, vec![3]));
        assert_eq!(call(&mut table, Read, 1, 0b1111, 1), (0, vec![2]));
        assert_eq!(
            call(&mut table, Read, 1, 0b0011, 1),
            (0, vec![2]),
            "all that answered, and they are the choice"
        );
        assert_eq!(call(&mut table, Read, 1, 0b1001, 1), (0, vec![4]), "row 2 is away");
        assert_eq!(call(&mut table, Write, 1, 0b1011, 1), (0, vec![4]), "row 3 is away");
        assert_eq!(call(&mut table, Write, 1, 0b0011, 1), (6, vec![4]));
        assert_eq!(call(&mut table, Read, 3, 0b1100, 1), (7, vec![4]));
        // A joined row counts at once; it has no choice of its own.
        assert_eq!(Engine::default().join(&mut table, 15, 1), 5);
        assert_eq!(call(&mut table, Read, 1, 0b1001, 1), (0, vec![5]));
        assert_eq!(call(&mut table, Read, 5, 0b1_1111, 1), (0, vec![5]));
        assert_eq!(call(&mut table, Read, 5, 0b1_0000, 1), (6, vec![5]));
        assert_eq!(call(&mut table, Read, 1, 0b1_1111, 1), (0, vec![2]));
    }

    /// Row 4 missed the check by the others. Its choice of four, {1, 2, 3}, is a quorum of their list of three; only two of them
    /// answer, and that is one too.
    #[test]
    fn a_choice_counts_whole_though_some_of_it_did_not_answer() {
        let mut table = founded(4, &[10, 20, 30, 40], 0);
        assert_eq!(Engine::default().check(&mut table, 1, 0b0111, &mut Sheet::OPEN.bytes()), 1);
        assert_eq!(call(&mut table, Write, 4, 0b1011, 1), (0, vec![3]));
    }

    #[test]
    fn nobody_is_called_before_question_6() {
        for quorum in [Read, Write] {
            let mut table = founded(2, &[10, 20], 1);
            assert_eq!(call(&mut table, quorum, 3, 0b11, 1), (2, vec![0]));
            assert_eq!(call(&mut table, quorum, 1, 0b10, 1), (3, vec![0]));
            for lent in [0, 2, 3] {
                let untouched = vec![0xee; lent];
                assert_eq!(call(&mut table, quorum, 3, 0b11, lent), (2, untouched.clone()));
                assert_eq!(call(&mut table, quorum, 1, 0b10, lent), (3, untouched.clone()));
                assert_eq!(call(&mut table, quorum, 1, 0b11, lent), (5, untouched));
            }
            table[0] = 1;
            assert_eq!([0, 1, 2].map(|lent| call(&mut table, quorum, 1, 0b11, lent)), {
                [(1, vec![]), (1, vec![0]), (1, vec![0xee, 0xee])]
            });
        }
    }

    #[test]
    fn questions_4_and_5_call_nobody() {
        let mut table = founded(1, &[10], 0);
        for lent in [0, 1, 2] {
            let after = |called: &[u8]| {
                if lent == 1 {
                    called == [0]
                } else {
                    called.iter().all(|&byte| byte == 0xee)
                }
            };
            let mut called = vec![0xee; lent];
            assert_eq!(
                Engine::default().write(
                    &mut table,
                    1,
                    1,
                    4,
                    &[1],
                    &mut called,
                    1,
                    &mut Sheet::OPEN.bytes(),
                    1
                ) >> 32,
                4
            );
            assert!(after(&called));
            called.fill(0xee);
            assert_eq!(Engine::default().read(&table, 1, 1, 4, 1, &mut [0], &mut called, 1) >> 32, 4);
            assert!(after(&called));
            called.fill(0xee);
            assert_eq!(Engine::default().read(&table, 1, 1, 0, 1, &mut [0; 2], &mut called, 1) >> 32, 5);
            assert!(after(&called));
        }
    }

    /// At version 1,000,000 a write that its own choice was enough for is refused by 8.
    #[test]
    fn a_write_at_its_limit_called_its_choice() {
        let mut table = founded(4, &[10, 20, 30, 40], 0);
        for row in 0..4 {
            table[Table::length(row, 4, 1) + ROW_HEADER + 4..][..4].copy_from_slice(&LIMIT.to_le_bytes());
        }
        assert_eq!(call(&mut table, Write, 1, 0b1111, 1), (8, vec![3]));
        assert_eq!(call(&mut table, Write, 1, 0b1011, 1), (8, vec![4]));
    }

    /// The result of row c's choice with a list of so many bytes, and the list after.
    fn choice(table: &[u8], c: u64, kind: u64, lent: usize) -> (u64, Vec<u8>) {
        let mut set = vec![0xee; lent];
        (Engine::default().choice(table, c, kind, &mut set), set)
    }

    /// Columns {1, 3} and {2, 4}. Row 5 joined, and has no list; a check without row 3 leaves it the old one.
    #[test]
    fn choices_by_hand() {
        let told = |table: &[u8], c, kind| {
            let (value, set) = choice(table, c, kind, 8);
            (value, u64::from_le_bytes(set.try_into().expect("eight bytes")))
        };
        let mut table = founded(5, &[10, 20, 30, 40], 0);
        for c in 1..=4 {
            assert_eq!([0, 1].map(|kind| told(&table, c, kind)), [(2, 0b0011), (3, 0b0111)]);
        }
        assert_eq!(Engine::default().join(&mut table, 15, 1), 5);
        assert_eq!([0, 1].map(|kind| told(&table, 5, kind)), [(0, 0); 2]);
        assert_eq!(Engine::default().check(&mut table, 1, 0b1011, &mut Sheet::OPEN.bytes()), 1);
        // Of three: columns {1, 4} and {2}.
        assert_eq!([0, 1].map(|kind| told(&table, 1, kind)), [(2, 0b0011), (3, 0b1011)]);
        assert_eq!([0, 1].map(|kind| told(&table, 3, kind)), [(2, 0b0011), (3, 0b0111)]);
        // Of 14 by document 01, the names being the places; of five in 3 rows and 2 columns, and tall of two.
        let names: Vec<u16> = (1..=14).collect();
        let set = [4, 7, 8, 12, 13, 14].map(rows::only).into_iter().sum();
        assert_eq!(told(&founded(14, &names, 0), 7, 1), (6, set));
        let five = founded(5, &[1, 2, 3, 4, 5], 0);
        assert_eq!([0, 1].map(|kind| told(&five, 1, kind)), [(2, 0b01100), (3, 0b01110)]);
        let two = founded(2, &[10, 21], 1);
        assert_eq!([1, 2].map(|c| told(&two, c, 0)), [(1, 0b01), (1, 0b10)]);
        assert_eq!([1, 2].map(|c| told(&two, c, 1)), [(2, 0b11); 2]);
    }

    #[test]
    fn questions_of_a_choice_in_order() {
        let mut table = founded(3, &[10, 20], 0);
        let untouched = |refusal: u64, lent| (refusal << 32, vec![0xee; lent]);
        for lent in [0, 7, 8, 9, 16] {
            for kind in [0, 1, 2, 255, 256, 257, 1 << 32, (1 << 32) + 1, u64::MAX] {
                for c in [0, 3, 64, 65, 257, (1 << 32) + 1, u64::MAX] {
                    assert_eq!(choice(&table, c, kind, lent), untouched(2, lent));
                }
                for c in [1, 2] {
                    match (kind, lent) {
                        (2.., _) => assert_eq!(choice(&table, c, kind, lent), untouched(4, lent)),
                        (_, 8) => assert_eq!(choice(&table, c, kind, 8).0, 2),
                        _ => assert_eq!(choice(&table, c, kind, lent), untouched(5, lent)),
                    }
                }
            }
        }
        table[0] = 1;
        for (c, kind, lent) in [(1, 0, 8), (0, 0, 8), (1, 2, 8), (1, 0, 7), (0, 2, 0)] {
            assert_eq!(choice(&table, c, kind, lent), untouched(1, lent));
        }
    }

    /// A read's choice has one machine of each column, a write's at most one column more, less one.
    #[test]
    fn choices_are_as_large_as_the_request_says() {
        for (length, mark) in (1..=64).flat_map(|length| [(length, 0), (length, crate::TALL)]).chain([(5, 1)])
        {
            let layout = crate::grid::tests::laid(length, mark);
            let Grid { rows, columns, .. } = layout.groups()[0].grid;
            for name in 1..=500 {
                assert_eq!(layout.choice(Read, name).count_ones() as usize, columns);
                assert!((layout.choice(Write, name).count_ones() as usize) < rows + columns);
            }
        }
    }

    /// A done write by row 1.
    fn write(table: &mut [u8], answering: u64, offset: u64, patch: &[u8]) {
        let result = Engine::default().write(
            table,
            1,
            answering,
            offset,
            patch,
            &mut [0],
            1,
            &mut Sheet::OPEN.bytes(),
            1,
        );
        assert_eq!(result >> 32, 0);
    }

    /// A row's window: the index of the oldest record, and the 576 bytes behind the contents.
    fn window_of(table: &[u8], row: usize) -> (u8, &[u8]) {
        let judged = Table::decode(table).expect("well formed");
        (judged.part(table, row, 1).oldest, judged.window(table, row, 1))
    }

    /// A file of 40 bytes on four machines: row 3 misses the first writes, row 4 the others, and a check marks both.
    fn behind(before: usize, missed: usize, long: Option<usize>) -> Vec<u8> {
        behind_by(Engine::default(), before, missed, long)
    }

    fn behind_by(engine: Engine, before: usize, missed: usize, long: Option<usize>) -> Vec<u8> {
        let names: Vec<u8> = [10_u16, 20, 30, 40].into_iter().flat_map(u16::to_le_bytes).collect();
        let mut table = vec![0; engine.rules.table_length(4, 40, 1)];
        assert_eq!(engine.found(&mut table, 4, 40, &names, 0, 1, &[1; 4]), 4);
        for number in 0..before {
            let patch = [number as u8 + 1; 2];
            // Not all of the choice of 10 answer, so that all that answer take part.
            assert_eq!(
                engine.write(
                    &mut table,
                    1,
                    0b1011,
                    number as u64 % 39,
                    &patch,
                    &mut [0],
                    1,
                    &mut Sheet::OPEN.bytes(),
                    1
                ) >> 32,
                0
            );
        }
        assert_eq!(engine.check(&mut table, 1, 0b0111, &mut Sheet::OPEN.bytes()), 1);
        for number in 0..missed {
            let length = if long == Some(number) { 33 } else { 1 + number % 32 };
            let (offset, patch) = (number as u64 % 8, vec![100 + number as u8; length]);
            assert_eq!(
                engine.write(&mut table, 1, 0b0111, offset, &patch, &mut [0], 1, &mut Sheet::OPEN.bytes(), 1)
                    >> 32,
                0
            );
        }
        assert_eq!(engine.check(&mut table, 1, 0b1111, &mut Sheet::OPEN.bytes()), 2);
        table
    }

    /// The window reaches back sixteen versions; a long patch cuts it short.
    #[test]
    fn a_send_by_window_leaves_what_a_whole_one_does() {
        for before in [0, 5, 20] {
            for (missed, long) in [(1, None), (15, None), (16, None), (17, None), (9, Some(4)), (9, Some(8))]
            {
                let mut table = behind(before, missed, long);
                let judged = Table::decode(&table).expect("well formed");
                let from = (1..=3).find(|&row| !judged.part(&table, row, 1).stale).expect("a current row");
                let version = (before + missed) as u32;
                assert_eq!(judged.part(&table, 4, 1).version, before as u32);
                assert_eq!(Engine::default().send(&mut table, from as u64, 4, 0b1111, 1), u64::from(version));
                let (sent, sender) = (judged.part(&table, 4, 1), judged.part(&table, from, 1));
                assert_eq!((sent.version, sent.stale, sent.desired), (version, false, 0));
                assert_eq!(judged.contents(&table, 4, 1), judged.contents(&table, from, 1));
                assert_eq!((sent.oldest, window_of(&table, 4)), (sender.oldest, window_of(&table, from)));
            }
        }
    }

    /// Other contents show which bytes a send lays: the missing patches where the window reaches back, else all.
    #[test]
    fn a_send_lays_the_missing_patches_only() {
        for (missed, whole) in [(1, false), (16, false), (17, true)] {
            let mut table = behind(3, missed, None);
            let judged = Table::decode(&table).expect("well formed");
            judged.contents_mut(&mut table, 4, 1).fill(0xee);
            let from = (1..=3).find(|&row| !judged.part(&table, row, 1).stale).expect("a current row");
            Engine::default().send(&mut table, from as u64, 4, 0b1111, 1);
            let kept = judged.contents(&table, 4, 1).iter().filter(|&&byte| byte == 0xee).count();
            // Sixteen patches: the last begins in byte 7 and has 16 bytes.
            assert_eq!(kept, if whole { 0 } else { 40 - if missed == 1 { 1 } else { 23 } });
        }
    }

    /// Only good rows of the set get the patch; a mark and a check leave windows alone.
    #[test]
    fn the_window_of_a_good_row_grows() {
        let mut table = behind(2, 3, None);
        let windows = |table: &[u8]| [1, 2, 3, 4].map(|row| window_of(table, row).1.to_vec());
        let judged = Table::decode(&table).expect("well formed");
        assert_eq!(window::chain(judged.window(&table, 1, 1), 1), (5, 5));
        assert_eq!(window::chain(judged.window(&table, 4, 1), 1), (2, 2), "row 4 keeps its own");
        let before = windows(&table);
        write(&mut table, 0b1111, 0, &[1]);
        let after = windows(&table);
        assert_eq!([0, 1, 2, 3].map(|row| before[row] == after[row]), [false, false, true, true]);
        write(&mut table, 0b1111, 0, &[1; 33]);
        assert_eq!((window_of(&table, 1), window_of(&table, 4).1), ((0, &[0; 576][..]), &after[3][..]));
    }

    /// By the scope's rules alone a table has form 1 and no windows.
    #[test]
    fn the_scope_knows_no_windows() {
        let engine = Engine { rules: Rules::Published, ..Engine::default() };
        let mut table = vec![0; 16 + 2 * 36];
        assert_eq!(engine.found(&mut table, 2, 4, &[1, 0, 2, 0], 0, 1, &[]), 2);
        assert_eq!(table[0], 1);
        assert_eq!(engine.write(&mut table, 1, 3, 0, &[7; 4], &mut [0], 1, &mut Sheet::OPEN.bytes(), 1), 1);
        assert_eq!(Engine::default().check(&mut table, 1, 3, &mut Sheet::OPEN.bytes()) >> 32, 1);
        assert_eq!(engine.check(&mut table, 1, 3, &mut Sheet::OPEN.bytes()), 0);
        assert_eq!(table[16 + 24..16 + 36], [0, 0, 0, 0, 0, 0, 0, 0, 7, 7, 7, 7]);
    }

    /// The table in another form; the buffer holds anything before.
    fn carried(table: &[u8], form: u64, length: usize) -> (u64, Vec<u8>) {
        let mut to = vec![0xee; length];
        (Engine::default().carry(table, form, &mut to), to)
    }

    /// Founds tables of form 3.
    const ONE_FILE: Engine = Engine { rules: Rules::OneFile, blunder: None };

    /// Windows are left behind on the way down, and empty on the way up; all else stays.
    #[test]
    fn up_and_down_and_down_and_up() {
        let form_3 = behind_by(ONE_FILE, 3, 4, None);
        let (refusal, form_2) = carried(&form_3, 2, 16 + 4 * 72);
        assert_eq!(
            (refusal, form_2[0], Table::decode_by(Rules::Windowless, &form_2).is_some()),
            (4, 2, true)
        );
        let (refusal, form_1) = carried(&form_3, 1, 16 + 4 * 72);
        assert_eq!((refusal, form_1[0], form_1[1..] == form_2[1..]), (4, 1, true));
        let judged = Table::decode_by(Rules::OneFile, &form_3).expect("well formed");
        let mut emptied = form_3.clone();
        for row in 1..=4 {
            judged.window_mut(&mut emptied, row, 1).fill(0);
            emptied[judged.row_at(row) + OLDEST] = 0;
            let older = &form_2[16 + 72 * (row - 1)..][..72];
            assert_eq!(older, &emptied[judged.row_at(row)..][..72]);
        }
        for older in [form_1, form_2] {
            assert_eq!(carried(&older, 3, form_3.len()), (4, emptied.clone()), "down and up");
            let (_, up) = carried(&older, 3, form_3.len());
            assert_eq!(carried(&up, older[0].into(), older.len()), (4, older), "up and down");
        }
    }

    #[test]
    fn questions_of_a_move_in_order() {
        let founded = |names: &[u16], choice| founded_by(ONE_FILE, 5, names, choice, 1);
        let plain = founded(&[10, 20, 30, 40], 0);
        let mut joined = plain.clone();
        assert_eq!(ONE_FILE.join(&mut joined, 15, 0), 5);
        let (five, tall) = (founded(&[1, 2, 3, 4, 5], 0), founded(&[10, 20], 1));
        let [short, right, long] = [-1, 0, 1].map(|more| (16 + 5 * 36_usize).wrapping_add_signed(more));
        let untouched = |refusal: u64, length| (refusal << 32, vec![0xee; length]);
        for (table, refusal) in [(&plain, 0), (&joined, 15), (&five, 15), (&tall, 15)] {
            for length in [0, short, right, long] {
                for form in [0, 3, 4, 255, 257, 258, (1 << 32) + 1, (1 << 32) + 3] {
                    assert_eq!(carried(table, form, length), untouched(12, length));
                }
                for form in [1, 2] {
                    match if form == 1 { refusal } else { 0 } {
                        0 if length == right => assert_eq!(carried(table, form, length).0 >> 32, 0),
                        0 => assert_eq!(carried(table, form, length), untouched(12, length)),
                        refusal => assert_eq!(carried(table, form, length), untouched(refusal, length)),
                    }
                }
            }
            // From form 2 there is no way to form 1, but 15 comes first.
            let (_, older) = carried(table, 2, right);
            assert_eq!(carried(&older, 1, right), untouched(if refusal == 0 { 12 } else { 15 }, right));
            assert_eq!(carried(&older, 2, right), untouched(12, right));
            // By its own form, form 1 by the scope alone.
            let form_1 = [&[1], &older[1..]].concat();
            let (up, _) = carried(&form_1, 3, table.len());
            assert_eq!(up >> 32, if refusal == 0 { 0 } else { 1 });
            for form in [0, 3, 4, 255] {
                assert_eq!(
                    carried(&[&[form], &older[1..]].concat(), 3, table.len()),
                    untouched(1, table.len())
                );
            }
        }
        assert_eq!(carried(&[], 3, 7), untouched(1, 7));
    }
}
