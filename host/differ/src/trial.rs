//! One case, call by call: archive against reference, against the book, and against itself.

use crate::archive::Archive;
use crate::call::{result_shown, set_shown, whole_orders, Answer, Call};
use crate::guard::Edge;
use crate::ledger::Ledger;
use crate::random::Random;
use crate::relay::{Relay, Slip};
use crate::report::{choice_told, Added, Checked, Ground, Judged, Moved, Round, Sent, Step, OTHERWISE};
use crate::rounds;
use crate::sheets;
use crate::tables::{self, Picture};
use crate::wrapper;
use reference::round::{MOST_ORDERS, ORDER};
use reference::sheet;
use reference::{lay_in_chain_order, rows, Counties, Engine, Grid, Laid, Layout, Part, Quorum, Rules};
use reference::{Shape, Sheet, Table, COUNTY, FORM, HEADER, SEVERAL, TALL};

/// Tables that have more bytes of contents have no twin, and are not looked at through the wrapper: both take their time.
const LONGEST: usize = 4_000;

fn is_long(table: &[u8]) -> bool {
    let Some(&[_, capacity, _, _, low, high, files]) = table.first_chunk() else { return false };
    let contents = usize::from(u16::from_le_bytes([low, high])) * usize::from(files.max(1));
    usize::from(capacity) * contents > LONGEST
}

/// A table and the calls made on it.
#[derive(Clone, Debug)]
pub struct Case {
    pub table: Vec<u8>,
    /// The book of the history that led to the table, if one did.
    pub ledger: Ledger,
    pub calls: Vec<Call>,
    pub edge: Edge,
}

/// The call (counted from 0) at which a case fails, and what is wrong.
#[derive(Clone, Debug)]
pub struct Failure {
    pub call: usize,
    pub what: String,
}

pub struct Trial<'a> {
    archive: &'a mut Archive,
    reference: Engine,
    table: Vec<u8>,
    ledger: Ledger,
    /// Makes every call of a founded history a second time.
    relay: Option<Relay>,
    slip: Option<Slip>,
    /// The sheet as the last write or check left it.
    sheet: Vec<u8>,
    /// How many tables there were to look at through the wrapper.
    tables: usize,
}

/// Makes all calls of a case again.
pub fn replay(archive: &mut Archive, reference: Engine, slip: Option<Slip>, case: &Case) -> Option<Failure> {
    let mut trial = Trial::new(archive, reference, case).slipping(slip);
    case.calls
        .iter()
        .enumerate()
        .find_map(|(call, made)| trial.step(made).err().map(|what| Failure { call, what }))
}

impl<'a> Trial<'a> {
    pub fn new(archive: &'a mut Archive, reference: Engine, case: &Case) -> Trial<'a> {
        archive.edge = case.edge;
        Trial::resume(archive, reference, case.table.clone(), case.ledger.clone())
    }

    /// Goes on where a history stopped.
    pub fn resume(archive: &'a mut Archive, reference: Engine, table: Vec<u8>, ledger: Ledger) -> Trial<'a> {
        Trial { archive, reference, table, ledger, relay: None, slip: None, sheet: Vec::new(), tables: 0 }
    }

    /// Lets the relay make a mistake.
    pub fn slipping(self, slip: Option<Slip>) -> Trial<'a> {
        Trial { slip, ..self }
    }

    pub fn table(&self) -> &[u8] {
        &self.table
    }

    /// The sheet as the last write or check left it.
    pub fn sheet(&self) -> &[u8] {
        &self.sheet
    }

    /// What a history leaves behind.
    #[cfg(test)]
    pub fn into_state(self) -> (Vec<u8>, Ledger) {
        (self.table, self.ledger)
    }

    /// Makes one call; gives what happened, or what is wrong with it.
    pub fn step(&mut self, call: &Call) -> Result<Step, String> {
        let before = self.table.clone();
        // A move alone judges a table by its own form.
        let judged =
            if let Call::Move { .. } = call { Picture::of_any_form(&before) } else { Picture::of(&before) };
        let ground = Ground::of(judged.as_ref());
        if self.ledger.is_open() && self.relay.is_none() && before[0] == FORM {
            self.relay = Some(Relay::open(&before, self.slip)?);
        }
        let founded = self.ledger.is_open();
        let answer = self.archive.call(&mut self.table, call)?;
        self.refer(self.reference, call, &answer, &before)?;
        let sent = send_frame(call, &answer, judged.as_ref(), &before, &self.table, founded)?;
        let moved = self.move_frame(call, &answer, judged.as_ref(), &before)?;
        let added = added(call, &answer, judged.as_ref(), &before, &self.table);
        let published = self.ask_published(call, &answer, &before, judged.as_ref(), sent)?;
        frame(call, &answer, judged.as_ref(), &before, &self.table)?;
        called_frame(call, &answer, judged.as_ref())?;
        sheet_frame(call, &answer, before != self.table)?;
        wrapper::look_at_sheet(call.sheet())?;
        if call.sheet().is_some() {
            self.sheet.clone_from(&answer.sheet);
        }
        let chosen = choice_frame(call, &answer, judged.as_ref())?;
        let former = self.ask_former(call, &answer, &before, judged.as_ref())?;
        let checked = judged.as_ref().and_then(|table| checked(call, &answer, table, &self.table));
        let mut step = Step {
            published,
            lent: lent(call),
            called: (answer.called.len() == 1).then(|| answer.called[0]),
            chosen,
            sent,
            added,
            moved,
            checked,
            former,
            ..Step::of(answer.result, ground)
        };
        if let Some(table) = &judged {
            step.files = Some(table.files);
            step.counties = Some(table.parts().len());
            let deciding = Deciding::of(call, &answer, table);
            step.decided = deciding.as_ref().and_then(|deciding| deciding.mark(table));
            step.judged = deciding.as_ref().and_then(|deciding| deciding.counties(table));
            step.newcomer = takes_in_a_county(call, &answer, table);
            step.stayed = step.called.and_then(|called| stayed(call, called, table));
            step.alone = self.ask_alone(call, &answer, &before, table)?;
            step.twin_of = self.ask_twin(call, &answer, &before, table)?;
            step.other_files = self.ask_twin_within_others(call, &answer, &before, table)?;
            step.moved_county = self.ask_twin_of_another_county(call, &answer, &before, table)?;
            step.other_sheet = self.ask_with_another_sheet(call, &answer, &before)?;
        }
        step.round = self.ask_round(call, &answer, &before, judged.as_ref())?;
        self.ledger.hear(call, &answer)?;
        step.summed = self.ledger.summed().filter(|_| call.sheet().is_some());
        step.relayed = self.relay.is_some();
        if let Some(relay) = &mut self.relay {
            relay.call(self.archive, call, &answer, &self.table)?;
        }
        if let (Call::Move { taken: true, .. }, 0) = (call, answer.result >> 32) {
            self.table.clone_from(&answer.buffer);
        }
        if self.ledger.is_open() && (self.table != before || !founded) {
            let table = Picture::of(&self.table).ok_or("a founded history leaves a malformed table")?;
            one_state_a_version(&table, &self.table)?;
        }
        step.sends = self.look(&before)?;
        Ok(step)
    }

    /// Compares a round with the writes that it stands for, and with a round that differs only where nobody reads.
    fn ask_round(
        &mut self,
        call: &Call,
        answer: &Answer,
        before: &[u8],
        table: Option<&Picture>,
    ) -> Result<Option<Round>, String> {
        let Call::Round { answering, orders, sheet } = call else { return Ok(None) };
        self.ask_singly(call, answer, before)?;
        let used = table.map(|table| table.all_used());
        let mut random = Random::new(*answering, answer.result ^ orders.len() as u64);
        let unread = rounds::unread(&mut random, orders, answer.result, used, *answering);
        let other = Call::Round { answering: *answering, orders: unread.clone(), sheet: sheet.clone() };
        let mut left = before.to_vec();
        if self.archive.call(&mut left, &other)? != *answer || left != self.table {
            return Err(format!("bytes that nobody reads alter the round: {other}"));
        }
        let wrapped = !is_long(before) && wrapper::round(call, answer, before, &self.table)?;
        let (founded, files) = (self.ledger.is_open(), table.map(|table| table.files));
        Ok(Some(Round { founded, wrapped, ..Round::of(call, answer.result, files) }))
    }

    /// Table and sheet after a round, its refusal and the number done are those of its writes, made singly up to the first refusal: by the
    /// archive, and each of these by the reference too. A 65th order comes after 64 that were done.
    fn ask_singly(&mut self, call: &Call, answer: &Answer, before: &[u8]) -> Result<(), String> {
        let (Call::Round { orders, sheet, .. }, Some(writes)) = (call, call.writes()) else { return Ok(()) };
        let writes: Vec<Call> = writes.collect();
        if writes.is_empty() {
            return Ok(());
        }
        let (mut left, mut counted, mut done, mut refusal) = (before.to_vec(), sheet.clone(), 0, 0);
        for mut write in writes {
            write.lend(&counted);
            let (mut expected_left, given) = (left.clone(), self.archive.call(&mut left, &write)?);
            let expected = write.refer(self.reference, &mut expected_left);
            compare(&given, &left, &expected, &expected_left)
                .map_err(|what| format!("of a round, write {} made singly: {what}", done + 1))?;
            counted = given.sheet;
            refusal = given.result >> 32;
            if refusal != 0 {
                break;
            }
            done += 1;
        }
        if refusal == 0 && orders.len() > ORDER * MOST_ORDERS as usize {
            refusal = 4;
        }
        let singly = refusal << 32 | done;
        if answer.result != singly {
            let [round, singly] = [answer.result, singly].map(result_shown);
            return Err(format!("a round: {round}, but its writes singly: {singly}"));
        }
        same_bytes("table of a round and of its writes singly,", &self.table, &left)?;
        same_bytes("sheet of a round and of its writes singly,", &answer.sheet, &counted)
    }

    /// Looks through the wrapper at the table, if it is the first one or a call altered it: at every small table, and at one in
    /// eight of the others, for it asks of every two rows. Gives how many sends would be done.
    fn look(&mut self, before: &[u8]) -> Result<Option<usize>, String> {
        const SMALL: usize = 8;
        if self.tables > 0 && self.table == before || is_long(&self.table) {
            return Ok(None);
        }
        self.tables += 1;
        let judged = Picture::of(&self.table);
        if !self.tables.is_multiple_of(8) && judged.as_ref().is_some_and(|table| table.used > SMALL) {
            return Ok(None);
        }
        wrapper::look(self.reference, &self.table, judged.as_ref(), SMALL)
    }

    /// A done move has the rows used as its value, and in its buffer the same rows, without windows or with empty ones. Back again
    /// it gives the original bytes, or on the way up the same rows with empty windows. No move alters the table.
    fn move_frame(
        &mut self,
        call: &Call,
        answer: &Answer,
        table: Option<&Picture>,
        before: &[u8],
    ) -> Result<Option<Moved>, String> {
        let Call::Move { form, to, taken } = call else { return Ok(None) };
        let Some(table) = table else {
            return if answer.result >> 32 == 1 { Ok(None) } else { Err("a malformed table moved".into()) };
        };
        let went_on = *taken && answer.result >> 32 == 0;
        let moved = Moved { went_on, ..Moved::of(table, *form, to.len()) };
        if moved.over == 0 {
            wrapper::carry(before, *form, answer)?;
        }
        if answer.result >> 32 != 0 {
            return Ok(Some(moved));
        }
        let rules = u8::try_from(*form).ok().and_then(Rules::of_form).ok_or("a move to no form was done")?;
        let emptied = match table.rules {
            Rules::OneFile => {
                tables::alone(&tables::alone_of(table, before, 1, Rules::Windowless), 1, Rules::OneFile)
            }
            Rules::OneCounty | Rules::Newest => return Err("a move from form 4 or 5 was done".into()),
            _ => before.to_vec(),
        };
        let expected = tables::alone_of(table, before, 1, rules);
        same_bytes("moved table", &answer.buffer, &expected)?;
        if answer.result != table.used as u64 || Picture::of_any_form(&answer.buffer).is_none() {
            return Err(format!("a move leaves no table, or gives {}", answer.result));
        }
        let back = Call::Move { form: before[0].into(), to: vec![0xa7; before.len()], taken: false };
        let returned = self.archive.call(&mut answer.buffer.clone(), &back)?;
        if returned.result != answer.result {
            return Err(format!("the way back: {}", result_shown(returned.result)));
        }
        same_bytes("table that went and came back,", &returned.buffer, &emptied)?;
        Ok(Some(moved))
    }

    /// Compares what the archive gave and left with what the engine gives and leaves.
    fn refer(&self, engine: Engine, call: &Call, answer: &Answer, before: &[u8]) -> Result<(), String> {
        let mut expected_table = before.to_vec();
        let expected = call.refer(engine, &mut expected_table);
        compare(answer, &self.table, &expected, &expected_table)
    }

    /// A table of one file whose rows all have a list in the published grid gives, without its windows and counties, what the scope's
    /// rules alone make of it, unless a check lays a list of five or of several counties. Where no founding leads, a send by window
    /// leaves other contents. Says whether they were asked.
    fn ask_published(
        &self,
        call: &Call,
        answer: &Answer,
        before: &[u8],
        table: Option<&Picture>,
        sent: Option<Sent>,
    ) -> Result<bool, String> {
        let Some(table) = table.filter(|table| table.files == 1) else { return Ok(false) };
        let of_the_scope = call.answering().is_some()
            && Ground::of(Some(table)) == Ground::Published
            && call.file().is_none_or(|file| file == 1);
        let anew = matches!(*call, Call::Check { answering, .. } if answering.count_ones() == 5 || table.several(answering));
        if !of_the_scope || anew && self.table != before {
            return Ok(false);
        }
        let engine = Engine { rules: Rules::Published, ..self.reference };
        let mut expected_table = tables::alone_of(table, before, 1, engine.rules);
        let expected = call.refer(engine, &mut expected_table);
        let left = Table::decode(&self.table);
        let after = self.left_alone(left.as_ref(), 1, engine.rules, &expected_table);
        if let (Call::Send { to, .. }, Some(Sent { like_whole: false, .. })) = (call, sent) {
            let table = Table::decode_by(engine.rules, &expected_table).ok_or("a send left no table")?;
            let contents = table.contents(&after, *to as usize, 1);
            table.contents_mut(&mut expected_table, *to as usize, 1).copy_from_slice(contents);
        }
        let compared = compare(answer, &after, &expected, &expected_table);
        compared.map(|()| true).map_err(|what| format!("by the scope's rules alone: {what}"))
    }

    /// What a call left of a file, in another form. A check where no founding leads may leave a malformed table; then only the
    /// answers are compared.
    fn left_alone(&self, left: Option<&Table>, file: usize, rules: Rules, expected: &[u8]) -> Vec<u8> {
        left.map_or_else(|| expected.to_vec(), |table| tables::alone_of(table, &self.table, file, rules))
    }

    /// The heads of a group of one county and the parts of one file are a table of form 3: by its rules it gives a read, write or send of
    /// that file the same answer and rows; so does each file for a joining and a choice, and for a check unless another file has it
    /// refused by 7. Of a group of several counties they are a group of one file. Says how many files the group has, if they were asked.
    fn ask_alone(
        &self,
        call: &Call,
        answer: &Answer,
        before: &[u8],
        table: &Picture,
    ) -> Result<Option<usize>, String> {
        if is_long(before) && table.files > 1 || answer.result >> 32 == 20 {
            return Ok(None);
        }
        let files: Vec<usize> = match call {
            Call::Found { .. } | Call::Chart { .. } | Call::Move { .. } => return Ok(None),
            Call::Check { .. } | Call::Join { .. } => (1..=table.files).collect(),
            Call::Choice { .. } => vec![table.files],
            // Of a round whose orders name several files, none is alone.
            _ => match call.file().and_then(|file| table.file(file)) {
                Some(file) => vec![file],
                None => return Ok(None),
            },
        };
        let rules = if table.several(table.all_used()) { Rules::Newest } else { Rules::OneFile };
        let engine = Engine { rules, ..self.reference };
        let mut of_one_file = call.clone();
        of_one_file.rename_files(|_| 1);
        let left = Table::decode(&self.table);
        let mut refused_by_7 = false;
        for file in files {
            let mut expected_table = tables::alone_of(table, before, file, engine.rules);
            let expected = of_one_file.refer(engine, &mut expected_table);
            let by_another = answer.result >> 32 == 7 && matches!(call, Call::Check { .. });
            refused_by_7 |= expected.result >> 32 == 7;
            if by_another && matches!(expected.result >> 32, 0 | 8) {
                continue;
            }
            let after = self.left_alone(left.as_ref(), file, engine.rules, &expected_table);
            let compared = compare(answer, &after, &expected, &expected_table);
            compared.map_err(|what| format!("file {file} as a table of one file: {what}"))?;
        }
        if answer.result >> 32 == 7 && !refused_by_7 {
            return Err("refused by 7, and every file is current".into());
        }
        Ok(Some(table.files))
    }

    /// A table of one county gives what it gave before there were counties, and so does its founding. Says whether the rules of form 4
    /// were asked.
    fn ask_former(
        &self,
        call: &Call,
        answer: &Answer,
        before: &[u8],
        table: Option<&Picture>,
    ) -> Result<bool, String> {
        if is_long(before) || answer.result >> 32 == 20 {
            return Ok(false);
        }
        let (mut expected_table, after) = match (call, table) {
            (Call::Found { counties, .. }, _) if answer.result >> 32 == 0 => {
                let founded = Table::decode(&self.table).ok_or("a founding leaves a malformed table")?;
                if counties.iter().any(|&county| county != counties[0]) {
                    return Ok(false);
                }
                (before.to_vec(), tables::former(&founded, &self.table))
            }
            (Call::Found { .. }, _) => (before.to_vec(), self.table.clone()),
            (Call::Chart { .. }, _) | (_, None) => return Ok(false),
            (_, Some(table)) if table.rules != Rules::Newest || table.several(table.all_used()) => {
                return Ok(false)
            }
            (_, Some(table)) => (tables::former(table, before), tables::former(table, &self.table)),
        };
        let engine = Engine { rules: Rules::OneCounty, ..self.reference };
        let expected = call.refer(engine, &mut expected_table);
        let compared = compare(answer, &after, &expected, &expected_table);
        compared.map(|()| true).map_err(|what| format!("by the rules of form 4: {what}"))
    }

    /// Rows that did not answer have no part in a call beyond names, links and counties: another table that differs in them gives
    /// the same. Nobody answers a joining, and a choice looks at the row of its coordinator alone. Gives the used rows, if there
    /// is such a table; a chart has none.
    fn ask_twin(
        &mut self,
        call: &Call,
        answer: &Answer,
        before: &[u8],
        table: &Table,
    ) -> Result<Option<usize>, String> {
        let Some(answering) = call.seen() else { return Ok(None) };
        let none_differs = table.all_used() & !answering == 0;
        if is_long(before) || none_differs {
            return Ok(None);
        }
        let mut random = Random::new(answering, answer.result ^ before.len() as u64);
        let mut twin = tables::twin(&mut random, before, table, answering);
        let mut expected = twin.clone();
        if self.archive.call(&mut twin, call)? != *answer {
            return Err("rows that did not answer alter the answer".into());
        }
        // The header, the links, the rows that answered and those that were not used come out the same.
        expected[..HEADER].copy_from_slice(&self.table[..HEADER]);
        for row in 1..=table.capacity {
            let place = table.row_at(row)..table.row_at(row + 1);
            let link = table.row_at(row) + LINK;
            expected[link] = self.table[link];
            if rows::has(answering | !table.all_used(), row) {
                expected[place.clone()].copy_from_slice(&self.table[place]);
            }
        }
        match difference(&twin, &expected) {
            Some(at) => Err(format!("rows that did not answer alter byte {at}")),
            None => Ok(Some(table.used)),
        }
    }

    /// Counties count with names and links: with a row that did not answer in another one, archive and reference may give another answer,
    /// and give the same. Says whether that is the answer of before, if there is such a table.
    fn ask_twin_of_another_county(
        &mut self,
        call: &Call,
        answer: &Answer,
        before: &[u8],
        table: &Picture,
    ) -> Result<Option<bool>, String> {
        let Some(answering) = call.seen() else { return Ok(None) };
        if is_long(before) {
            return Ok(None);
        }
        let mut random = Random::new(answering, answer.result ^ before.len() as u64);
        let twin = tables::twin_of_another_county(&mut random, before, table, answering);
        let Some(mut twin) = twin else { return Ok(None) };
        let mut expected_table = twin.clone();
        let given = self.archive.call(&mut twin, call)?;
        let expected = call.refer(self.reference, &mut expected_table);
        compare(&given, &twin, &expected, &expected_table)
            .map_err(|what| format!("with a row that did not answer in another county: {what}"))?;
        let same_row = |row| {
            let place = table.row_at(row)..table.row_at(row + 1);
            twin[place.clone()] == self.table[place]
        };
        Ok(Some(given == *answer && rows::members(answering & table.all_used()).all(same_row)))
    }

    /// Of a sheet that is right a write looks at the line of its club, and at what is left to share only if that is at its assured
    /// number: another sheet that has these gives the same, and keeps its other lines. Says whether there was such a sheet.
    fn ask_with_another_sheet(
        &mut self,
        call: &Call,
        answer: &Answer,
        before: &[u8],
    ) -> Result<bool, String> {
        let Call::Write { sheet, club, .. } = call else { return Ok(false) };
        let mut random = Random::new(*club, answer.result ^ before.len() as u64);
        let other = Sheet::judge(sheet).and_then(|sheet| sheets::alike(&mut random, &sheet, *club));
        let Some(other) = other.filter(|_| !is_long(before)) else { return Ok(false) };
        let mut lent = call.clone();
        lent.lend(&other.bytes());
        let mut left = before.to_vec();
        let given = self.archive.call(&mut left, &lent)?;
        let mut expected = other.bytes();
        if answer.result >> 32 == 0 {
            sheet::add(&mut expected, *club);
        }
        if given != (Answer { sheet: expected.to_vec(), ..answer.clone() }) || left != self.table {
            return Err("other lines of the sheet alter the answer".into());
        }
        Ok(true)
    }

    /// Other files have no part in a read, write, send or round: another group that differs only within them gives the same, and keeps
    /// its own parts of them. Gives the number of files, if there is such a group.
    fn ask_twin_within_others(
        &mut self,
        call: &Call,
        answer: &Answer,
        before: &[u8],
        table: &Picture,
    ) -> Result<Option<usize>, String> {
        let Some(named) = call.files(table.files) else { return Ok(None) };
        let files = (1..=table.files).filter(|&file| rows::has(named, file));
        if is_long(before) || files.clone().count() == table.files {
            return Ok(None);
        }
        let mut random = Random::new(named, answer.result ^ before.len() as u64);
        let mut twin = tables::twin_within_others(&mut random, before, table, named);
        let mut expected = twin.clone();
        for (row, file) in (1..=table.used).flat_map(|row| files.clone().map(move |file| (row, file))) {
            let part = table.part_at(row, file)..table.part_at(row, file + 1);
            expected[part.clone()].copy_from_slice(&self.table[part]);
        }
        if self.archive.call(&mut twin, call)? != *answer {
            return Err("other files alter the answer".into());
        }
        same_bytes("with other files: table", &twin, &expected)?;
        Ok(Some(table.files))
    }
}

/// The length of the list for the number called, or for a choice, if one was lent.
fn lent(call: &Call) -> Option<usize> {
    match call {
        Call::Choice { set, .. } => Some(set.len()),
        _ => call.called().map(<[u8]>::len),
    }
}

/// What the files had to do with a check that was done, or refused by 7.
fn checked(call: &Call, answer: &Answer, table: &Picture, after: &[u8]) -> Option<Checked> {
    let Call::Check { answering, .. } = *call else { return None };
    let files = table.files;
    match answer.result >> 32 {
        0 => {
            let altered = |&file: &usize| {
                (1..=table.used).any(|row| Table::part(table, after, row, file) != *table.part(row, file))
            };
            Some(Checked::Done { marked: (1..=files).filter(altered).count(), files })
        }
        7 => {
            let stale = table.stale_files(answering);
            Some(Checked::NotCurrent { only: if let [only] = stale[..] { Some(only) } else { None }, files })
        }
        _ => None,
    }
}

/// A list that decided a call: that in force among the rows that answered, or the own list of a choice's coordinator.
struct Deciding {
    list: Laid,
    quorum: Quorum,
    asked: AskedOf,
}

/// What a list was asked for: whether these rows hold a quorum, or the choice of this name.
enum AskedOf {
    Held(u64),
    Chosen(u16),
}

impl Deciding {
    /// The list that decided the call, if it came to that.
    fn of(call: &Call, answer: &Answer, table: &Picture) -> Option<Deciding> {
        let (answering, quorum) = match *call {
            Call::Read { answering, .. } => (answering, Quorum::Read),
            Call::Write { answering, .. } | Call::Check { answering, .. } => (answering, Quorum::Write),
            Call::Choice { coordinator, kind, .. } if answer.result >> 32 == 0 => {
                let own = table.row(coordinator as usize);
                let (list, asked) = (own.list, AskedOf::Chosen(own.name));
                return Some(Deciding { list, quorum: Quorum::of_kind(kind)?, asked });
            }
            _ => return None,
        };
        let put = matches!(answer.result >> 32, 0 | 6..=8 | 18 | 19);
        put.then(|| Deciding { list: table.newest(answering), quorum, asked: AskedOf::Held(answering) })
    }

    /// What it says if it is laid so.
    fn laid(&self, layout: &Layout) -> u64 {
        match self.asked {
            AskedOf::Held(answering) => layout.holds(self.quorum, answering).into(),
            AskedOf::Chosen(name) => layout.choice(self.quorum, name),
        }
    }

    /// Its mark, if it would have said something else in its other grid.
    fn mark(&self, table: &Picture) -> Option<u8> {
        let other = layout(table, other_grid(self.list, table)?);
        (self.laid(&layout(table, self.list)) != self.laid(&other)).then_some(self.list.mark)
    }

    /// What the counties had to do with it.
    fn counties(&self, table: &Picture) -> Option<Judged> {
        if !table.several(self.list.members) {
            let at_home = table.several(table.all_used()) && !self.list.is_empty();
            return at_home.then_some(Judged::AtHome);
        }
        let right = layout(table, self.list);
        let (mut below, mut above) = (right, right);
        let published = |grid: &mut Grid| *grid = Grid::of(grid.length());
        let fives = below.groups_mut().iter_mut().filter(|group| group.grid.length() == 5);
        fives.for_each(|group| published(&mut group.grid));
        if right.above.length() == 5 {
            published(&mut above.above);
        }
        let in_one = Layout::of(self.list, &table.chain, &Counties::ONE);
        let otherwise: [Layout; OTHERWISE.len()] =
            [in_one, below, above, lay_in_chain_order(self.list, table)];
        let otherwise = otherwise.map(|other| self.laid(&right) != self.laid(&other));
        Some(Judged::Several(self.list.shape(), otherwise))
    }
}

fn layout(table: &Picture, list: Laid) -> Layout {
    Layout::of(list, &table.chain, &table.counties)
}

/// The list in its other grid, if there is one: five of a county in the other grid of five, a tall list in the grid that it would have
/// in a wide table, and one of several counties in that of a tall table.
fn other_grid(list: Laid, table: &Picture) -> Option<Laid> {
    match list.mark {
        TALL => Some(Rules::Newest.lay(Shape::Wide, list.members, &table.counties)),
        SEVERAL => Some(Laid { mark: TALL, ..list }),
        mark if list.members.count_ones() == 5 => Some(Laid { mark: 1 - mark, ..list }),
        _ => None,
    }
}

/// Was it a check that took in a row of a county that the list before had no member of?
fn takes_in_a_county(call: &Call, answer: &Answer, table: &Picture) -> bool {
    let (Call::Check { answering, .. }, 0) = (call, answer.result >> 32) else { return false };
    let before = table.newest(*answering).members;
    let counties = |set| table.counties.parts(set).count();
    counties(before | answering) > counties(before)
}

fn compare(answer: &Answer, table: &[u8], expected: &Answer, expected_table: &[u8]) -> Result<(), String> {
    if answer.result != expected.result {
        let (archive, reference) = (result_shown(answer.result), result_shown(expected.result));
        return Err(format!("result: archive {archive}, reference {reference}"));
    }
    same_bytes("table", table, expected_table)?;
    same_bytes("buffer", &answer.buffer, &expected.buffer)?;
    same_bytes("number called,", &answer.called, &expected.called)?;
    same_bytes("sheet", &answer.sheet, &expected.sheet)
}

fn same_bytes(of: &str, archive: &[u8], reference: &[u8]) -> Result<(), String> {
    match difference(archive, reference) {
        Some(at) => {
            Err(format!("{of} byte {at}: archive {:02x}, reference {:02x}", archive[at], reference[at]))
        }
        None if archive.len() == reference.len() => Ok(()),
        None => Err(format!("{of}: archive {} bytes, reference {}", archive.len(), reference.len())),
    }
}

/// The first byte that differs. Equal bytes, of which there are many, are compared at once.
fn difference(one: &[u8], other: &[u8]) -> Option<usize> {
    if one == other {
        return None;
    }
    one.iter().zip(other).position(|(one, other)| one != other)
}

/// A refused call has value 0 and alters nothing but the number called, a round aside; a done one, founding and joining aside, alters only
/// rows that answered, and a write or send of these only the parts of its file.
fn frame(
    call: &Call,
    answer: &Answer,
    table: Option<&Picture>,
    before: &[u8],
    after: &[u8],
) -> Result<(), String> {
    if let Call::Round { answering, orders, .. } = call {
        return round_frame(*answering, orders, answer.result, table, before, after);
    } else if answer.result >> 32 != 0 {
        let lent_kept = call.lent().is_none_or(|lent| lent == answer.buffer);
        if before != after || !lent_kept || answer.result as u32 != 0 {
            return Err(format!("refused with {}, and something altered", result_shown(answer.result)));
        }
    } else if let Call::Chart { length, list, .. } = call {
        if before != after {
            return Err("a chart altered the table".into());
        }
        return chart_frame(*length, list, answer);
    } else if let Call::Choice { .. } | Call::Move { .. } = call {
        if before != after {
            return Err("a choice or a move altered the table".into());
        }
    } else if let Call::Join { name, county } = *call {
        return joining_frame(name, county, answer.result, before, after);
    } else if let (Some(answering), true) = (call.answering(), before != after) {
        let table = table.ok_or("a malformed table altered")?;
        let mut expected = before.to_vec();
        for row in rows::members(answering) {
            let place = match call.file() {
                // Within a row of a write or send, the part of its file.
                Some(file) => {
                    let file = table.file(file).ok_or("a write or send of no file was done")?;
                    table.part_at(row, file)..table.part_at(row, file + 1)
                }
                None => table.row_at(row)..table.row_at(row + 1),
            };
            expected[place.clone()].copy_from_slice(&after[place]);
        }
        if let Some(at) = difference(&expected, after) {
            return Err(format!("byte {at} altered, in no row that answered or not of the file"));
        }
    }
    Ok(())
}

/// A round, done or refused, has as its value how many of its orders were done, at most 64: all of them if it was done, none of a list
/// that ends inside an order. It alters only rows that answered, and of these only the parts of files that its done orders name.
fn round_frame(
    answering: u64,
    orders: &[u8],
    result: u64,
    table: Option<&Picture>,
    before: &[u8],
    after: &[u8],
) -> Result<(), String> {
    let (refusal, done) = (result >> 32, result as u32 as usize);
    let (count, is_whole) = (orders.len() / ORDER, orders.len().is_multiple_of(ORDER));
    let most = if is_whole { count.min(MOST_ORDERS as usize) } else { 0 };
    if done > most || refusal == 0 && (done != count || !is_whole) {
        return Err(format!("a round of {} bytes: {}", orders.len(), result_shown(result)));
    }
    if before == after {
        return if done == 0 { Ok(()) } else { Err(format!("{done} orders were done, and nothing altered")) };
    }
    let table = table.ok_or("a malformed table altered")?;
    let mut expected = before.to_vec();
    for order in whole_orders(orders).take(done) {
        let file = table.file(order.file.into()).ok_or("an order of no file was done")?;
        for row in rows::members(answering) {
            let place = table.part_at(row, file)..table.part_at(row, file + 1);
            expected[place.clone()].copy_from_slice(&after[place]);
        }
    }
    match difference(&expected, after) {
        Some(at) => {
            Err(format!("byte {at} altered, in no row that answered or not of a file of done orders"))
        }
        None => Ok(()),
    }
}

/// A done send leaves the receiver unmarked with the sender's version and window, and its contents as they were but for the
/// sender's latest patches, or as the sender's. In a founded history they are the sender's.
fn send_frame(
    call: &Call,
    answer: &Answer,
    table: Option<&Picture>,
    before: &[u8],
    after: &[u8],
    founded: bool,
) -> Result<Option<Sent>, String> {
    let (Call::Send { from, to, file, .. }, 0) = (call, answer.result >> 32) else { return Ok(None) };
    let table = table.ok_or("a send on a malformed table was done")?;
    let (from, to) = (*from as usize, *to as usize);
    let file = table.file(*file).ok_or("a send of no file was done")?;
    let (sender, receiver) = (*table.part(from, file), *table.part(to, file));
    let expected = Part { stale: false, desired: 0, ..sender };
    let left = Table::part(table, after, to, file);
    if left != expected || table.window(after, to, file) != table.window(before, from, file) {
        return Err(format!("a send leaves row {to} with {left:?}"));
    }
    let like_whole = table.contents(after, to, file) == table.contents(before, from, file);
    let behind = (sender.version - receiver.version) as usize;
    let sent = Sent { founded, behind, patches: tables::patches(table, before, from, file), like_whole };
    if !like_whole && (founded || !sent.by_window()) {
        return Err(format!("other contents than of a whole send: {sent:?}"));
    }
    Ok(Some(sent))
}

/// What a done write added to the window of the first row that took it.
fn added(
    call: &Call,
    answer: &Answer,
    table: Option<&Picture>,
    before: &[u8],
    after: &[u8],
) -> Option<Added> {
    let (Call::Write { patch, file, .. }, 0) = (call, answer.result >> 32) else { return None };
    let (table, file) = (table?, table?.file(*file)?);
    let took = |&row: &usize| Table::part(table, after, row, file).version != table.part(row, file).version;
    let row = (1..=table.used).find(took)?;
    Some(Added { length: patch.len(), patches: tables::patches(table, before, row, file) })
}

/// In a founded history rows of one version of a file have the same contents and the same window.
fn one_state_a_version(table: &Picture, bytes: &[u8]) -> Result<(), String> {
    for file in 1..=table.files {
        let version = |row: usize| table.part(row, file).version;
        let end = |row: usize| table.part_at(row, file + 1);
        let state =
            |row: usize| (table.part(row, file).oldest, &bytes[table.contents_at(row, file)..end(row)]);
        let mut rows: Vec<usize> = (1..=table.used).collect();
        rows.sort_by_key(|&row| version(row));
        let alike = |pair: &[usize]| version(pair[0]) != version(pair[1]) || state(pair[0]) == state(pair[1]);
        if let Some(pair) = rows.windows(2).find(|pair| !alike(pair)) {
            return Err(format!(
                "rows {pair:?} have one version of file {file}, and other contents or windows"
            ));
        }
    }
    Ok(())
}

/// The own choice of the coordinator of a read or write, which answers, and how its own list is laid.
fn own_choice(call: &Call, table: &Picture) -> Option<(Quorum, u64, Layout)> {
    let (coordinator, quorum) = match *call {
        Call::Read { coordinator, .. } => (coordinator, Quorum::Read),
        Call::Write { coordinator, .. } => (coordinator, Quorum::Write),
        _ => return None,
    };
    let own = table.rows.get((coordinator as usize).checked_sub(1)?)?;
    let layout = layout(table, own.list);
    Some((quorum, layout.choice(quorum, own.name), layout))
}

/// Did the call that says this number stay with the own choice? None if the number does not tell, or nobody was called.
fn stayed(call: &Call, called: u8, table: &Picture) -> Option<bool> {
    let (_, choice, _) = own_choice(call, table)?;
    let (chosen, all) = (choice.count_ones(), table.used as u32);
    (chosen != all && called != 0).then_some(u32::from(called) == chosen)
}

/// Is so much a choice in this grid: for a write at most as many as it has rows and columns, less one, for a read as many as it has
/// columns?
fn few(grid: &Grid, quorum: Quorum, count: usize) -> bool {
    match quorum {
        Quorum::Read => count == grid.columns,
        Quorum::Write => (1..grid.rows + grid.columns).contains(&count),
    }
}

/// A list for the number called that has not one byte stays as it was. In one of one byte there is 0 if the call was refused
/// by 1 to 5 or 16; all used rows if it was refused by 6 or 7; and otherwise these, or as many as a choice has in the grid of the own
/// list, if that is of one county.
fn called_frame(call: &Call, answer: &Answer, table: Option<&Picture>) -> Result<(), String> {
    let Some(lent) = call.called() else { return Ok(()) };
    let [called] = answer.called[..] else {
        let kept = answer.called == lent && answer.result >> 32 != 0;
        return if kept {
            Ok(())
        } else {
            Err("a list that has not one byte was not refused and left alone".into())
        };
    };
    let called = usize::from(called);
    let told = match (answer.result >> 32, table) {
        (1..=5 | 16, _) => called == 0,
        (6 | 7, Some(table)) => called == table.used,
        (_, Some(table)) => {
            let chosen = own_choice(call, table).is_some_and(|(quorum, choice, own)| match own.groups() {
                [of_all] => few(&of_all.grid, quorum, called),
                _ => choice != 0 && called == choice.count_ones() as usize,
            });
            called == table.used || chosen
        }
        (_, None) => false,
    };
    if told {
        Ok(())
    } else {
        Err(format!("{called} machines called by a call with {}", result_shown(answer.result)))
    }
}

/// A done write adds one to the count of its club, and so does each done order of a round; a check that changes the table sets all counts
/// to 0; every other byte of a sheet stays, and any other refused call leaves it as it was. It is right after a done call.
fn sheet_frame(call: &Call, answer: &Answer, changed: bool) -> Result<(), String> {
    let Some(lent) = call.sheet() else { return same_bytes("sheet", &answer.sheet, &[]) };
    let mut expected = lent.to_vec();
    let orders = if let Call::Round { .. } = call { answer.result as u32 as usize } else { 0 };
    if answer.result >> 32 == 0 || orders > 0 {
        let mut sheet = Sheet::judge(lent).ok_or("a call with a wrong sheet was done")?;
        let mut count = |club: u64| {
            sheet.line(club).ok_or("a write of no club was done")?;
            sheet.lines[club as usize - 1].count += 1;
            Ok::<(), &str>(())
        };
        match call {
            Call::Write { club, .. } => count(*club)?,
            Call::Round { orders: list, .. } => {
                whole_orders(list).take(orders).try_for_each(|order| count(order.club.into()))?;
            }
            _ if changed => sheet.lines.iter_mut().for_each(|line| line.count = 0),
            _ => {}
        }
        expected = sheet.bytes().to_vec();
        Sheet::judge(&expected).ok_or("a done call leaves a wrong sheet")?;
    }
    same_bytes("sheet", &answer.sheet, &expected)
}

/// A done choice tells a quorum of the coordinator's own list, of members of that list and in each county that it has some of no more
/// than the grid has rows and columns, less one (a read's: as many as it has columns), and so of these counties; or no row if that
/// list is empty. Its value is how many. Gives its place in `CHOICES`.
fn choice_frame(call: &Call, answer: &Answer, table: Option<&Picture>) -> Result<Option<usize>, String> {
    let Call::Choice { coordinator, kind, .. } = *call else { return Ok(None) };
    if answer.result >> 32 != 0 {
        return Ok(None);
    }
    let table = table.ok_or("a choice on a malformed table was done")?;
    let own = (coordinator as usize).checked_sub(1).and_then(|place| table.rows.get(place));
    let own = own.ok_or("the choice of no row was done")?;
    let quorum = Quorum::of_kind(kind).ok_or("a choice of another kind was done")?;
    let told =
        <[u8; 8]>::try_from(&answer.buffer[..]).map_err(|_| "a set of other than eight bytes was told")?;
    let set = u64::from_le_bytes(told);
    let layout = layout(table, own.list);
    let chosen_in = |members: &[u8]| members.iter().filter(|&&row| rows::has(set, row.into())).count();
    let counties = layout.groups().iter().map(|group| (&group.grid, chosen_in(layout.members(group))));
    let chosen: Vec<(&Grid, usize)> = counties.filter(|&(_, count)| count > 0).collect();
    let sized = few(&layout.above, quorum, chosen.len())
        && chosen.into_iter().all(|(grid, count)| few(grid, quorum, count));
    let fits = if own.list.is_empty() { set == 0 } else { layout.holds(quorum, set) && sized };
    if !fits || set & !own.list.members != 0 || answer.result != u64::from(set.count_ones()) {
        return Err(format!("{} is no choice, with {}", set_shown(set), result_shown(answer.result)));
    }
    Ok(Some(choice_told(quorum, (!own.list.is_empty()).then_some(own.list.mark))))
}

/// A done chart lists rising sets of its members from the first place on; every other byte of the list stays.
fn chart_frame(length: u64, list: &[u8], answer: &Answer) -> Result<(), String> {
    let Some((listed, rest)) = answer.buffer.split_at_checked(2 * answer.result as usize) else {
        return Err(format!("{} sets have no room in {} bytes", answer.result, list.len()));
    };
    if rest != &list[listed.len()..] {
        return Err("a chart altered bytes behind its sets".into());
    }
    let sets: Vec<u16> = listed.chunks(2).map(|set| u16::from_le_bytes([set[0], set[1]])).collect();
    let of_members = sets.iter().all(|&set| u64::from(set) & !rows::first(length as usize) == 0);
    if sets.is_empty() || !of_members || !sets.is_sorted_by(|one, next| one < next) {
        return Err(format!("no rising sets of {length} members: {sets:?}"));
    }
    Ok(())
}

/// Where the header keeps the count of used rows and the first row of the chain, and a row its link.
const COUNT: usize = 2;
const FIRST: usize = 3;
const LINK: usize = 2;

fn stride(table: &[u8]) -> usize {
    (table.len() - HEADER) / usize::from(table[1])
}

/// A done joining gives the next row; that row gets the name, the county and the link that was before it, and is zero otherwise.
/// The count grows by one and the link before leads to the row; every other byte stays. The table is well formed.
fn joining_frame(name: u16, county: u64, value: u64, before: &[u8], after: &[u8]) -> Result<(), String> {
    let row = before[COUNT] + 1;
    if value != u64::from(row) {
        return Err(format!("joined as row {value}, but the next one is {row}"));
    }
    let row_at = |row: u8| HEADER + usize::from(row - 1) * stride(before);
    // No link led to the row before.
    let mut links = std::iter::once(FIRST).chain((1..row).map(|other| row_at(other) + LINK));
    let link = links.find(|&link| after[link] == row).ok_or("no link leads to the new row")?;
    let mut expected = before.to_vec();
    expected[COUNT] = row;
    expected[link] = row;
    let joined = &mut expected[row_at(row)..][..stride(before)];
    joined.fill(0);
    joined[..2].copy_from_slice(&name.to_le_bytes());
    joined[LINK] = before[link];
    joined[COUNTY] = u8::try_from(county).map_err(|_| format!("joined from county {county}"))?;
    match difference(&expected, after) {
        Some(at) => {
            Err(format!("a joining leaves {:02x} in byte {at}, and not {:02x}", after[at], expected[at]))
        }
        None if Table::decode(after).is_none() => Err("a joining leaves a malformed table".into()),
        None => Ok(()),
    }
}

#[cfg(test)]
mod tests {
    use super::*;
    use crate::tables::{self, Size};
    use reference::round::Order;

    /// Every byte counts: with another value in any one of them the joining is found out.
    #[test]
    fn the_frame_of_a_joining_is_every_byte() {
        let engine = Engine::default();
        for case in 0..100 {
            let mut random = Random::new(5, case);
            let used = random.between(1, 9);
            let (capacity, file_len) = (random.between(used + 1, 12), random.between(1, 9));
            let size = Size { used, capacity, file_len, files: random.between(1, 2) };
            let before = tables::well_formed(&mut random, size);
            let (name, county) = (random.between(1, 65_535) as u16, random.between(1, 8) as u64);
            let mut after = before.clone();
            let value = engine.join(&mut after, name, county);
            let frame =
                |name, county, value, after: &[u8]| joining_frame(name, county, value, &before, after);
            assert_eq!((frame(name, county, value, &after), value), (Ok(()), used as u64 + 1));
            assert!(frame(name, county, value + 1, &after).is_err());
            assert!(frame(name ^ 1, county, value, &after).is_err());
            assert!(frame(name, county ^ 1, value, &after).is_err());
            assert!(frame(name, county + 256, value, &after).is_err());
            for at in 0..after.len() {
                let mut altered = after.clone();
                altered[at] ^= 1 << random.between(0, 7);
                assert!(frame(name, county, value, &altered).is_err(), "byte {at}");
            }
        }
    }

    #[test]
    fn a_chart_that_strays_is_found_out() {
        let frame = |result, buffer: &[u8]| {
            let answer = Answer { result, buffer: buffer.to_vec(), ..Answer::default() };
            frame(&Call::Chart { length: 4, mark: 0, list: vec![9; 7] }, &answer, None, &[1], &[1])
        };
        assert_eq!(frame(2, &[3, 0, 6, 0, 9, 9, 9]), Ok(()));
        for strayed in
            [[3, 0, 6, 0, 0, 9, 9], [3, 0, 6, 0, 9, 9, 0], [6, 0, 3, 0, 9, 9, 9], [3, 0, 3, 0, 9, 9, 9]]
        {
            assert!(frame(2, &strayed).is_err());
        }
        assert!(frame(2, &[3, 0, 16, 0, 9, 9, 9]).is_err() && frame(2, &[3, 0, 6, 1, 9, 9, 9]).is_err());
        assert!(frame(0, &[9; 7]).is_err() && frame(4, &[9; 7]).is_err());
        assert_eq!(frame(17 << 32, &[9; 7]), Ok(()));
        assert!(frame(17 << 32 | 1, &[9; 7]).is_err() && frame(5 << 32, &[0; 7]).is_err());
    }

    /// Four machines, columns {1, 3} and {2, 4}; row 5 has no list.
    #[test]
    fn a_wrong_choice_is_found_out() {
        let mut bytes = vec![0; Table::length(5, 1, 1)];
        Engine::default().found(&mut bytes, 5, 1, &tables::names_in_bytes(&[10, 20, 30, 40]), 0, 1, &[1; 4]);
        Engine::default().join(&mut bytes, 50, 1);
        let table = Picture::of(&bytes);
        let told = |coordinator, kind, result, set: u64| {
            let answer = Answer { result, buffer: set.to_le_bytes().to_vec(), ..Answer::default() };
            choice_frame(&Call::Choice { coordinator, kind, set: vec![9; 8] }, &answer, table.as_ref()).ok()
        };
        assert_eq!((told(1, 0, 2, 0b0011), told(1, 1, 3, 0b0111)), (Some(Some(0)), Some(Some(5))));
        assert_eq!([0, 1].map(|kind| told(5, kind, 0, 0)), [Some(Some(4)), Some(Some(9))]);
        // No quorum, too many, an outsider, a wrong value; a row, a kind and a list that are none.
        let wrong = [(2, 0b0101), (3, 0b0111), (3, 0b1_0011), (3, 0b0011), (0, 0)];
        assert!(wrong.into_iter().all(|(value, set)| told(1, 0, value, set).is_none()));
        assert!([(4, 0b1111), (2, 0b0011)].into_iter().all(|(value, set)| told(1, 1, value, set).is_none()));
        assert!([0, 6, (1 << 32) + 1].into_iter().all(|row| told(row, 0, 2, 0b0011).is_none()));
        assert!(told(1, 2, 2, 0b0011).is_none() && told(5, 0, 5, 0b1_1111).is_none());
        assert_eq!(told(6, 2, 2 << 32, 9), Some(None), "refused");
        // A refused one leaves the list, and no choice alters the table.
        let call = Call::Choice { coordinator: 1, kind: 0, set: vec![9; 8] };
        let frame = |result, set: u8, after: u8| {
            let answer = Answer { result, buffer: vec![set; 8], ..Answer::default() };
            frame(&call, &answer, table.as_ref(), &[1], &[after]).is_ok()
        };
        assert_eq!([frame(5 << 32, 9, 1), frame(5 << 32, 0, 1), frame(2, 0, 1)], [true, false, true]);
        assert_eq!([frame(5 << 32, 9, 0), frame(2, 0, 0), frame(5 << 32 | 1, 9, 1)], [false; 3]);
    }

    /// Four machines, columns {1, 3} and {2, 4}: a write's choice has three of them, a read's two.
    #[test]
    fn a_wrong_number_called_is_found_out() {
        let mut bytes = vec![0; Table::length(4, 1, 1)];
        Engine::default().found(&mut bytes, 4, 1, &tables::names_in_bytes(&[10, 20, 30, 40]), 0, 1, &[1; 4]);
        let table = Picture::of(&bytes);
        let (coordinator, answering, offset, length, file) = (1, 15, 0, 1, 1);
        let told = |refusal: u64, lent: &[u8], after: &[u8]| {
            let answer = Answer {
                result: refusal << 32,
                buffer: Vec::new(),
                called: after.to_vec(),
                ..Answer::default()
            };
            let (buffer, patch, called) = (vec![0], vec![0], lent.to_vec());
            let calls = [
                Call::Read { coordinator, answering, offset, length, buffer, called: called.clone(), file },
                Call::Write {
                    coordinator,
                    answering,
                    offset,
                    patch,
                    called,
                    file,
                    sheet: Sheet::OPEN.bytes().to_vec(),
                    club: 1,
                },
            ];
            calls.map(|call| called_frame(&call, &answer, table.as_ref()).is_ok())
        };
        assert_eq!([0, 1, 2, 3, 4, 5].map(|called| told(0, &[9], &[called])), {
            [[false, false], [false, true], [true, true], [false, true], [true, true], [false, false]]
        });
        for refusal in [1, 2, 3, 4, 5, 16] {
            assert_eq!(
                [0, 2, 4].map(|called| told(refusal, &[9], &[called])),
                [[true; 2], [false; 2], [false; 2]]
            );
            assert_eq!((told(refusal, &[], &[]), told(refusal, &[9, 9], &[9, 9])), ([true; 2], [true; 2]));
            assert_eq!(told(refusal, &[9, 9], &[0, 9]), [false; 2]);
        }
        for refusal in [6, 7] {
            assert_eq!(
                [0, 3, 4].map(|called| told(refusal, &[9], &[called])),
                [[false; 2], [false; 2], [true; 2]]
            );
        }
        assert_eq!((told(0, &[], &[]), told(0, &[9, 9], &[9, 9])), ([false; 2], [false; 2]));
    }

    /// Four machines, two files; a send of the second one that went by window left the receiver as it should be, and another byte
    /// anywhere is found out, that of its contents in a founded history.
    #[test]
    fn a_wrong_send_is_found_out() {
        let mut before = vec![0; Table::length(4, 3, 2)];
        let (engine, file) = (Engine::default(), 2);
        engine.found(&mut before, 4, 3, &tables::names_in_bytes(&[10, 20, 30, 40]), 0, 2, &[1; 4]);
        engine.check(&mut before, 1, 0b0111, &mut Sheet::OPEN.bytes());
        for byte in 1..=3 {
            assert_eq!(
                engine.write(&mut before, 1, 0b0111, 0, &[byte], &mut [0], 2, &mut Sheet::OPEN.bytes(), 1),
                byte.into()
            );
        }
        engine.check(&mut before, 1, 0b1111, &mut Sheet::OPEN.bytes());
        let table = Picture::of(&before);
        let mut after = before.clone();
        let call = Call::Send { from: 1, to: 4, answering: 0b1111, file: 2 };
        let answer = call.refer(engine, &mut after);
        let sent =
            |after: &[u8], founded| send_frame(&call, &answer, table.as_ref(), &before, after, founded);
        let expected = Sent { founded: true, behind: 3, patches: 3, like_whole: true };
        assert_eq!(sent(&after, true), Ok(Some(expected)));
        let kept = |after: &[u8]| frame(&call, &answer, table.as_ref(), &before, after).is_ok();
        assert!(kept(&after));
        let judged = Picture::of(&after).expect("well formed");
        assert_eq!(one_state_a_version(&judged, &after), Ok(()));
        let part = judged.part_at(4, file)..judged.row_at(5);
        let contents = judged.contents_at(4, file)..judged.window_at(4, file);
        for at in part.clone() {
            let mut altered = after.clone();
            altered[at] ^= 1;
            // Bytes 2 and 3 of a part are zero in every well-formed table.
            let of_no_field = (2..4).contains(&(at - part.start));
            assert_eq!(sent(&altered, true).is_ok(), of_no_field, "byte {at}");
            assert_eq!(sent(&altered, false).is_ok(), of_no_field || contents.contains(&at), "byte {at}");
            assert!(kept(&altered), "byte {at}");
            let oldest = part.start + 1;
            let mut seen = judged.clone();
            seen.parts[3][file - 1].oldest = altered[oldest];
            let state = at >= contents.start || at == oldest;
            assert_eq!(one_state_a_version(&seen, &altered).is_err(), state, "byte {at}");
        }
        // The parts of the file in all rows that answered may alter, and nothing else.
        for at in 0..after.len() {
            let of_the_file =
                (1..=4).any(|row| (judged.part_at(row, 2)..judged.part_at(row, 3)).contains(&at));
            let mut altered = after.clone();
            altered[at] ^= 1;
            assert_eq!(kept(&altered), of_the_file, "byte {at}");
        }
        // A whole send leaves the sender's contents wherever it is made.
        for row in 1..=4 {
            judged.window_mut(&mut before, row, file).fill(0);
            before[judged.part_at(row, file) + 1] = 0;
        }
        let table = Picture::of(&before);
        let mut after = before.clone();
        let answer = call.refer(engine, &mut after);
        let sent = |after: &[u8]| send_frame(&call, &answer, table.as_ref(), &before, after, false).is_ok();
        assert!(sent(&after));
        for at in contents {
            after[at] ^= 1;
            assert!(!sent(&after), "byte {at}");
            after[at] ^= 1;
        }
    }

    /// Every byte of the second buffer counts, the way back too.
    #[test]
    fn a_wrong_move_is_found_out() {
        let mut archive = Archive::new();
        for (rules, form) in
            [(Rules::Published, 3), (Rules::Windowless, 3), (Rules::OneFile, 1), (Rules::OneFile, 2)]
        {
            let mut random = Random::new(5, form);
            let size = Size { used: 3, capacity: 4, file_len: 2, files: 1 };
            let mut before = tables::published(&mut random, size, rules);
            let table = Picture::of_any_form(&before);
            let target = Rules::of_form(form as u8).expect("a form");
            let call = Call::Move { form, to: vec![7; target.table_length(4, 2, 1)], taken: false };
            let answer = call.refer(Engine::default(), &mut before);
            let mut trial = Trial::resume(&mut archive, Engine::default(), before.clone(), Ledger::default());
            let mut frame =
                |answer: &Answer| trial.move_frame(&call, answer, table.as_ref(), &before).is_ok();
            assert!(frame(&answer));
            assert!(!frame(&Answer { result: answer.result + 1, ..answer.clone() }));
            for at in 0..answer.buffer.len() {
                let mut altered = answer.clone();
                altered.buffer[at] ^= 1;
                assert!(!frame(&altered), "byte {at}");
            }
            assert!(
                !frame(&Answer { result: 12 << 32, ..answer.clone() }),
                "refused, and the wrapper moves it"
            );
            assert!(trial.move_frame(&call, &answer, None, &before).is_err(), "a malformed table moved");
        }
    }

    /// Three files on four machines, the second of which row 4 is behind in, and a third one that nobody wrote.
    fn group() -> Vec<u8> {
        let mut table = vec![0; Table::length(4, 2, 3)];
        let engine = Engine::default();
        engine.found(&mut table, 4, 2, &tables::names_in_bytes(&[10, 20, 30, 40]), 0, 3, &[1; 4]);
        for (file, answering) in [(1, 0b0111), (2, 0b0111), (2, 0b1011)] {
            assert_eq!(
                engine.write(&mut table, 1, answering, 0, &[7], &mut [0], file, &mut Sheet::OPEN.bytes(), 1)
                    >> 32,
                0
            );
        }
        table
    }

    /// Every byte of the parts of the file counts, and every byte of other files that a call leaves.
    #[test]
    fn other_files_that_have_a_part_are_found_out() {
        let (mut archive, before) = (Archive::new(), group());
        let table = Picture::of(&before).expect("well formed");
        let called = vec![0];
        let (coordinator, answering, offset, patch, file) = (1, 0b1111, 1, vec![9], 2);
        let (sheet, club) = (Sheet::OPEN.bytes().to_vec(), 16);
        let write = Call::Write { coordinator, answering, offset, patch, called, file, sheet, club };
        let mut after = before.clone();
        let answer = write.refer(Engine::default(), &mut after);
        let mut asked = |answer: &Answer, after: &[u8]| {
            let mut trial = Trial::resume(&mut archive, Engine::default(), after.to_vec(), Ledger::default());
            let alone = trial.ask_alone(&write, answer, &before, &table).is_ok();
            [trial.ask_twin_within_others(&write, answer, &before, &table).is_ok(), alone]
        };
        assert_eq!(asked(&answer, &after), [true; 2]);
        assert_eq!(asked(&Answer { result: answer.result + 1, ..answer.clone() }, &after), [false; 2]);
        assert_eq!(asked(&Answer { called: vec![9], ..answer.clone() }, &after), [false; 2]);
        for at in table.part_at(2, 2)..table.part_at(2, 3) {
            let mut altered = after.clone();
            altered[at] ^= 1;
            assert!(!asked(&answer, &altered)[0], "byte {at}");
            // By itself the file is compared as the reference reads it, if it is well formed.
            let judged = Table::decode(&altered).is_some();
            assert_eq!(asked(&answer, &altered)[1], !judged, "byte {at}");
        }
    }

    /// A check of four or three machines marks in each file by itself, and is refused by 7 if one file has it so.
    #[test]
    fn a_wrong_check_of_a_group_is_found_out() {
        let (mut archive, mut before) = (Archive::new(), group());
        let engine = Engine::default();
        // Its counts are 0, cleared or not.
        let sheet = Sheet::OPEN.bytes().to_vec();
        let mut asked = |call: &Call, result, before: &[u8], after: &[u8]| {
            let answer = Answer { result, sheet: sheet.clone(), ..Answer::default() };
            let table = Picture::of(before).expect("well formed");
            let trial = Trial::resume(&mut archive, engine, after.to_vec(), Ledger::default());
            let alone = trial.ask_alone(call, &answer, before, &table);
            (alone, checked(call, &answer, &table, after))
        };
        let check = |coordinator, answering| Call::Check { coordinator, answering, sheet: sheet.clone() };
        let mut after = before.clone();
        assert_eq!(engine.check(&mut after, 1, 0b1101, &mut Sheet::OPEN.bytes()), 1);
        let three = check(1, 0b1101);
        let marked = Some(Checked::Done { marked: 2, files: 3 });
        assert_eq!(asked(&three, 1, &before, &after), (Ok(Some(3)), marked));
        let table = Picture::of(&after).expect("well formed");
        // Row 4 desires version 1 of the first file, and version 2 of the second.
        for (file, desired) in [(1, 2), (2, 3)] {
            let mut altered = after.clone();
            table.write_part(&mut altered, 4, file, &Part { desired, ..*table.part(4, file) });
            assert!(asked(&three, 1, &before, &altered).0.is_err(), "file {file}");
        }
        assert!(asked(&three, 7 << 32, &before, &before).0.is_err(), "every file is current");
        // Rows 3 and 4 are stale in the second file, and of the first one row 3 has the write.
        before = after;
        let two = check(3, 0b1100);
        let refused = Some(Checked::NotCurrent { only: Some(2), files: 3 });
        assert_eq!(asked(&two, 7 << 32, &before, &before), (Ok(Some(3)), refused));
        assert!(asked(&two, 2, &before, &before).0.is_err(), "the second file is not");
    }

    /// Orders that a list of bytes begins with, and a sheet.
    fn round_of(orders: &[Order], over: usize, sheet: &Sheet) -> Call {
        let mut orders: Vec<u8> = orders.iter().flat_map(Order::bytes).collect();
        orders.resize(orders.len() + over, 0);
        Call::Round { answering: 0b0111, orders, sheet: sheet.bytes().to_vec() }
    }

    const ONE: Order = Order { coordinator: 1, length: 1, offset: 0, patch: [9; 8], file: 1, club: 5 };

    /// Rows that answered may alter in the files of done orders, refused or not; nothing else may, nor may the number done be another.
    #[test]
    fn a_wrong_round_is_found_out() {
        let (mut archive, before) = (Archive::new(), group());
        let table = Picture::of(&before).expect("well formed");
        let [third, nobody] = [Order { file: 3, ..ONE }, Order { coordinator: 9, ..ONE }];
        for (orders, refusal, done) in [(&[ONE, third][..], 0, 2), (&[ONE, third, nobody, ONE], 2, 2)] {
            let call = round_of(orders, 0, &Sheet::OPEN);
            let mut after = before.clone();
            let answer = call.refer(Engine::default(), &mut after);
            assert_eq!(answer.result, refusal << 32 | done);
            let kept =
                |answer: &Answer, after: &[u8]| frame(&call, answer, Some(&table), &before, after).is_ok();
            assert!(kept(&answer, &after) && !kept(&answer, &before));
            for at in 0..after.len() {
                let of_done = |row| [1, 3].into_iter().any(|file| part_of(&table, row, file).contains(&at));
                let mut altered = after.clone();
                altered[at] ^= 1;
                assert_eq!(kept(&answer, &altered), (1..=3).any(of_done), "byte {at}");
            }
            let mut asked = |answer: &Answer, after: &[u8]| {
                let mut trial =
                    Trial::resume(&mut archive, Engine::default(), after.to_vec(), Ledger::default());
                trial.ask_round(&call, answer, &before, Some(&table)).is_ok()
            };
            assert!(asked(&answer, &after));
            for result in [answer.result ^ 1, answer.result ^ 1 << 32, 0] {
                let wrong = Answer { result, ..answer.clone() };
                assert!(!asked(&wrong, &after), "{}", result_shown(result));
            }
            for at in [8, 5 * sheet::LINE - 4, 195] {
                let mut wrong = answer.clone();
                wrong.sheet[at] ^= 1;
                assert!(!asked(&wrong, &after) && sheet_frame(&call, &wrong, true).is_err(), "byte {at}");
            }
            let mut altered = after.clone();
            altered[table.contents_at(1, 1)] ^= 1;
            assert!(!asked(&answer, &altered) && sheet_frame(&call, &answer, true).is_ok());
        }
        // None of a list that ends inside an order, nor more than 64 or than it has; all of it if it was done.
        let told = |call: &Call, result, after: &[u8]| {
            frame(call, &Answer { result, ..Answer::default() }, Some(&table), &before, after).is_ok()
        };
        let mut after = before.clone();
        round_of(&[ONE; 70], 0, &Sheet::OPEN).refer(Engine::default(), &mut after);
        let seventy = round_of(&[ONE; 70], 0, &Sheet::OPEN);
        assert!(told(&seventy, 4 << 32 | 64, &after));
        assert!(![4 << 32 | 65, 64, 65, 70].into_iter().any(|result| told(&seventy, result, &after)));
        let broken = round_of(&[ONE; 2], 3, &Sheet::OPEN);
        assert!(told(&broken, 4 << 32, &before) && !told(&broken, 4 << 32, &after));
        assert!(![4 << 32 | 1, 0, 2].into_iter().any(|result| told(&broken, result, &after)));
        let empty = round_of(&[], 0, &Sheet::OPEN);
        assert!(told(&empty, 0, &before) && told(&empty, 2 << 32, &before));
        assert!(!told(&empty, 0, &after) && !told(&empty, 2 << 32 | 1, &before));
    }

    fn part_of(table: &Table, row: usize, file: usize) -> std::ops::Range<usize> {
        table.part_at(row, file)..table.part_at(row, file + 1)
    }

    /// Every byte of a sheet counts after a write and after a check, done or refused.
    #[test]
    fn a_wrong_sheet_is_found_out() {
        let mut random = Random::new(5, 0);
        let mut lent = sheets::right(&mut random, false);
        lent.lines[4] = sheet::Line { assured: 1, ceiling: 2, count: 1 };
        lent.total = 900;
        let (mut counted, mut cleared) = (lent, lent);
        counted.lines[4].count = 2;
        cleared.lines[4].count = 0;
        let [lent, counted, cleared] = [lent, counted, cleared].map(|sheet| sheet.bytes().to_vec());
        let (coordinator, answering, offset, patch, called, file) = (1, 1, 0, vec![0], vec![0], 1);
        let sheet = lent.clone();
        let check = Call::Check { coordinator, answering, sheet: lent.clone() };
        let write = Call::Write { coordinator, answering, offset, patch, called, file, sheet, club: 5 };
        let frame = |call: &Call, result, changed, sheet: &[u8]| {
            let answer = Answer { result, sheet: sheet.to_vec(), ..Answer::default() };
            sheet_frame(call, &answer, changed).is_ok()
        };
        for (call, result, changed, expected) in [
            (&write, 3, true, &counted),
            (&write, 18 << 32, false, &lent),
            (&check, 3, true, &cleared),
            (&check, 3, false, &lent),
            (&check, 6 << 32, false, &lent),
        ] {
            assert!(frame(call, result, changed, expected) && !frame(call, result, changed, &[]));
            for at in 0..expected.len() {
                let mut altered = expected.clone();
                altered[at] ^= 1 << random.between(0, 7);
                assert!(!frame(call, result, changed, &altered), "byte {at}");
            }
        }
        let read = Call::Choice { coordinator, kind: 0, set: vec![0; 8] };
        assert!(frame(&read, 1, false, &[]) && !frame(&read, 1, false, &[0]));
    }

    /// A row in the wrong place of the chain has one link before it too, but the names no longer rise.
    #[test]
    fn a_joining_out_of_order_is_found_out() {
        let blundering = Engine { blunder: Some(reference::Blunder::LinkTooFar), ..Engine::default() };
        let mut before = vec![0; Table::length(3, 1, 1)];
        blundering.found(&mut before, 3, 1, &tables::names_in_bytes(&[10, 20]), 0, 1, &[1; 2]);
        let mut after = before.clone();
        let value = blundering.join(&mut after, 15, 1);
        assert_eq!(
            joining_frame(15, 1, value, &before, &after),
            Err("a joining leaves a malformed table".to_string())
        );
    }
}
