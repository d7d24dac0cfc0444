//! `replay`: makes the calls of a log, and compares the answers.

use crate::arguments::Arguments;
use crate::log::{self, Answer, Line, Machine, Made};
use crate::names::names;
use crate::store::Kept;
use crate::{unusable, Stop, Told};
use dyngrid::{Done, Order, Refusal, Refused, Rows, Sheet, Stopped, Table};

pub fn replay(arguments: &mut Arguments) -> Told {
    let path = arguments.word("LOG")?;
    let keep = arguments.optional();
    arguments.end()?;
    let log = std::fs::read_to_string(&path).map_err(|error| unusable(format!("{path}: {error}")))?;
    let mut player = Player::default();
    if let Some(difference) = player.play(&log).map_err(|problem| unusable(format!("{path}, {problem}")))? {
        return Err(Stop::Refused(difference.told(&path)));
    }
    if let (Some(keep), Some(table)) = (keep, player.table) {
        let kept = Kept::new(&keep, table)?;
        kept.save(kept.here)?;
    }
    Ok(format!("{} calls, {} answers compared: no difference\n", player.calls, player.compared))
}

/// Where the library answers otherwise than a log says.
#[derive(Clone, Debug, PartialEq, Eq)]
pub struct Difference {
    /// The number of the line, from 1 on, and the line.
    pub line: usize,
    pub text: String,
    /// What the log says, and what the library answers.
    pub log: String,
    pub library: String,
    /// The table before it.
    before: Option<Table>,
}

impl Difference {
    fn told(&self, path: &str) -> String {
        let before =
            self.before.as_ref().map_or(String::new(), |table| format!("\nthe table before it:\n{table:#}"));
        let Difference { line, text, log, library, .. } = self;
        format!("{path}, line {line}: {text}\n  the log says         {log}\n  the library answers  {library}{before}")
    }
}

/// The first difference of a log, if there is one.
///
/// # Errors
///
/// A line that cannot be made, with its number.
pub fn difference(log: &str) -> Result<Option<Difference>, String> {
    Player::default().play(log)
}

/// Makes the calls on its table.
#[derive(Default)]
struct Player {
    table: Option<Table>,
    /// Without it each write, round and check is lent an open one.
    sheet: Option<Sheet>,
    calls: usize,
    compared: usize,
}

impl Player {
    fn play(&mut self, log: &str) -> Result<Option<Difference>, String> {
        for (number, text) in (1..).zip(log.lines()) {
            let before = self.table.clone();
            let found = self.line(text).map_err(|problem| format!("line {number}: {problem}"))?;
            if let Some((log, library)) = found {
                return Ok(Some(Difference { line: number, text: text.trim().into(), log, library, before }));
            }
        }
        Ok(None)
    }

    /// Gives what the log says and what the library answers, if these differ.
    fn line(&mut self, text: &str) -> Result<Option<(String, String)>, String> {
        let Some(line) = log::line(text)? else { return Ok(None) };
        match line {
            Line::Table(bytes) => {
                self.table = Some(Table::from_bytes(bytes).map_err(|error| error.to_string())?);
                Ok(None)
            }
            Line::Sheet(sheet) => {
                self.sheet = Some(sheet);
                Ok(None)
            }
            Line::Leaves(bytes) => {
                self.compared += 1;
                Ok(differ(&bytes, self.begun()?.as_bytes()))
            }
            Line::Counted(bytes) => {
                self.compared += 1;
                let sheet = self.sheet.as_ref().ok_or("there is no sheet yet: begin with sheet")?;
                Ok(differ(&bytes, sheet.as_bytes()))
            }
            Line::Call(made, answer) => {
                let given = self.call(&made)?;
                self.calls += 1;
                let Some(answer) = answer else { return Ok(None) };
                self.compared += 1;
                let same = given.as_far_as(&answer) == answer;
                Ok((!same).then(|| (answer.to_string(), given.to_string())))
            }
        }
    }

    fn begun(&mut self) -> Result<&mut Table, String> {
        self.table.as_mut().ok_or_else(|| "there is no table yet: begin with found, or table".into())
    }

    fn call(&mut self, made: &Made) -> Result<Answer, String> {
        const LONGEST: usize = 1 << 16;
        Ok(match made {
            Made::Found(founding) => match founding.table() {
                Ok(table) => {
                    let used = table.used();
                    self.table = Some(table);
                    value(Ok(used as u32))
                }
                Err(refusal) => value(Err(refusal)),
            },
            Made::Join(joining) => value(joining.join(self.begun()?).map(|row| row as u32)),
            Made::Read { by, with, file, at, length } => {
                if *length > LONGEST {
                    return Err(format!("a read of {length} bytes is longer than any file"));
                }
                let table = self.begun()?;
                let (by, with) = (row(table, *by)?, rows(table, with)?);
                let mut bytes = vec![0; *length];
                let answer = called(table.file(*file).read(by, with, *at, &mut bytes));
                Answer { bytes: (answer.refusal == 0).then_some(bytes), ..answer }
            }
            Made::Write { by, with, file, club, at, patch } => {
                let mut sheet = self.lent();
                let table = self.begun()?;
                let (by, with) = (row(table, *by)?, rows(table, with)?);
                let answer = called(table.file_mut(*file).write_for(*club, &mut sheet, by, with, *at, patch));
                self.keep(sheet);
                answer
            }
            Made::Send { from, to, with, file } => {
                let table = self.begun()?;
                let (from, to, with) = (row(table, *from)?, row(table, *to)?, rows(table, with)?);
                value(table.file_mut(*file).send(from, to, with))
            }
            Made::Check { by, with } => {
                let mut sheet = self.lent();
                let table = self.begun()?;
                let (by, with) = (row(table, *by)?, rows(table, with)?);
                let answer = value(table.check_with(&mut sheet, by, with));
                self.keep(sheet);
                answer
            }
            Made::Round { with, orders } => {
                let mut sheet = self.lent();
                let table = self.begun()?;
                let with = rows(table, with)?;
                let orders: Result<Vec<Order>, String> =
                    orders.iter().map(|(by, order)| Ok(order.by_row(row(table, *by)?))).collect();
                let answer = match table.round_with(&mut sheet, with, &orders?) {
                    Ok(done) => value(Ok(done as u32)),
                    Err(Stopped { done, refusal }) => {
                        Answer { value: Some(done as u32), ..value(Err(refusal)) }
                    }
                };
                self.keep(sheet);
                answer
            }
        })
    }

    fn lent(&self) -> Sheet {
        self.sheet.clone().unwrap_or_default()
    }

    /// What a call left of the sheet, if the log has one.
    fn keep(&mut self, left: Sheet) {
        self.sheet = self.sheet.take().map(|_| left);
    }
}

/// What the log says and what there is, at the first byte that differs.
fn differ(log: &[u8], found: &[u8]) -> Option<(String, String)> {
    let at = found.iter().zip(log).position(|(one, other)| one != other);
    let at = at.unwrap_or(found.len().min(log.len()));
    let told = |bytes: &[u8]| match bytes.get(at) {
        Some(byte) => format!("byte {at} of {} is {byte:02x}", bytes.len()),
        None => format!("{} bytes", bytes.len()),
    };
    (found != log).then(|| (told(log), told(found)))
}

fn value(result: Result<u32, Refusal>) -> Answer {
    match result {
        Ok(value) => Answer { value: Some(value), ..Answer::default() },
        Err(refusal) => Answer { refusal: refusal.number(), ..Answer::default() },
    }
}

fn called(result: Result<Done, Refused>) -> Answer {
    let called = match &result {
        Ok(done) => done.called,
        Err(refused) => refused.called,
    };
    let result = result.map(|done| done.version).map_err(Refusal::from);
    Answer { called: Some(called), ..value(result) }
}

fn row(table: &Table, machine: Machine) -> Result<usize, String> {
    match machine {
        Machine::Row(row) => Ok(row),
        Machine::Named(name) => table.row_named(name).map(|view| view.row).ok_or_else(|| {
            format!("no machine has the name {name}; there are {}", names(table, table.rows()))
        }),
    }
}

fn rows(table: &Table, machines: &[Machine]) -> Result<Rows, String> {
    let one = |&machine| Rows::one(row(table, machine)?).map_err(|_| "rows are from 1 to 64".to_string());
    machines.iter().map(one).try_fold(Rows::EMPTY, |set, one| Ok(set | one?))
}
