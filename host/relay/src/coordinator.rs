//! A coordinator: the calls that it runs, and its notes of those that are done. The steps of `crates/commit` that a coordinator takes.

use crate::request::Decision;
use crate::{
    Body, CallNumber, Change, Founding, Frame, Group, Manner, Message, Order, Outcome, Reach, Request, Save,
    Seat,
};
use dyngrid::{Refusal, Rows, Table};

/// The coordinator of a machine. `start` and `notes` are on its disk; the calls under way are not.
#[derive(Clone, Debug, PartialEq, Eq, Hash)]
pub struct Coordinator {
    pub founding: Founding,
    pub name: u16,
    /// How often it was started. On the disk before its first message goes out.
    pub start: u64,
    pub begun: u64,
    pub calls: Vec<Call>,
    pub notes: Vec<Note>,
}

/// A call under way.
#[derive(Clone, Debug, PartialEq, Eq, Hash)]
pub struct Call {
    pub number: CallNumber,
    pub request: Request,
    pub manner: Manner,
    /// The coordinator's own row; 0 while it has none.
    pub by: usize,
    /// The newest frame heard of.
    pub frame: Frame,
    /// The rows to call, those that were asked, those that said they are busy, and those no longer waited for.
    pub whom: Rows,
    pub asked: Rows,
    pub busy: Rows,
    pub silent: Rows,
    pub heard: Vec<Heard>,
    pub phase: Phase,
}

/// A row that was given.
#[derive(Clone, Debug, PartialEq, Eq, Hash)]
pub struct Heard {
    pub row: usize,
    pub count: u64,
    pub frame: Frame,
    pub bytes: Vec<u8>,
}

#[derive(Clone, Debug, PartialEq, Eq, Hash)]
pub enum Phase {
    Gathering,
    /// Decided: every machine heard is to store its row.
    Storing {
        outcome: Outcome,
        changes: Vec<Change>,
        stored: Rows,
        birth: Option<Birth>,
    },
    /// Decided to change no row: every machine heard is asked again.
    Confirming {
        outcome: Outcome,
        still: Rows,
    },
}

/// A row that is to be handed out.
#[derive(Clone, Debug, PartialEq, Eq, Hash)]
pub struct Birth {
    pub row: usize,
    pub frame: Frame,
    pub bytes: Vec<u8>,
}

/// A call that is done. It is kept until every machine heard has taken its row, and every row handed out has its machine.
#[derive(Clone, Debug, PartialEq, Eq, Hash)]
pub struct Note {
    pub call: CallNumber,
    /// The frame by which the rows have their names.
    pub frame: Frame,
    pub rows: Rows,
    pub births: Vec<Birth>,
    /// Those that have; not on the disk.
    pub took: Rows,
}

/// What a coordinator does in a step: save, then say, and then the caller may hear.
#[derive(Clone, Debug)]
pub struct Step {
    pub save: Save,
    pub say: Vec<Message>,
    pub ended: Option<(CallNumber, Ended)>,
}

/// How an attempt ended.
#[derive(Clone, Debug)]
pub enum Ended {
    Told(Outcome),
    /// Over without a trace: make it anew, under a new number, in this manner.
    Anew(Why, Manner),
    Seen(Box<Table>, Rows),
}

#[derive(Clone, Copy, Debug, PartialEq, Eq, Hash)]
pub enum Why {
    /// The choice was not enough.
    TooFew,
    /// A row is locked or in doubt.
    Busy,
    /// A row is no longer what it was.
    Overtaken,
    /// A machine that had given its row is silent.
    Silent,
}

impl Step {
    const NOTHING: Step = Step { save: Save::No, say: Vec::new(), ended: None };

    fn say(say: Vec<Message>) -> Step {
        Step { say, ..Step::NOTHING }
    }
}

impl Coordinator {
    /// A coordinator that starts, for the first time or after a crash, with what is on its disk. Its new number of starts must be on the
    /// disk before its first message goes out.
    pub fn start(founding: Founding, name: u16, starts: u64, notes: Vec<Note>) -> Coordinator {
        Coordinator { founding, name, start: starts + 1, begun: 0, calls: Vec::new(), notes }
    }

    fn number(&mut self) -> CallNumber {
        self.begun += 1;
        CallNumber { name: self.name, start: self.start, count: self.begun }
    }

    /// Founds a group and hands its rows out. Founded once: a machine that has a row takes no other.
    pub fn found(&mut self, group: Group, names: &[u16]) -> Result<Step, Refusal> {
        let (frame, rows) = Frame::found(group, names)?;
        let births = rows.into_iter().enumerate().map(|(at, bytes)| Birth {
            row: at + 1,
            frame: frame.clone(),
            bytes,
        });
        let call = self.number();
        self.notes.push(Note {
            call,
            frame: frame.clone(),
            rows: Rows::EMPTY,
            births: births.collect(),
            took: Rows::EMPTY,
        });
        let outcome = Outcome::Done { value: frame.used() as u32, bytes: Vec::new() };
        Ok(Step { save: Save::First, say: self.remind(), ended: Some((call, Ended::Told(outcome))) })
    }

    /// begins: an attempt under a new number. `own` is the machine's own seat, or a frame of the group where it has none yet.
    pub fn begin(
        &mut self,
        request: Request,
        manner: Manner,
        own: Result<&Seat, &Frame>,
    ) -> (CallNumber, Step) {
        let number = self.number();
        let (by, frame, row) = match own {
            Ok(seat) => (seat.row, &seat.frame, Some((seat.row, &seat.kept[..]))),
            Err(frame) => (0, frame, None),
        };
        let mut call = Call {
            number,
            manner,
            by,
            whom: request.whom(manner.reach, frame, row),
            request,
            frame: frame.clone(),
            asked: Rows::EMPTY,
            busy: Rows::EMPTY,
            silent: Rows::EMPTY,
            heard: Vec::new(),
            phase: Phase::Gathering,
        };
        let say = call.ask(self.founding);
        self.calls.push(call);
        (number, Step::say(say))
    }

    pub fn on(&mut self, message: &Message) -> Step {
        if message.founding != self.founding || message.to != self.name || message.call.name != self.name {
            return Step::NOTHING;
        }
        let number = message.call;
        match &message.body {
            Body::InDoubt { asker } => return Step::say(self.end_of(message, *asker).into_iter().collect()),
            Body::Took => return self.took(number, message.row),
            _ => {}
        }
        let Some(at) = self.calls.iter().position(|call| call.number == number) else { return Step::NOTHING };
        let call = &mut self.calls[at];
        let row = message.row;
        let waits = call.waits_for(row);
        match (&message.body, &mut call.phase) {
            // hears
            (Body::Row { count, frame, bytes }, Phase::Gathering) if waits => {
                call.heard.push(Heard { row, count: *count, frame: frame.clone(), bytes: bytes.clone() });
                if frame.is_newer(&call.frame) {
                    call.frame = frame.clone();
                    if call.manner.reach == Reach::All {
                        call.whom |= call.request.whom(Reach::All, frame, None);
                    }
                }
                self.go_on(at)
            }
            (Body::Busy, Phase::Gathering) if waits => {
                call.busy |= one(row);
                if call.request == Request::Survey {
                    call.silent |= one(row);
                    return self.go_on(at);
                }
                match call.manner.order {
                    Order::Together => self.give_up(at, Why::Busy),
                    Order::InRowOrder => Step::NOTHING,
                }
            }
            (Body::Stored, Phase::Storing { stored, .. }) => {
                *stored |= one(row);
                let stored = *stored;
                if call.rows().is_subset(stored) {
                    self.note(at)
                } else {
                    Step::NOTHING
                }
            }
            (Body::NotStored, Phase::Storing { .. }) | (Body::NotStill, Phase::Confirming { .. }) => {
                self.give_up(at, Why::Overtaken)
            }
            (Body::Still, Phase::Confirming { still, .. }) => {
                *still |= one(row);
                let still = *still;
                if call.rows().is_subset(still) {
                    self.end(at)
                } else {
                    Step::NOTHING
                }
            }
            _ => Step::NOTHING,
        }
    }

    /// What was asked and not answered is said again.
    pub fn nudge(&self, number: CallNumber) -> Vec<Message> {
        self.calls
            .iter()
            .find(|call| call.number == number)
            .map_or(Vec::new(), |call| call.again(self.founding))
    }

    /// Does a row that it waits for say that it is busy?
    pub fn is_kept_waiting(&self, number: CallNumber) -> bool {
        let waits = |call: &Call| call.busy.iter().any(|row| call.waits_for(row));
        self.calls.iter().any(|call| call.number == number && waits(call))
    }

    /// It waits no longer: those who said nothing are away. Who said that it is busy is not.
    pub fn silence(&mut self, number: CallNumber) -> Step {
        let Some(at) = self.calls.iter().position(|call| call.number == number) else { return Step::NOTHING };
        let call = &mut self.calls[at];
        match call.phase {
            Phase::Gathering => {
                let waiting = call.asked - call.rows() - call.silent;
                if !(waiting & call.busy).is_empty() {
                    return self.give_up(at, Why::Busy);
                }
                call.silent |= waiting;
                self.go_on(at)
            }
            Phase::Storing { .. } | Phase::Confirming { .. } => self.give_up(at, Why::Silent),
        }
    }

    /// tells-take, until all have taken; and rows are handed out until their machines have them.
    pub fn remind(&self) -> Vec<Message> {
        self.notes.iter().flat_map(|note| note.tells(self.founding)).collect()
    }

    fn go_on(&mut self, at: usize) -> Step {
        let call = &mut self.calls[at];
        if !call.whom.is_subset(call.rows() | call.silent) {
            return Step::say(call.ask(self.founding));
        }
        self.decide(at)
    }

    /// decides: it hears no more rows.
    fn decide(&mut self, at: usize) -> Step {
        let name = self.name;
        let call = &mut self.calls[at];
        let rows: Vec<(usize, &[u8])> =
            call.heard.iter().map(|heard| (heard.row, &heard.bytes[..])).collect();
        let decision = match call.request.decide((call.by, name), &call.frame, &rows) {
            Ok(decision) => decision,
            Err(refusal) => return self.confirm(at, Outcome::Refused(refusal)),
        };
        if call.request == Request::Survey {
            let rows = call.rows();
            let call = self.calls.remove(at);
            return Step {
                ended: Some((call.number, Ended::Seen(Box::new(decision.before), rows))),
                ..Step::NOTHING
            };
        }
        let too_few = matches!(decision.outcome, Outcome::Refused(Refusal::NoQuorum | Refusal::NotCurrent));
        if too_few && call.manner.reach == Reach::Choice {
            return self.give_up(at, Why::TooFew);
        }
        let Decision { outcome, frame, before, after, birth } = decision;
        if matches!(outcome, Outcome::Refused(_)) || birth.is_none() && after == before {
            return self.confirm(at, outcome);
        }
        // ships
        let change = |heard: &Heard| {
            let ranges = after.changed_ranges(&before, heard.row).into_iter();
            let bytes = after.row_bytes(heard.row).unwrap_or_default();
            Change {
                frame: frame.is_newer(&heard.frame).then(|| frame.clone()),
                ranges: ranges.map(|range| (range.start, bytes[range].to_vec())).collect(),
            }
        };
        let changes = call.heard.iter().map(change).collect();
        let birth = birth.map(|(row, bytes)| Birth { row, frame: frame.clone(), bytes });
        call.frame = frame;
        call.phase = Phase::Storing { outcome, changes, stored: Rows::EMPTY, birth };
        Step::say(call.again(self.founding))
    }

    /// asks-again
    fn confirm(&mut self, at: usize, outcome: Outcome) -> Step {
        let call = &mut self.calls[at];
        if call.heard.is_empty() {
            return self.give_up(at, Why::Silent);
        }
        call.phase = Phase::Confirming { outcome, still: Rows::EMPTY };
        Step::say(call.again(self.founding))
    }

    /// notes: now the call is done.
    fn note(&mut self, at: usize) -> Step {
        let call = self.calls.remove(at);
        let Phase::Storing { outcome, birth, .. } = call.phase else { return Step::NOTHING };
        let rows = call.heard.iter().map(|heard| heard.row).collect();
        let births = birth.into_iter().collect();
        let note = Note { call: call.number, frame: call.frame, rows, births, took: Rows::EMPTY };
        let mut say = note.tells(self.founding);
        // Rows that were asked and not heard may be locked. They are not told to drop: there is a note.
        say.extend(told(self.founding, call.number, &note.frame, call.asked - rows, Body::Unlock));
        self.notes.push(note);
        Step { save: Save::First, say, ended: Some((call.number, Ended::Told(outcome))) }
    }

    /// ends: without a note.
    fn end(&mut self, at: usize) -> Step {
        let call = self.calls.remove(at);
        let locked = if call.manner.lock { call.asked } else { Rows::EMPTY };
        let say = told(self.founding, call.number, &call.frame, locked, Body::Unlock);
        let Phase::Confirming { outcome, .. } = call.phase else { return Step::NOTHING };
        Step { say, ended: Some((call.number, Ended::Told(outcome))), ..Step::NOTHING }
    }

    /// gives-up: the call is over, not done.
    fn give_up(&mut self, at: usize, why: Why) -> Step {
        let call = self.calls.remove(at);
        let concerned = if call.manner.lock { call.asked } else { Rows::EMPTY };
        let say = told(self.founding, call.number, &call.frame, concerned, Body::Drop);
        let manner = match why {
            Why::TooFew => Manner { reach: Reach::All, ..call.manner },
            Why::Silent => call.manner,
            Why::Busy | Why::Overtaken => Manner { order: Order::InRowOrder, lock: true, ..call.manner },
        };
        Step { say, ended: Some((call.number, Ended::Anew(why, manner))), ..Step::NOTHING }
    }

    /// tells-take or tells-drop, to a machine in doubt: by the note, or because the call is over and there is none. While it runs there
    /// is no answer; nor of a number that it has not used yet, which shows that its disk is not what it was.
    fn end_of(&self, message: &Message, asker: u16) -> Option<Message> {
        let number = message.call;
        let unused = number.start > self.start || number.start == self.start && number.count > self.begun;
        if unused || self.calls.iter().any(|call| call.number == number) {
            return None;
        }
        let noted = self.notes.iter().any(|note| note.call == number);
        let body = if noted { Body::Take } else { Body::Drop };
        Some(Message { founding: self.founding, to: asker, call: number, row: message.row, body })
    }

    /// forgets: when all have taken, the note need not be kept.
    fn took(&mut self, number: CallNumber, row: usize) -> Step {
        let Some(at) = self.notes.iter().position(|note| note.call == number) else { return Step::NOTHING };
        let note = &mut self.notes[at];
        note.took |= one(row);
        if !note.everyone().is_subset(note.took) {
            return Step::NOTHING;
        }
        self.notes.remove(at);
        Step { save: Save::Soon, ..Step::NOTHING }
    }
}

impl Call {
    /// The machines that it heard: R.
    pub fn rows(&self) -> Rows {
        self.heard.iter().map(|heard| heard.row).collect()
    }

    /// Was it asked, and is it still to answer?
    pub fn waits_for(&self, row: usize) -> bool {
        (self.asked - self.rows() - self.silent).contains(row)
    }

    /// Asks those who are next.
    fn ask(&mut self, founding: Founding) -> Vec<Message> {
        let left = self.whom - self.rows() - self.silent;
        let next = match self.manner.order {
            Order::Together => left,
            Order::InRowOrder => left.iter().take(1).collect(),
        } - self.asked;
        self.asked |= next;
        told(founding, self.number, &self.frame, next, self.give())
    }

    fn give(&self) -> Body {
        Body::Give { file: self.request.file(), lock: self.manner.lock }
    }

    /// What it waits for an answer to.
    fn again(&self, founding: Founding) -> Vec<Message> {
        let counts = || self.heard.iter().map(|heard| (heard.row, heard.count)).collect();
        let message = |row, body| {
            let to = self.frame.name(row)?;
            Some(Message { founding, to, call: self.number, row, body })
        };
        match &self.phase {
            Phase::Gathering => {
                told(founding, self.number, &self.frame, self.asked - self.rows() - self.silent, self.give())
            }
            Phase::Storing { changes, stored, .. } => {
                let left = self.heard.iter().zip(changes).filter(|(heard, _)| !stored.contains(heard.row));
                let store = |heard: &Heard, change: &Change| {
                    let body = Body::Store { count: heard.count, change: change.clone(), heard: counts() };
                    message(heard.row, body)
                };
                left.filter_map(|(heard, change)| store(heard, change)).collect()
            }
            Phase::Confirming { still, .. } => {
                let left = self.heard.iter().filter(|heard| !still.contains(heard.row));
                left.filter_map(|heard| message(heard.row, Body::Again { count: heard.count })).collect()
            }
        }
    }
}

impl Note {
    /// Everyone that it is kept for.
    pub fn everyone(&self) -> Rows {
        self.rows | self.births.iter().map(|birth| birth.row).collect()
    }

    /// What those are told who have not taken yet.
    fn tells(&self, founding: Founding) -> Vec<Message> {
        let mut say = told(founding, self.call, &self.frame, self.rows - self.took, Body::Take);
        for birth in self.births.iter().filter(|birth| !self.took.contains(birth.row)) {
            let body = Body::Found { frame: birth.frame.clone(), bytes: birth.bytes.clone() };
            say.extend(told(founding, self.call, &birth.frame, one(birth.row), body));
        }
        say
    }
}

/// The same, said to each of these rows.
fn told(founding: Founding, call: CallNumber, frame: &Frame, rows: Rows, body: Body) -> Vec<Message> {
    let message = |row| Some(Message { founding, to: frame.name(row)?, call, row, body: body.clone() });
    rows.iter().filter_map(message).collect()
}

fn one(row: usize) -> Rows {
    Rows::of(&[row]).unwrap_or_default()
}
