//! A machine: it keeps its row, and at most one stored row beside it. The steps of `crates/commit` that a machine takes.

use crate::{Body, CallNumber, Change, Fate, Founding, Frame, Message};
use dyngrid::Rows;

/// How many of the calls that it took last a machine can name.
const TAKEN: usize = 32;

/// A machine of a founding. Founding, name, seat and `buried` are on its disk; lock and `agreed` are not.
#[derive(Clone, Debug, PartialEq, Eq, Hash)]
pub struct Machine {
    pub founding: Founding,
    pub name: u16,
    /// None until a founding or a joining hands out its row.
    pub seat: Option<Seat>,
    /// Machines that are gone for good, as the operator said.
    pub buried: Vec<u16>,
    /// The call that the row is locked for. It keeps calls from getting in each other's way, and no claim needs it.
    pub lock: Option<CallNumber>,
    /// The rows that hold the call in doubt too, as they said.
    pub agreed: Rows,
}

/// What a machine keeps: one record, written as a whole.
#[derive(Clone, Debug, PartialEq, Eq, Hash)]
pub struct Seat {
    pub row: usize,
    pub frame: Frame,
    pub kept: Vec<u8>,
    /// How many rows it has taken. It goes out with the row and comes back with the store.
    pub count: u64,
    pub doubt: Option<Doubt>,
    /// The calls of the latest rows taken, the newest last, for machines that ask; none for a row taken for no call.
    pub taken: Vec<Option<CallNumber>>,
}

/// A row stored for a call of which the end is not known.
#[derive(Clone, Debug, PartialEq, Eq, Hash)]
pub struct Doubt {
    pub call: CallNumber,
    pub frame: Frame,
    pub bytes: Vec<u8>,
    /// The rows of the call with their counts.
    pub heard: Vec<(usize, u64)>,
}

/// When what is kept must be on the disk.
#[derive(Clone, Copy, Debug, PartialEq, Eq, PartialOrd, Ord)]
pub enum Save {
    /// It has not changed.
    No,
    /// With the next write; nothing is lost if it is not.
    Soon,
    /// Before the messages go out.
    First,
}

/// What a machine does after a message: save, then say.
#[derive(Clone, Debug, PartialEq, Eq)]
pub struct Answer {
    pub save: Save,
    pub say: Option<Message>,
}

impl Answer {
    const NOTHING: Answer = Answer { save: Save::No, say: None };
}

impl Machine {
    /// A machine that has no row yet.
    pub fn new(founding: Founding, name: u16) -> Machine {
        Machine { founding, name, seat: None, buried: Vec::new(), lock: None, agreed: Rows::EMPTY }
    }

    /// A crash: it has what is on its disk.
    pub fn crash(&mut self) {
        self.lock = None;
        self.agreed = Rows::EMPTY;
    }

    /// Lets the lock go, as when the coordinator is silent for long.
    pub fn unlock(&mut self) {
        self.lock = None;
    }

    pub fn on(&mut self, message: &Message) -> Answer {
        if message.founding != self.founding || message.to != self.name {
            return Answer::NOTHING;
        }
        let say = |body| Some(reply(message, message.call.name, body));
        let Some(seat) = &mut self.seat else { return self.found(message) };
        // An answer to an inquiry is about another's row.
        if let Body::Knows(fate) = message.body {
            return self.learn(message.call, message.row, fate);
        }
        if message.row != seat.row {
            return Answer::NOTHING;
        }
        let call = message.call;
        let buried = self.buried.contains(&call.name);
        let in_doubt_for = |seat: &Seat| seat.doubt.as_ref().is_some_and(|doubt| doubt.call == call);
        match &message.body {
            // Who says that it holds has promised to hear nothing more of the one that is gone.
            Body::Give { .. } | Body::Store { .. } | Body::Take | Body::Drop if buried => Answer::NOTHING,
            // gives
            Body::Give { file, lock } => {
                let locked = *lock && self.lock.is_some_and(|by| by != call);
                let Some(parts) = seat.frame.parts(*file) else { return Answer::NOTHING };
                if seat.doubt.is_some() || locked {
                    return Answer { save: Save::No, say: say(Body::Busy) };
                }
                if *lock {
                    self.lock = Some(call);
                }
                let bytes = parts.into_iter().flat_map(|part| &seat.kept[part]).copied().collect();
                let row = Body::Row { count: seat.count, frame: seat.frame.clone(), bytes };
                Answer { save: Save::No, say: say(row) }
            }
            // stores, reports-stored
            Body::Store { count, change, heard } => {
                if in_doubt_for(seat) {
                    return Answer { save: Save::No, say: say(Body::Stored) };
                }
                if seat.doubt.is_some() || *count != seat.count {
                    return Answer { save: Save::No, say: say(Body::NotStored) };
                }
                seat.doubt = seat.prepared(call, change, heard);
                if seat.doubt.is_none() {
                    return Answer { save: Save::No, say: say(Body::NotStored) };
                }
                self.agreed = Rows::EMPTY;
                Answer { save: Save::First, say: say(Body::Stored) }
            }
            // takes, reports-took
            Body::Take => {
                let held = in_doubt_for(seat);
                if held {
                    self.take();
                }
                Answer { save: if held { Save::First } else { Save::No }, say: say(Body::Took) }
            }
            // drops
            Body::Drop => {
                self.lock = self.lock.filter(|by| *by != call);
                if !in_doubt_for(seat) {
                    return Answer::NOTHING;
                }
                seat.doubt = None;
                Answer { save: Save::Soon, say: None }
            }
            Body::Unlock => {
                self.lock = self.lock.filter(|by| *by != call);
                Answer::NOTHING
            }
            // confirms
            Body::Again { count } => {
                let still = seat.doubt.is_none() && *count == seat.count;
                Answer { save: Save::No, say: say(if still { Body::Still } else { Body::NotStill }) }
            }
            // It has its row: handed out twice.
            Body::Found { .. } => Answer { save: Save::No, say: say(Body::Took) },
            Body::Inquire { asker, count } => {
                let (fate, save) = seat.fate(call, *count, buried);
                Answer { save, say: Some(reply(message, *asker, Body::Knows(fate))) }
            }
            _ => Answer::NOTHING,
        }
    }

    /// A machine without a row takes the one that is handed out under its name.
    fn found(&mut self, message: &Message) -> Answer {
        let Body::Found { frame, bytes } = &message.body else { return Answer::NOTHING };
        if frame.name(message.row) != Some(self.name) || bytes.len() != frame.row_len() {
            return Answer::NOTHING;
        }
        self.seat = Some(Seat {
            row: message.row,
            frame: frame.clone(),
            kept: bytes.clone(),
            count: 0,
            doubt: None,
            taken: Vec::new(),
        });
        Answer { save: Save::First, say: Some(reply(message, message.call.name, Body::Took)) }
    }

    /// A machine in doubt asks its coordinator, again and again, also after a crash of either. Silence is no answer.
    pub fn ask(&self) -> Option<Message> {
        let (seat, doubt) = self.in_doubt()?;
        let (founding, call) = (self.founding, doubt.call);
        Some(Message {
            founding,
            to: call.name,
            call,
            row: seat.row,
            body: Body::InDoubt { asker: self.name },
        })
    }

    /// Where the coordinator is silent for long, it asks the other machines of the call.
    pub fn inquire(&self) -> Vec<Message> {
        let Some((seat, doubt)) = self.in_doubt() else { return Vec::new() };
        let others = doubt.heard.iter().filter(|(row, _)| *row != seat.row);
        let ask = |&(row, count): &(usize, u64)| {
            let body = Body::Inquire { asker: self.name, count };
            Some(Message { founding: self.founding, to: doubt.frame.name(row)?, call: doubt.call, row, body })
        };
        others.filter_map(ask).collect()
    }

    fn in_doubt(&self) -> Option<(&Seat, &Doubt)> {
        let seat = self.seat.as_ref()?;
        Some((seat, seat.doubt.as_ref()?))
    }

    /// Another machine of the call in doubt has told what it knows. One that has taken shows that the call is noted; one that never will
    /// store shows that it is not, and never will be.
    fn learn(&mut self, call: CallNumber, row: usize, fate: Fate) -> Answer {
        let Some(seat) =
            self.seat.as_mut().filter(|seat| seat.doubt.as_ref().is_some_and(|d| d.call == call))
        else {
            return Answer::NOTHING;
        };
        match fate {
            Fate::Took => {
                self.take();
                Answer { save: Save::First, say: None }
            }
            Fate::Never => {
                seat.doubt = None;
                Answer { save: Save::Soon, say: None }
            }
            Fate::Holds => {
                self.agreed |= Rows::of(&[row]).unwrap_or_default();
                Answer { save: if self.agree() { Save::First } else { Save::No }, say: None }
            }
            Fate::Unknown => Answer::NOTHING,
        }
    }

    /// The operator says that this machine is gone for good, its disk with it. From now on nothing that its coordinator said is obeyed.
    /// Where every machine of a call of it holds the row, the call is done.
    pub fn bury(&mut self, name: u16) -> Answer {
        if !self.buried.contains(&name) {
            self.buried.push(name);
        }
        self.agree();
        Answer { save: Save::First, say: None }
    }

    /// Takes the row in doubt where all machines of its call hold theirs. In the words of `crates/commit`: the call is noted in the place
    /// of its coordinator, for every machine of it has stored.
    fn agree(&mut self) -> bool {
        let Some((seat, doubt)) = self.in_doubt().filter(|(_, doubt)| self.buried.contains(&doubt.call.name))
        else {
            return false;
        };
        let all = (doubt.rows() - self.agreed).iter().all(|row| row == seat.row);
        if all {
            self.take();
        }
        all
    }

    /// What the operator may decide where machines of the call are gone for good, its coordinator among them, and all others hold: the call
    /// is dropped. If it was done it is lost, and nothing else. (It must not be taken: a machine that is gone may have gone on with
    /// another call instead.) Else it gives the rows that must be heard first.
    pub fn operator_drops(&mut self) -> Result<Answer, Rows> {
        let Some((seat, doubt)) = self.in_doubt() else { return Ok(Answer::NOTHING) };
        let is_gone = |row: &usize| doubt.frame.name(*row).is_some_and(|name| self.buried.contains(&name));
        let left: Rows =
            (doubt.rows() - self.agreed).iter().filter(|row| *row != seat.row && !is_gone(row)).collect();
        if !self.buried.contains(&doubt.call.name) || !left.is_empty() {
            return Err(left);
        }
        if let Some(seat) = &mut self.seat {
            seat.doubt = None;
            seat.counted(None);
        }
        Ok(Answer { save: Save::First, say: None })
    }

    fn take(&mut self) {
        self.lock = None;
        if let Some(seat) = &mut self.seat {
            seat.take();
        }
    }
}

impl Doubt {
    /// The machines of the call.
    fn rows(&self) -> Rows {
        self.heard.iter().map(|(row, _)| *row).collect()
    }
}

impl Seat {
    /// The stored row: the one that it keeps, with the change laid over it. None if the change does not fit in.
    fn prepared(&self, call: CallNumber, change: &Change, heard: &[(usize, u64)]) -> Option<Doubt> {
        let mut bytes = self.kept.clone();
        for (at, new) in &change.ranges {
            bytes.get_mut(*at..at.checked_add(new.len())?)?.copy_from_slice(new);
        }
        let frame = change.frame.clone().unwrap_or_else(|| self.frame.clone());
        Some(Doubt { call, frame, bytes, heard: heard.to_vec() })
    }

    /// The stored row is its row, the count is one more, in doubt no more: one write of the disk.
    fn take(&mut self) {
        if let Some(doubt) = self.doubt.take() {
            self.frame = doubt.frame;
            self.kept = doubt.bytes;
            self.counted(Some(doubt.call));
        }
    }

    fn counted(&mut self, call: Option<CallNumber>) {
        self.count += 1;
        self.taken.push(call);
        if self.taken.len() > TAKEN {
            self.taken.remove(0);
        }
    }

    /// What it knows of a call to which it gave its row at this count.
    ///
    /// If it still has that count and is not in doubt, the store may be under way. It takes its own row once more, as a call
    /// on itself alone would, and the store then comes too late.
    fn fate(&mut self, call: CallNumber, count: u64, buried: bool) -> (Fate, Save) {
        if self.doubt.as_ref().is_some_and(|doubt| doubt.call == call) {
            return (if buried { Fate::Holds } else { Fate::Unknown }, Save::No);
        }
        if count == self.count {
            if self.doubt.is_some() {
                // It holds another call, so not this one; and of a coordinator that is gone it obeys no store.
                return (if buried { Fate::Never } else { Fate::Unknown }, Save::No);
            }
            self.counted(None);
            return (Fate::Never, Save::First);
        }
        let since = self.count.checked_sub(count).and_then(|since| usize::try_from(since).ok());
        let taken =
            since.and_then(|since| self.taken.len().checked_sub(since)).and_then(|at| self.taken.get(at));
        let fate = match taken {
            Some(by) if *by == Some(call) => Fate::Took,
            Some(_) => Fate::Never,
            None => Fate::Unknown,
        };
        (fate, Save::No)
    }
}

fn reply(message: &Message, to: u16, body: Body) -> Message {
    Message { founding: message.founding, to, call: message.call, row: message.row, body }
}
