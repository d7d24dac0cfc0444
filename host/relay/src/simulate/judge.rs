//! The judge knows all: it makes the calls one at a time, each at the moment that `crates/commit` gives it (`Atomic`), and holds what
//! the relay has and tells against that.

use crate::coordinator::{Birth, Phase};
use crate::{Call, CallNumber, Change, Ended, Frame, Outcome, Request, Seat};
use dyngrid::{Refusal, Rows};
use std::collections::{BTreeMap, BTreeSet};

/// What was found wrong.
pub type Wrong = String;

#[derive(Clone, Debug, Hash)]
pub struct Judge {
    /// Frame and bytes of each row, after the calls that are done.
    rows: BTreeMap<usize, (Frame, Vec<u8>)>,
    /// The plain book of each file: its contents after each done write.
    pub books: Vec<Vec<Vec<u8>>>,
    /// Calls that were decided, and whether each row that they heard was the row of that moment.
    decided: BTreeMap<CallNumber, (Call, bool)>,
    committed: BTreeSet<CallNumber>,
    /// How many writes of each file were done when a call began.
    begun: BTreeMap<CallNumber, Vec<usize>>,
    /// Who told a call that it is busy.
    busy: BTreeSet<(CallNumber, usize)>,
}

impl Judge {
    pub fn new(files: usize, file_len: usize) -> Judge {
        Judge {
            rows: BTreeMap::new(),
            books: vec![vec![vec![0; file_len]]; files],
            decided: BTreeMap::new(),
            committed: BTreeSet::new(),
            begun: BTreeMap::new(),
            busy: BTreeSet::new(),
        }
    }

    pub fn begins(&mut self, call: CallNumber) {
        self.begun.insert(call, self.books.iter().map(|book| book.len() - 1).collect());
    }

    pub fn hears_busy(&mut self, call: CallNumber, row: usize) {
        self.busy.insert((call, row));
    }

    pub fn is_committed(&self, call: CallNumber) -> bool {
        self.committed.contains(&call)
    }

    /// A call has heard all its rows.
    pub fn looks(&mut self, call: &Call) -> Result<(), Wrong> {
        if let Request::Check { without } = call.request {
            let left_out = call.frame.rows() - without - call.rows();
            if let Some(row) = left_out.iter().find(|row| self.busy.contains(&(call.number, *row))) {
                return Err(format!("a check leaves out row {row}, which said that it is busy"));
            }
        }
        let saw = self.sees(call);
        self.decided.insert(call.number, (call.clone(), saw));
        Ok(())
    }

    /// Are the rows that the call heard those of this moment?
    fn sees(&self, call: &Call) -> bool {
        call.heard.iter().all(|heard| {
            let Some((frame, bytes)) = self.rows.get(&heard.row) else { return false };
            let Some(parts) = heard.frame.parts(call.request.file()) else { return false };
            *frame == heard.frame && parts.into_iter().flat_map(|part| &bytes[part]).eq(&heard.bytes)
        })
    }

    /// A call is noted on a disk.
    pub fn commits(&mut self, number: CallNumber, births: &[Birth]) -> Result<(), Wrong> {
        if !self.committed.insert(number) {
            return Err(format!("{number:?} is noted twice"));
        }
        if let Some((call, _)) = self.decided.remove(&number) {
            if !self.sees(&call) {
                return Err(format!(
                    "a done {:?} was decided on rows that were others when it was noted",
                    call.request
                ));
            }
            let Phase::Storing { outcome, changes, .. } = &call.phase else {
                return Err("a call that changes no row is noted".into());
            };
            for (heard, change) in call.heard.iter().zip(changes) {
                self.lay(heard.row, change);
            }
            self.enter(&call.request, outcome)?;
        }
        for birth in births {
            if self.rows.insert(birth.row, (birth.frame.clone(), birth.bytes.clone())).is_some() {
                return Err(format!("row {} is handed out twice", birth.row));
            }
        }
        Ok(())
    }

    fn lay(&mut self, row: usize, change: &Change) {
        if let Some((frame, bytes)) = self.rows.get_mut(&row) {
            if let Some(newer) = &change.frame {
                *frame = newer.clone();
            }
            for (at, new) in &change.ranges {
                bytes[*at..*at + new.len()].copy_from_slice(new);
            }
        }
    }

    fn enter(&mut self, request: &Request, outcome: &Outcome) -> Result<(), Wrong> {
        if let (Request::Write { file, offset, patch }, Outcome::Done { value, .. }) = (request, outcome) {
            let book = &mut self.books[file - 1];
            if *value as usize != book.len() {
                return Err(format!("a write gave version {value} after version {}", book.len() - 1));
            }
            let mut contents = book[book.len() - 1].clone();
            contents[*offset..*offset + patch.len()].copy_from_slice(patch);
            book.push(contents);
        }
        Ok(())
    }

    /// A caller hears how its call ended.
    pub fn tells(&mut self, number: CallNumber, ended: &Ended) -> Result<(), Wrong> {
        let began = self.begun.remove(&number);
        // A call that was given up can still be done by the machines in doubt, if its coordinator is then gone for good.
        let Ended::Told(outcome) = ended else { return Ok(()) };
        let decided = self.decided.remove(&number);
        if self.committed.contains(&number) {
            return Ok(());
        }
        let Some((call, saw)) = decided else {
            return Err(format!("{number:?} is told done, and is not noted"));
        };
        if !matches!(call.phase, Phase::Confirming { .. }) {
            return Err(format!("a {:?} is told done, and is not noted", call.request));
        }
        // A send that a survey showed as due can name a row that joined behind every frame that the call heard of.
        let unheard = matches!(call.request, Request::Send { from, to, .. }
            if !Rows::of(&[from, to]).is_ok_and(|ends| ends.is_subset(call.frame.rows())));
        match outcome {
            Outcome::Refused(Refusal::NoSuchRow) if unheard => {}
            Outcome::Refused(refusal @ (Refusal::Malformed | Refusal::NoSuchRow)) => {
                return Err(format!("a {:?} is refused: {refusal}", call.request));
            }
            _ => {}
        }
        match (&call.request, outcome, began) {
            (Request::Read { file, offset, .. }, Outcome::Done { value, bytes }, Some(began)) => {
                let version = *value as usize;
                if version < began[file - 1] {
                    return Err(format!(
                        "a read gave version {version}, and {} was done before it began",
                        began[file - 1]
                    ));
                }
                let wanted =
                    self.books[file - 1].get(version).map(|book| &book[*offset..*offset + bytes.len()]);
                if wanted != Some(&bytes[..]) {
                    return Err(format!("a read gave other bytes than version {version} has"));
                }
            }
            (Request::Write { .. }, Outcome::Done { .. }, _) => {
                return Err("a write is told done, and no row has changed".into());
            }
            _ => {}
        }
        if saw {
            Ok(())
        } else {
            Err(format!("a {:?} ended that had not seen the rows of one moment", call.request))
        }
    }

    /// What is on a machine's disk: its stored row if that call is done, else the row that it keeps.
    pub fn holds(&self, seat: &Seat) -> Result<(), Wrong> {
        let done = seat.doubt.as_ref().filter(|doubt| self.committed.contains(&doubt.call));
        let (frame, bytes) = match done {
            Some(doubt) => (&doubt.frame, &doubt.bytes),
            None => (&seat.frame, &seat.kept),
        };
        match self.rows.get(&seat.row) {
            Some((right, row)) if right == frame && row == bytes => Ok(()),
            _ => Err(format!("row {} is not what the done calls made of it", seat.row)),
        }
    }

    /// The rows that were handed out.
    pub fn rows(&self) -> Rows {
        self.rows.keys().copied().collect()
    }
}
