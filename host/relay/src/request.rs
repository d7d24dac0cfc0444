//! What a caller asks for, and how the library decides it. Everything that the relay asks the library is here and in `frame`.

use crate::Frame;
use dyngrid::{Kind, Refusal, Rows, Table};

#[derive(Clone, Debug, PartialEq, Eq, Hash)]
pub enum Request {
    Read {
        file: usize,
        offset: usize,
        length: usize,
    },
    Write {
        file: usize,
        offset: usize,
        patch: Vec<u8>,
    },
    Send {
        file: usize,
        from: usize,
        to: usize,
    },
    /// A check of all in use but these, which are left out on purpose.
    Check {
        without: Rows,
    },
    /// The coordinator's own machine, which has no row yet, joins under its name.
    Join,
    /// The rows of all that answer, to look at. No claim is made of it.
    Survey,
}

/// Whom an attempt calls, and how.
#[derive(Clone, Copy, Debug, PartialEq, Eq, Hash)]
pub struct Manner {
    pub reach: Reach,
    pub order: Order,
    pub lock: bool,
}

#[derive(Clone, Copy, Debug, PartialEq, Eq, Hash)]
pub enum Reach {
    /// The coordinator's choice, and itself.
    Choice,
    /// All rows in use.
    All,
}

/// Locks are for progress only: of calls that lock row after row, in the order of rows, none waits for another for ever.
#[derive(Clone, Copy, Debug, PartialEq, Eq, Hash)]
pub enum Order {
    /// All at once; given up where a row is busy.
    Together,
    /// One after the other, waiting for each.
    InRowOrder,
}

/// How a call ended that was decided.
#[derive(Clone, Debug, PartialEq, Eq, Hash)]
pub enum Outcome {
    /// The version or epoch, and what a read gave.
    Done {
        value: u32,
        bytes: Vec<u8>,
    },
    Refused(Refusal),
}

/// What a call makes of the rows that it heard.
pub struct Decision {
    pub outcome: Outcome,
    /// The frame from now on: the newest of those heard, and after a joining the new one.
    pub frame: Frame,
    pub before: Table,
    pub after: Table,
    /// The row that a joining hands out, and its bytes.
    pub birth: Option<(usize, Vec<u8>)>,
}

impl Request {
    /// The file whose copies the call looks at; none where it looks at whole rows.
    pub fn file(&self) -> Option<usize> {
        match self {
            Request::Read { file, .. } | Request::Write { file, .. } | Request::Send { file, .. } => {
                Some(*file)
            }
            Request::Check { .. } | Request::Join | Request::Survey => None,
        }
    }

    /// How it is tried first.
    pub fn manner(&self) -> Manner {
        let reach = match self {
            Request::Read { .. } | Request::Write { .. } => Reach::Choice,
            _ => Reach::All,
        };
        // A check that finds a row busy must wait for it and not leave it out.
        let order = if matches!(self, Request::Check { .. }) { Order::InRowOrder } else { Order::Together };
        Manner { reach, order, lock: !matches!(self, Request::Read { .. } | Request::Survey) }
    }

    /// The rows to call. `own` is the coordinator's row with its bytes, which its choice goes by.
    pub fn whom(&self, reach: Reach, frame: &Frame, own: Option<(usize, &[u8])>) -> Rows {
        let kind = match self {
            Request::Send { from, to, .. } => {
                let ends = Rows::of(&[*from, *to]).unwrap_or_default();
                // An end that this frame does not have joined since: one of the others may know of it.
                return if ends.is_subset(frame.rows()) { ends } else { frame.rows() };
            }
            Request::Check { without } => return frame.rows() - *without,
            Request::Read { .. } => Kind::Read,
            Request::Write { .. } => Kind::Write,
            Request::Join | Request::Survey => return frame.rows(),
        };
        let choice = |(row, bytes): (usize, &[u8])| {
            let table = Table::assemble(&frame.table().ok()?, [(row, bytes)]).ok()?;
            let few = table.choice(row, kind).ok().filter(|few| !few.is_empty())?;
            Some(few | Rows::of(&[row]).ok()?)
        };
        match reach {
            Reach::Choice => own.and_then(choice).unwrap_or(frame.rows()),
            Reach::All => frame.rows(),
        }
    }

    /// Decides on the rows heard, each with the bytes of [`Frame::parts`]. An error where they do not fit together.
    pub fn decide(
        &self,
        coordinator: (usize, u16),
        frame: &Frame,
        heard: &[(usize, &[u8])],
    ) -> Result<Decision, Refusal> {
        let rows = heard.iter().map(|(row, bytes)| Some((*row, self.whole(frame, bytes)?)));
        let rows: Vec<_> = rows.collect::<Option<_>>().ok_or(Refusal::Malformed)?;
        let before = Table::assemble(&frame.table()?, rows)?;
        let answering: Rows = heard.iter().map(|(row, _)| *row).collect();
        let mut decision = Decision {
            outcome: Outcome::Refused(Refusal::Malformed),
            frame: frame.clone(),
            after: before.clone(),
            before,
            birth: None,
        };
        decision.outcome = match self.made(coordinator, answering, &mut decision) {
            Ok((value, bytes)) => Outcome::Done { value, bytes },
            Err(refusal) => Outcome::Refused(refusal),
        };
        Ok(decision)
    }

    fn made(
        &self,
        (row, name): (usize, u16),
        answering: Rows,
        decision: &mut Decision,
    ) -> Result<(u32, Vec<u8>), Refusal> {
        let table = &mut decision.after;
        match self {
            Request::Read { file, offset, length } => {
                let mut bytes = vec![0; *length];
                Ok((table.file(*file).read(row, answering, *offset, &mut bytes)?.version, bytes))
            }
            Request::Write { file, offset, patch } => {
                Ok((table.file_mut(*file).write(row, answering, *offset, patch)?.version, Vec::new()))
            }
            Request::Send { file, from, to } => {
                Ok((table.file_mut(*file).send(*from, *to, answering)?, Vec::new()))
            }
            Request::Check { .. } => Ok((table.check(row, answering)?, Vec::new())),
            Request::Join => {
                // Those who answer must hold a write quorum of the list in force: then of two joinings one sees the other, and every
                // later quorum has a machine with the newest frame. A check asks just that, by question 6; it is not made.
                let lowest = answering.iter().next().ok_or(Refusal::NoQuorum)?;
                match table.clone().check(lowest, answering) {
                    Ok(_) | Err(Refusal::NotCurrent | Refusal::AtLimit) => {}
                    Err(refusal) => return Err(refusal),
                }
                let (frame, row, bytes) = decision.frame.join(name)?;
                decision.frame = frame;
                decision.birth = Some((row, bytes));
                Ok((row as u32, Vec::new()))
            }
            Request::Survey => Ok((0, Vec::new())),
        }
    }

    /// A row put together from what a machine gave of it; zeros stand for the rest.
    fn whole(&self, frame: &Frame, bytes: &[u8]) -> Option<Vec<u8>> {
        let mut row = vec![0; frame.row_len()];
        let mut from = 0;
        for part in frame.parts(self.file())? {
            let to = from + part.len();
            row[part].copy_from_slice(bytes.get(from..to)?);
            from = to;
        }
        (from == bytes.len()).then_some(row)
    }
}
