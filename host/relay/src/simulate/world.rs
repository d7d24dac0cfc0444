//! Nodes, their disks and the network, as one value.

use super::judge::{Judge, Wrong};
use super::shared::Shared;
use super::slip::Slip;
use crate::coordinator::{Birth, Phase};
use crate::{
    Answer, Body, Call, CallNumber, Change, Coordinator, Ended, Fate, Founding, Frame, Group, Machine,
    Manner, Message, Note, Outcome, Request, Save, Seat, Step,
};
use dyngrid::{Refusal, Rows};

/// A machine and its coordinator, in one process.
#[derive(Clone, Debug, Hash)]
pub struct Node {
    pub machine: Machine,
    pub coordinator: Coordinator,
    pub disk: Disk,
    pub up: bool,
    /// Gone for good, its disk with it.
    pub gone: bool,
    backup: Option<Seat>,
}

#[derive(Clone, Debug, Hash)]
pub struct Disk {
    seat: Option<Seat>,
    buried: Vec<u16>,
    start: u64,
    notes: Vec<Note>,
}

/// A crash in the middle of a step: is what changed on the disk, and how many messages went out?
#[derive(Clone, Copy, Debug)]
pub struct Crash {
    pub saved: bool,
    pub said: usize,
}

/// How steps end: none crashes, or this one does so.
pub type Ending = Option<Crash>;

/// What a node does in a step.
struct Out {
    save: Save,
    say: Vec<Message>,
    ended: Option<(CallNumber, Ended)>,
}

impl From<Answer> for Out {
    fn from(answer: Answer) -> Out {
        Out { save: answer.save, say: answer.say.into_iter().collect(), ended: None }
    }
}

impl From<Step> for Out {
    fn from(step: Step) -> Out {
        Out { save: step.save, say: step.say, ended: step.ended }
    }
}

#[derive(Clone, Debug, Hash)]
pub struct World {
    pub founding: Founding,
    pub nodes: Vec<Shared<Node>>,
    pub net: Vec<Shared<Message>>,
    pub judge: Shared<Judge>,
    pub slip: Option<Slip>,
    /// For `AsksEarly`: answers to the second round that came during the first.
    early: Vec<Message>,
    /// Attempts that ended, for whoever runs the world.
    pub ended: Vec<(CallNumber, Request, Over)>,
    /// Requests under way.
    pub running: Vec<(CallNumber, Request)>,
}

/// How an attempt ended, as far as a schedule cares.
#[derive(Clone, Debug, Hash, PartialEq, Eq)]
pub enum Over {
    Done(u32),
    Refused(u32),
    Anew(Manner),
    Seen(Vec<u8>, Rows),
}

impl World {
    /// So many machines with an empty disk each, named 1, 2, 3, ..
    pub fn new(founding: Founding, nodes: usize, group: Group, slip: Option<Slip>) -> World {
        let node = |name| Node {
            machine: Machine::new(founding, name),
            coordinator: Coordinator::start(founding, name, 0, Vec::new()),
            disk: Disk { seat: None, buried: Vec::new(), start: 1, notes: Vec::new() },
            up: true,
            gone: false,
            backup: None,
        };
        World {
            founding,
            nodes: (1..=nodes as u16).map(|name| node(name).into()).collect(),
            net: Vec::new(),
            judge: Judge::new(group.files, group.file_len).into(),
            slip,
            early: Vec::new(),
            ended: Vec::new(),
            running: Vec::new(),
        }
    }

    fn slips(&self, slip: Slip) -> bool {
        self.slip == Some(slip)
    }

    /// Node 1 founds the group on the first machines and hands the rows out.
    pub fn found(&mut self, group: Group, machines: usize) -> Result<(), Wrong> {
        let names: Vec<u16> = (1..=machines as u16).collect();
        let step = self.nodes[0].coordinator.found(group, &names).map_err(|refusal| refusal.to_string())?;
        self.finish(0, step.into(), None)
    }

    /// A node begins an attempt. One without a row has the frame that it was told of.
    pub fn begin(
        &mut self,
        at: usize,
        request: Request,
        manner: Manner,
        frame: &Frame,
        ending: Ending,
    ) -> Result<(), Wrong> {
        let node = &mut *self.nodes[at];
        let own = node.machine.seat.as_ref().ok_or(frame);
        let (number, step) = node.coordinator.begin(request.clone(), manner, own);
        self.judge.begins(number);
        self.running.push((number, request));
        self.finish(at, step.into(), ending)
    }

    /// The message at this place of the network arrives.
    pub fn deliver(&mut self, place: usize, ending: Ending) -> Result<(), Wrong> {
        let message = self.net.swap_remove(place).into_inner();
        let Some(at) = self.nodes.iter().position(|node| node.machine.name == message.to && node.up) else {
            return Ok(());
        };
        if message.body.is_for_coordinator() {
            self.to_coordinator(at, message, ending)
        } else {
            self.to_machine(at, message, ending)
        }
    }

    fn to_machine(&mut self, at: usize, mut message: Message, ending: Ending) -> Result<(), Wrong> {
        let slip = self.slip;
        let slips = |wanted| slip == Some(wanted);
        if slips(Slip::AnyFounding) {
            message.founding = self.founding;
        }
        let machine = &mut self.nodes[at].machine;
        if let (Some(seat), Body::Store { count, .. }) = (&mut machine.seat, &mut message.body) {
            let other = seat.doubt.as_ref().is_some_and(|doubt| doubt.call != message.call);
            if slips(Slip::StoresOver) && other && *count == seat.count {
                seat.doubt = None;
            }
            if slips(Slip::StoresLate) && seat.doubt.is_none() {
                *count = seat.count;
            }
        }
        let (before, lock, buried) = (machine.seat.clone(), machine.lock, machine.buried.clone());
        if slips(Slip::HoldsLoosely) && matches!(message.body, Body::Drop | Body::Take) {
            machine.buried.clear();
        }
        let doubt = before.as_ref().and_then(|seat| seat.doubt.as_ref()).map(|doubt| doubt.call);
        let mut answer = if slips(Slip::SaysTook) && message.body == Body::Take && doubt == Some(message.call)
        {
            let body = Body::Took;
            Answer { save: Save::No, say: Some(Message { to: message.call.name, body, ..message.clone() }) }
        } else {
            machine.on(&message)
        };
        machine.buried = buried;
        if slips(Slip::KeepsLocks) {
            machine.lock = lock.or(machine.lock);
        }
        let seats = machine.seat.as_mut().zip(before);
        if let (Some((seat, before)), Some(said)) = (seats, answer.say.as_mut()) {
            match (&message.body, &mut said.body) {
                (Body::Store { .. }, said @ Body::NotStored) if slips(Slip::SaysStored) => {
                    *said = Body::Stored
                }
                (Body::Store { .. }, Body::Stored) if slips(Slip::KeepsAtOnce) => {
                    if let Some(doubt) = seat.doubt.take() {
                        (seat.kept, seat.frame, seat.count) = (doubt.bytes, doubt.frame, seat.count + 1);
                    }
                }
                (Body::Take, _) if slips(Slip::TakesUncounted) && seat.count > before.count => {
                    seat.count = before.count;
                    seat.taken = before.taken;
                }
                (Body::Again { count }, said @ Body::NotStill) => {
                    let late = slips(Slip::ConfirmsLate) && seat.doubt.is_none();
                    if late || slips(Slip::ConfirmsDoubt) && *count == seat.count {
                        *said = Body::Still;
                    }
                }
                (Body::Inquire { .. }, Body::Knows(Fate::Never)) if slips(Slip::NeverUnfenced) => {
                    seat.count = before.count;
                    seat.taken = before.taken;
                }
                (Body::Inquire { .. }, Body::Knows(fate @ Fate::Took)) if slips(Slip::NeverTook) => {
                    *fate = Fate::Never
                }
                _ => {}
            }
        }
        // The machines that are left have noted the call in its coordinator's place.
        let took = doubt.filter(|call| {
            let seat = self.nodes[at].machine.seat.as_ref();
            matches!(message.body, Body::Knows(Fate::Holds))
                && seat.is_some_and(|seat| seat.taken.last() == Some(&Some(*call)))
        });
        if let Some(call) = took.filter(|call| !self.judge.is_committed(*call)) {
            self.judge.commits(call, &[])?;
        }
        self.finish(at, answer.into(), ending)
    }

    fn to_coordinator(&mut self, at: usize, mut message: Message, ending: Ending) -> Result<(), Wrong> {
        let slip = self.slip;
        let slips = |wanted| slip == Some(wanted);
        if slips(Slip::AnyFounding) {
            message.founding = self.founding;
        }
        let coordinator = &mut self.nodes[at].coordinator;
        let waits = |call: &Call| call.number == message.call && call.waits_for(message.row);
        if message.body == Body::Busy
            && message.founding == self.founding
            && coordinator.calls.iter().any(waits)
        {
            self.judge.hears_busy(message.call, message.row);
        }
        let runs =
            |coordinator: &Coordinator| coordinator.calls.iter().position(|call| call.number == message.call);
        let mut extra = Vec::new();
        if let Some(call) = runs(coordinator).map(|place| &mut coordinator.calls[place]) {
            let rows = call.rows();
            match (&message.body, &mut call.phase) {
                (Body::Stored, Phase::Storing { stored, .. }) if slips(Slip::NotesEarly) => *stored = rows,
                // A "still" that comes early is kept.
                (Body::Still, Phase::Gathering) if slips(Slip::AsksEarly) => {
                    self.early.push(message);
                    return Ok(());
                }
                (Body::Row { count, .. }, Phase::Gathering)
                    if slips(Slip::AsksEarly) && !call.manner.lock =>
                {
                    let to = call.frame.name(message.row).unwrap_or_default();
                    extra.push(Message { to, body: Body::Again { count: *count }, ..message.clone() });
                }
                (Body::InDoubt { asker }, _) if slips(Slip::DropsRunning) => {
                    extra.push(Message { to: *asker, body: Body::Drop, ..message.clone() });
                }
                _ => {}
            }
        }
        let gathering =
            runs(coordinator).is_some_and(|place| coordinator.calls[place].phase == Phase::Gathering);
        let notes = coordinator.notes.len();
        let mut step = coordinator.on(&message);
        if slips(Slip::ForgetsEarly) && message.body == Body::Took {
            coordinator.notes.retain(|note| note.call != message.call);
        }
        if slips(Slip::DropsNoted) && coordinator.notes.len() > notes {
            let takes = step.say.iter().filter(|said| said.body == Body::Take);
            extra.extend(takes.map(|take| Message { body: Body::Drop, ..take.clone() }));
        }
        if gathering {
            self.decided(at, message.call, &mut step)?;
        }
        step.say.extend(extra);
        self.finish(at, step.into(), ending)
    }

    /// A call that gathered may have been decided: the judge looks, after what slips there are.
    fn decided(&mut self, at: usize, number: CallNumber, step: &mut Step) -> Result<(), Wrong> {
        let slip = self.slip;
        let slips = |wanted| slip == Some(wanted);
        let name = self.nodes[at].machine.name;
        let calls = &mut self.nodes[at].coordinator.calls;
        let Some(call) = calls.iter_mut().find(|call| call.number == number) else { return Ok(()) };
        let rows = call.rows();
        let mut extra = Vec::new();
        match &mut call.phase {
            Phase::Storing { outcome, changes, stored, .. } => {
                if slips(Slip::FrameNotShipped) {
                    changes.iter_mut().for_each(|change| change.frame = None);
                }
                if slips(Slip::NotesChanged) {
                    let held = call.heard.iter().zip(&*changes).filter(|(_, change)| change.is_empty());
                    *stored |= held.map(|(heard, _)| heard.row).collect();
                }
                if slips(Slip::TakesEarly) {
                    extra.extend(step.say.iter().map(|said| Message { body: Body::Take, ..said.clone() }));
                }
                if slips(Slip::EndsChanged) {
                    call.phase = Phase::Confirming { outcome: outcome.clone(), still: Rows::EMPTY };
                }
            }
            Phase::Confirming { outcome: Outcome::Refused(Refusal::NoQuorum), .. }
                if slips(Slip::JoinsAlone) && call.request == Request::Join =>
            {
                if let Ok((frame, row, bytes)) = call.frame.join(name) {
                    let change = Change { frame: Some(frame.clone()), ranges: Vec::new() };
                    call.frame = frame.clone();
                    call.phase = Phase::Storing {
                        outcome: Outcome::Done { value: row as u32, bytes: Vec::new() },
                        changes: vec![change; call.heard.len()],
                        stored: Rows::EMPTY,
                        birth: Some(Birth { row, frame, bytes }),
                    };
                }
            }
            Phase::Confirming { still, .. } if slips(Slip::EndsEarly) => {
                // All are taken for heard, and one's "still" is under way.
                *still = rows;
                let body = Body::Still;
                let row = rows.iter().next().unwrap_or_default();
                extra.push(Message { to: name, call: number, row, body, founding: self.founding });
            }
            _ => {}
        }
        if call.phase != Phase::Gathering {
            self.judge.looks(&*call)?;
            if matches!(
                slip,
                Some(Slip::NotesChanged | Slip::EndsChanged | Slip::FrameNotShipped | Slip::JoinsAlone)
            ) {
                step.say = self.nodes[at].coordinator.nudge(number);
            } else if slips(Slip::AsksEarly)
                && matches!(call.phase, Phase::Confirming { .. })
                && !call.manner.lock
            {
                step.say = std::mem::take(&mut self.early);
            }
        }
        step.say.extend(extra);
        Ok(())
    }

    /// A coordinator waits no longer.
    pub fn silence(&mut self, number: CallNumber, ending: Ending) -> Result<(), Wrong> {
        let Some(at) = self.nodes.iter().position(|node| node.machine.name == number.name && node.up) else {
            return Ok(());
        };
        let slips = self.slips(Slip::LeavesOutBusy);
        let coordinator = &mut self.nodes[at].coordinator;
        let Some(place) = coordinator.calls.iter().position(|call| call.number == number) else {
            return Ok(());
        };
        if slips {
            coordinator.calls[place].busy = Rows::EMPTY;
        }
        let gathering = coordinator.calls[place].phase == Phase::Gathering;
        let mut step = coordinator.silence(number);
        if gathering {
            self.decided(at, number, &mut step)?;
        }
        self.finish(at, step.into(), ending)
    }

    /// What an attempt waits for is said again.
    pub fn nudge(&mut self, number: CallNumber) {
        if let Some(node) = self.nodes.iter().find(|node| node.machine.name == number.name && node.up) {
            self.net.extend(node.coordinator.nudge(number).into_iter().map(Shared::from));
        }
    }

    /// A machine in doubt asks its coordinator.
    pub fn ask(&mut self, at: usize, ending: Ending) -> Result<(), Wrong> {
        let slip = self.slip;
        let slips = |wanted| slip == Some(wanted);
        let machine = &mut self.nodes[at].machine;
        if slips(Slip::NeverAsks) {
            return Ok(());
        }
        if slips(Slip::TakesUntold) || slips(Slip::DropsUntold) {
            if let Some((seat, doubt)) =
                machine.seat.as_mut().and_then(|seat| Some((seat.doubt.take()?, seat))).map(|(d, s)| (s, d))
            {
                if slips(Slip::TakesUntold) {
                    (seat.kept, seat.frame, seat.count) = (doubt.bytes, doubt.frame, seat.count + 1);
                    seat.taken.push(Some(doubt.call));
                }
                return self.finish(at, Out { save: Save::First, say: Vec::new(), ended: None }, ending);
            }
        }
        self.net.extend(machine.ask().map(Shared::from));
        Ok(())
    }

    /// And the other machines of the call.
    pub fn inquire(&mut self, at: usize) {
        self.net.extend(self.nodes[at].machine.inquire().into_iter().map(Shared::from));
    }

    pub fn remind(&mut self, at: usize) {
        if !self.slips(Slip::NeverReminds) {
            self.net.extend(self.nodes[at].coordinator.remind().into_iter().map(Shared::from));
        }
    }

    pub fn unlock(&mut self, at: usize) {
        if !self.slips(Slip::KeepsLocks) {
            self.nodes[at].machine.unlock();
        }
    }

    /// The operator says at this machine that another is gone for good.
    pub fn bury(&mut self, at: usize, name: u16) -> Result<(), Wrong> {
        let seat = self.nodes[at].machine.seat.clone();
        let doubt = seat.and_then(|seat| seat.doubt).map(|doubt| doubt.call);
        let answer = self.nodes[at].machine.bury(name);
        let cleared = self.nodes[at].machine.seat.as_ref().is_some_and(|seat| seat.doubt.is_none());
        if let Some(call) = doubt.filter(|call| cleared && !self.judge.is_committed(*call)) {
            self.judge.commits(call, &[])?;
        }
        self.finish(at, answer.into(), None)
    }

    /// The operator drops what a machine is in doubt about, where he may. Is a call lost by that which was done?
    pub fn abandon(&mut self, at: usize) -> Result<bool, Wrong> {
        let seat = self.nodes[at].machine.seat.as_ref();
        let Some(call) = seat.and_then(|seat| seat.doubt.as_ref()).map(|doubt| doubt.call) else {
            return Ok(false);
        };
        let Ok(answer) = self.nodes[at].machine.operator_drops() else { return Ok(false) };
        if self.judge.is_committed(call) && !self.slips(Slip::BuriedAlive) {
            return Ok(true);
        }
        self.finish(at, answer.into(), None)?;
        Ok(false)
    }

    /// A crash between two steps; the node comes back at once, or is down until then.
    pub fn crash(&mut self, at: usize) {
        let slip = self.slip;
        let slips = |wanted| slip == Some(wanted);
        let node = &mut self.nodes[at];
        let (founding, name) = (node.machine.founding, node.machine.name);
        if slips(Slip::CrashLoses) {
            if let Some(seat) = &mut node.disk.seat {
                seat.doubt = None;
            }
        }
        if slips(Slip::GivesUpNoted) {
            node.disk.notes.retain(|note| !note.births.is_empty());
        }
        if slips(Slip::FromBackup) || slips(Slip::FoundAgain) {
            match node.backup.take() {
                Some(backup) => node.disk.seat = Some(backup),
                None => {
                    node.backup =
                        node.disk.seat.clone().filter(|seat| slips(Slip::FromBackup) || seat.count == 0)
                }
            }
        }
        node.machine.crash();
        node.machine.seat = node.disk.seat.clone();
        node.machine.buried = node.disk.buried.clone();
        let starts = node.disk.start - u64::from(slips(Slip::NumberAgain));
        node.coordinator = Coordinator::start(founding, name, starts, node.disk.notes.clone());
        node.disk.start = node.coordinator.start;
        self.running.retain(|(number, _)| number.name != name);
    }

    /// The end of a step: first the disk, then the messages, then the caller.
    fn finish(&mut self, at: usize, out: Out, ending: Ending) -> Result<(), Wrong> {
        let for_machine = out.ended.is_none() && out.say.iter().all(|said| said.body.is_for_coordinator());
        let slip = if for_machine { Slip::SaysFirst } else { Slip::TellsFirst };
        let saved = ending.is_none_or(|crash| crash.saved) && out.save != Save::No;
        let says = saved || out.save != Save::First || self.slips(slip);
        if saved {
            self.save(at)?;
        }
        let said = ending.map_or(out.say.len(), |crash| if says { crash.said.min(out.say.len()) } else { 0 });
        self.net.extend(out.say.into_iter().take(said).map(Shared::from));
        if let Some((number, ended)) = out.ended {
            if ending.is_none() || self.slips(Slip::TellsFirst) {
                self.tell(number, ended)?;
            }
        }
        if ending.is_some() {
            self.crash(at);
        }
        Ok(())
    }

    fn tell(&mut self, number: CallNumber, ended: Ended) -> Result<(), Wrong> {
        self.judge.tells(number, &ended)?;
        if let Some(place) = self.running.iter().position(|(running, _)| *running == number) {
            let (_, request) = self.running.swap_remove(place);
            let over = match ended {
                Ended::Told(Outcome::Done { value, .. }) => Over::Done(value),
                Ended::Told(Outcome::Refused(refusal)) => Over::Refused(refusal.number()),
                Ended::Anew(_, manner) => Over::Anew(manner),
                Ended::Seen(table, rows) => Over::Seen(table.into_bytes(), rows),
            };
            self.ended.push((number, request, over));
        }
        Ok(())
    }

    /// What a node keeps is written to its disk, and looked at.
    fn save(&mut self, at: usize) -> Result<(), Wrong> {
        let node = &mut self.nodes[at];
        node.disk.seat = node.machine.seat.clone();
        node.disk.buried = node.machine.buried.clone();
        node.disk.notes = node.coordinator.notes.clone();
        // Who has taken is not on the disk.
        node.disk.notes.iter_mut().for_each(|note| note.took = Rows::EMPTY);
        for note in &self.nodes[at].disk.notes {
            if !self.judge.is_committed(note.call) {
                self.judge.commits(note.call, &note.births)?;
            }
        }
        self.nodes[at].disk.seat.as_ref().map_or(Ok(()), |seat| self.judge.holds(seat))
    }

    /// Is a machine of it in doubt?
    pub fn in_doubt(&self, at: usize) -> bool {
        self.nodes[at].machine.seat.as_ref().is_some_and(|seat| seat.doubt.is_some())
    }
}
