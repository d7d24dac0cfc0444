//! A machine and its coordinator in one process: one thread that has the core, and a thread for each connection that comes in.

use super::client::{Order, Reply};
use super::disk::Record;
use super::{address, receive, send, FROM_CLIENT, FROM_NODE};
use crate::wire::Wire;
use crate::{
    CallNumber, Coordinator, Ended, Founding, Frame, Machine, Manner, Message, Outcome, Request, Save, Step,
};
use dyngrid::Refusal;
use std::collections::{BTreeMap, VecDeque};
use std::io::{self, Read, Write};
use std::net::{TcpListener, TcpStream};
use std::path::PathBuf;
use std::sync::mpsc::{channel, Receiver, RecvTimeoutError, Sender};
use std::thread;
use std::time::{Duration, Instant};

/// What a node is started with.
pub struct Settings {
    pub founding: Founding,
    pub name: u16,
    pub folder: PathBuf,
    pub first_port: u16,
    pub sync: bool,
    /// A frame of the group, for a machine that is to join.
    pub frame: Option<Frame>,
}

/// How long a node waits. On 127.0.0.1 who says nothing for so long is away.
const TICK: Duration = Duration::from_millis(5);
/// Who was busy is asked again after this time, and a call that found one so is made anew.
const BUSY: Duration = Duration::from_micros(500);
const NUDGE: Duration = Duration::from_millis(20);
const AWAY: Duration = Duration::from_millis(120);
const UNLOCK: Duration = Duration::from_millis(700);
const INQUIRE: Duration = Duration::from_millis(1000);
/// A caller hears that its end is not known.
const PATIENCE: Duration = Duration::from_secs(4);

enum Event {
    Message(Message),
    Order(Order, Sender<Reply>),
}

/// A request under way.
struct Pending {
    request: Request,
    reply: Sender<Reply>,
    deadline: Instant,
    /// When it last got on, and when it was last said again.
    moved: Instant,
    nudged: Instant,
}

struct Node {
    settings: Settings,
    machine: Machine,
    coordinator: Coordinator,
    machine_record: Record,
    coordinator_record: Record,
    links: BTreeMap<u16, TcpStream>,
    /// Messages of the node to itself.
    own: VecDeque<Message>,
    pending: BTreeMap<CallNumber, Pending>,
    /// Requests that begin anew, and when.
    later: Vec<(Instant, Manner, Pending)>,
    locked: Option<(CallNumber, Instant)>,
    doubted: Option<(CallNumber, Instant)>,
    reminded: Instant,
    unsaved: Save,
}

/// Runs a node until its process ends; it ends when whoever started it has.
pub fn run(settings: Settings) -> io::Result<()> {
    thread::spawn(|| {
        let _ = io::stdin().read_to_end(&mut Vec::new());
        std::process::exit(0);
    });
    let listener = TcpListener::bind(address(settings.first_port, settings.name))?;
    let (events, inbox) = channel();
    thread::spawn(move || accept(&listener, &events));
    Node::open(settings)?.serve(&inbox)
}

fn accept(listener: &TcpListener, events: &Sender<Event>) {
    for stream in listener.incoming().flatten() {
        let events = events.clone();
        thread::spawn(move || hear(stream, &events));
    }
}

/// A connection brings messages of another node, or the orders of a client one after the other.
fn hear(mut stream: TcpStream, events: &Sender<Event>) -> Option<()> {
    let mut kind = [0];
    stream.read_exact(&mut kind).ok()?;
    stream.set_nodelay(true).ok()?;
    loop {
        let bytes = receive(&mut stream).ok()?;
        match kind[0] {
            FROM_NODE => events.send(Event::Message(Message::from_bytes(&bytes)?)).ok()?,
            FROM_CLIENT => {
                let (reply, answer) = channel();
                events.send(Event::Order(Order::from_bytes(&bytes)?, reply)).ok()?;
                send(&mut stream, &answer.recv().ok()?.to_bytes()).ok()?;
            }
            _ => return None,
        }
    }
}

impl Node {
    /// Takes up what is on the disk. The new number of starts is there before anything is said.
    fn open(settings: Settings) -> io::Result<Node> {
        let record = |name: &str| Record::new(&settings.folder, name, settings.sync);
        let (machine_record, coordinator_record) = (record("machine")?, record("coordinator")?);
        let damaged = || {
            io::Error::new(
                io::ErrorKind::InvalidData,
                "a record on the disk is damaged: this machine must not answer under its name",
            )
        };
        let machine = match machine_record.read()? {
            Some(bytes) => Machine::from_bytes(&bytes).ok_or_else(damaged)?,
            None => Machine::new(settings.founding, settings.name),
        };
        let coordinator = match coordinator_record.read()? {
            Some(bytes) => Coordinator::from_bytes(&bytes).ok_or_else(damaged)?,
            None => Coordinator::start(settings.founding, settings.name, 0, Vec::new()),
        };
        coordinator_record.write(&coordinator.to_bytes())?;
        Ok(Node {
            settings,
            machine,
            coordinator,
            machine_record,
            coordinator_record,
            links: BTreeMap::new(),
            own: VecDeque::new(),
            pending: BTreeMap::new(),
            later: Vec::new(),
            locked: None,
            doubted: None,
            reminded: Instant::now(),
            unsaved: Save::No,
        })
    }

    fn serve(&mut self, inbox: &Receiver<Event>) -> io::Result<()> {
        let mut ticked = Instant::now();
        loop {
            let wait = if self.pending.is_empty() && self.later.is_empty() { TICK } else { BUSY };
            match inbox.recv_timeout(wait) {
                Ok(Event::Message(message)) => self.take_in(&message)?,
                Ok(Event::Order(order, reply)) => self.obey(order, reply)?,
                Err(RecvTimeoutError::Timeout) => {}
                Err(RecvTimeoutError::Disconnected) => return Ok(()),
            }
            while let Some(message) = self.own.pop_front() {
                self.take_in(&message)?;
            }
            if ticked.elapsed() >= BUSY {
                ticked = Instant::now();
                self.tick()?;
            }
        }
    }

    fn take_in(&mut self, message: &Message) -> io::Result<()> {
        if message.body.is_for_coordinator() {
            if let Some(pending) = self.pending.get_mut(&message.call) {
                pending.moved = Instant::now();
            }
            let step = self.coordinator.on(message);
            self.finish(step)
        } else {
            let answer = self.machine.on(message);
            if answer.save == Save::First {
                self.machine_record.write(&self.machine.to_bytes())?;
            }
            self.unsaved = self.unsaved.max(if answer.save == Save::Soon { Save::Soon } else { Save::No });
            self.say(answer.say);
            Ok(())
        }
    }

    /// First the disk, then the messages, then the caller.
    fn finish(&mut self, step: Step) -> io::Result<()> {
        if step.save == Save::First {
            self.coordinator_record.write(&self.coordinator.to_bytes())?;
        }
        self.unsaved = self.unsaved.max(if step.save == Save::Soon { Save::Soon } else { Save::No });
        self.say(step.say);
        let Some((number, ended)) = step.ended else { return Ok(()) };
        let Some(pending) = self.pending.remove(&number) else { return Ok(()) };
        let reply = match ended {
            Ended::Told(outcome) => Reply::Told(outcome),
            Ended::Seen(table, rows) => Reply::Seen(table.into_bytes(), rows),
            Ended::Anew(_, manner) => {
                self.later.push((Instant::now() + BUSY, manner, pending));
                return Ok(());
            }
        };
        // A caller that is gone does not hear.
        let _ = pending.reply.send(reply);
        Ok(())
    }

    fn obey(&mut self, order: Order, reply: Sender<Reply>) -> io::Result<()> {
        match order {
            Order::Call(request) => {
                let now = Instant::now();
                let manner = request.manner();
                self.begin(
                    manner,
                    Pending { request, reply, deadline: now + PATIENCE, moved: now, nudged: now },
                )
            }
            Order::Found(group, names) => match self.coordinator.found(group, &names) {
                Ok(step) => {
                    let outcome = Outcome::Done { value: names.len() as u32, bytes: Vec::new() };
                    let _ = reply.send(Reply::Told(outcome));
                    self.finish(step)
                }
                Err(refusal) => {
                    let _ = reply.send(Reply::Told(Outcome::Refused(refusal)));
                    Ok(())
                }
            },
            Order::Bury(name) => {
                self.machine.bury(name);
                self.machine_record.write(&self.machine.to_bytes())?;
                let _ = reply.send(Reply::Ready(true));
                Ok(())
            }
            Order::Ready => {
                let ready = self.machine.seat.as_ref().is_some_and(|seat| seat.doubt.is_none());
                let _ = reply.send(Reply::Ready(ready));
                Ok(())
            }
        }
    }

    fn begin(&mut self, manner: Manner, pending: Pending) -> io::Result<()> {
        let own = match (&self.machine.seat, &self.settings.frame) {
            (Some(seat), _) if pending.request != Request::Join => Ok(seat),
            (None, Some(frame)) if pending.request == Request::Join => Err(frame),
            _ => {
                let _ = pending.reply.send(Reply::Told(Outcome::Refused(Refusal::NoSuchRow)));
                return Ok(());
            }
        };
        let (number, step) = self.coordinator.begin(pending.request.clone(), manner, own);
        self.pending.insert(number, pending);
        self.finish(step)
    }

    fn tick(&mut self) -> io::Result<()> {
        let now = Instant::now();
        // What may be saved later is, when nothing else is to do.
        if self.unsaved == Save::Soon && self.pending.is_empty() && now - self.reminded > NUDGE {
            self.unsaved = Save::No;
            self.machine_record.write(&self.machine.to_bytes())?;
            self.coordinator_record.write(&self.coordinator.to_bytes())?;
        }
        let (due, later): (Vec<_>, Vec<_>) =
            std::mem::take(&mut self.later).into_iter().partition(|(when, ..)| *when <= now);
        self.later = later;
        for (_, manner, pending) in due {
            if pending.deadline < now {
                let _ = pending.reply.send(Reply::Unknown);
            } else {
                self.begin(manner, Pending { moved: now, nudged: now, ..pending })?;
            }
        }
        for number in self.pending.keys().copied().collect::<Vec<_>>() {
            let Some(pending) = self.pending.get_mut(&number) else { continue };
            if now - pending.moved > AWAY {
                pending.moved = now;
                let step = self.coordinator.silence(number);
                self.finish(step)?;
            } else if now - pending.nudged
                > if self.coordinator.is_kept_waiting(number) { BUSY } else { NUDGE }
            {
                pending.nudged = now;
                let again = self.coordinator.nudge(number);
                self.say(again);
            }
        }
        self.locked = since(self.locked, self.machine.lock, now);
        if self.locked.is_some_and(|(_, since)| now - since > UNLOCK) {
            self.machine.unlock();
        }
        if now - self.reminded > NUDGE {
            self.reminded = now;
            let doubt =
                self.machine.seat.as_ref().and_then(|seat| seat.doubt.as_ref()).map(|doubt| doubt.call);
            self.doubted = since(self.doubted, doubt, now);
            let mut say = self.coordinator.remind();
            // A call that goes on has its end soon: a machine in doubt asks after a while.
            if self.doubted.is_some_and(|(_, since)| now - since > NUDGE) {
                say.extend(self.machine.ask());
            }
            if self.doubted.is_some_and(|(_, since)| now - since > INQUIRE) {
                say.extend(self.machine.inquire());
            }
            self.say(say);
        }
        Ok(())
    }

    /// A message that cannot be sent is lost.
    fn say(&mut self, messages: impl IntoIterator<Item = Message>) {
        for message in messages {
            if message.to == self.settings.name {
                self.own.push_back(message);
            } else if self.send(&message).is_none() {
                self.links.remove(&message.to);
            }
        }
    }

    fn send(&mut self, message: &Message) -> Option<()> {
        if !self.links.contains_key(&message.to) {
            let to = address(self.settings.first_port, message.to);
            let mut stream = TcpStream::connect_timeout(&to, Duration::from_millis(50)).ok()?;
            stream.set_nodelay(true).ok()?;
            stream.set_write_timeout(Some(Duration::from_millis(200))).ok()?;
            stream.write_all(&[FROM_NODE]).ok()?;
            self.links.insert(message.to, stream);
        }
        send(self.links.get_mut(&message.to)?, &message.to_bytes()).ok()
    }
}

/// Since when it is the same call.
fn since(
    before: Option<(CallNumber, Instant)>,
    call: Option<CallNumber>,
    now: Instant,
) -> Option<(CallNumber, Instant)> {
    let call = call?;
    before.filter(|(was, _)| *was == call).or(Some((call, now)))
}
