//! The core by hand: the loss that a doubled ask led to, a coordinator gone for good, and everything as bytes and back.

use dyngrid::{Rows, Shape};
use relay::simulate::random::{run, Counts};
use relay::simulate::slip::Slip;
use relay::wire::Wire;
use relay::{
    Answer, Body, CallNumber, Coordinator, Ended, Fate, Founding, Frame, Group, Machine, Message, Outcome,
    Reach, Request, Step,
};

const FOUNDING: Founding = Founding(7);

/// Machines 1, 2, 3, .. with their rows, and a coordinator for each.
fn founded(machines: u16) -> (Vec<Machine>, Vec<Coordinator>) {
    let names: Vec<u16> = (1..=machines).collect();
    let mut coordinators: Vec<_> =
        names.iter().map(|name| Coordinator::start(FOUNDING, *name, 0, Vec::new())).collect();
    let mut all: Vec<_> = names.iter().map(|name| Machine::new(FOUNDING, *name)).collect();
    let group = Group { capacity: machines.into(), files: 2, file_len: 8, shape: Shape::Wide };
    let step = coordinators[0].found(group, &names).unwrap();
    for message in &step.say {
        all[usize::from(message.to) - 1].on(message);
    }
    (all, coordinators)
}

fn write(by: &mut Coordinator, machine: &Machine, at: usize, byte: u8) -> (CallNumber, Step) {
    let request = Request::Write { file: 1, offset: at, patch: vec![byte] };
    let manner = relay::Manner { reach: Reach::All, ..request.manner() };
    by.begin(request, manner, machine.seat.as_ref().ok_or_else(|| unreachable!()))
}

/// Brings messages to their machines and the answers to the coordinator; gives the last step in which it does something.
fn carry(machines: &mut [Machine], to: &mut Coordinator, messages: &[Message]) -> Step {
    let answers: Vec<Answer> =
        messages.iter().map(|message| machines[usize::from(message.to) - 1].on(message)).collect();
    let steps = answers.iter().filter_map(|answer| answer.say.as_ref()).map(|said| to.on(said));
    let acts = |step: &Step| step.ended.is_some() || !step.say.is_empty();
    steps.filter(acts).last().unwrap_or(Step { save: relay::Save::No, say: Vec::new(), ended: None })
}

fn version_told(step: &Step) -> Option<u32> {
    match &step.ended {
        Some((_, Ended::Told(Outcome::Done { value, .. }))) => Some(*value),
        _ => None,
    }
}

/// Two writes at once; the locks of the first are lost, the second is done, and the doubles of the first one's asks come, and then its
/// stores. The count refuses them.
#[test]
fn a_doubled_ask_does_not_bring_an_old_call_back() {
    let (mut machines, mut by) = founded(2);
    let (_, asks) = write(&mut by[0], &machines[0], 0, 11);
    let stores = carry(&mut machines, &mut by[0], &asks.say);
    assert!(stores.say.iter().all(|said| matches!(said.body, Body::Store { .. })));
    machines.iter_mut().for_each(Machine::unlock);

    let (_, other) = write(&mut by[1], &machines[1], 1, 22);
    let other = carry(&mut machines, &mut by[1], &other.say);
    let noted = carry(&mut machines, &mut by[1], &other.say);
    assert_eq!(version_told(&noted), Some(1));
    carry(&mut machines, &mut by[1], &noted.say);

    for ask in &asks.say {
        machines[usize::from(ask.to) - 1].on(ask);
    }
    let end = carry(&mut machines, &mut by[0], &stores.say);
    assert!(matches!(end.ended, Some((_, Ended::Anew(..)))), "{end:?}");
    let kept = |machine: &Machine| machine.seat.as_ref().unwrap().kept.clone();
    assert!(machines.iter().all(|machine| kept(machine)[32 + 12..][..2] == [0, 22]));
}

/// Brings the inquiries of one machine to the others, and their answers back.
fn inquire(machines: &mut [Machine], asker: usize) -> Vec<Fate> {
    let mut fates = Vec::new();
    for ask in machines[asker].inquire() {
        if let Some(said) = machines[usize::from(ask.to) - 1].on(&ask).say {
            if let Body::Knows(fate) = said.body {
                fates.push(fate);
            }
            machines[asker].on(&said);
        }
    }
    fates
}

fn doubts(machines: &[Machine]) -> Vec<bool> {
    machines.iter().map(|machine| machine.seat.as_ref().unwrap().doubt.is_some()).collect()
}

/// A write by machine 1 of three that these have stored.
fn stored_by(rows: &[usize]) -> (Vec<Machine>, Vec<Coordinator>, Step) {
    let (mut machines, mut by) = founded(3);
    let (_, asks) = write(&mut by[0], &machines[0], 0, 11);
    let stores = carry(&mut machines, &mut by[0], &asks.say);
    for store in stores.say.iter().filter(|store| rows.contains(&store.row)) {
        machines[usize::from(store.to) - 1].on(store);
    }
    (machines, by, stores)
}

/// Machine 3 has not stored: it says so for good, machine 2 drops, and the store that comes late is refused.
#[test]
fn one_that_never_stored_ends_the_doubt() {
    let (mut machines, _, stores) = stored_by(&[1, 2]);
    assert_eq!(inquire(&mut machines, 1), [Fate::Unknown, Fate::Never]);
    assert_eq!(doubts(&machines), [true, false, false]);
    let late = stores.say.iter().find(|store| store.row == 3).unwrap();
    assert_eq!(machines[2].on(late).say.map(|said| said.body), Some(Body::NotStored));
}

/// All have stored, and the coordinator is gone with its machine. Nobody can tell how the call ended; the operator may drop it when all
/// that are left hold, and nothing of the one that is gone is obeyed then.
#[test]
fn the_operator_drops_the_call_of_one_gone_for_good() {
    let (mut machines, _, stores) = stored_by(&[1, 2, 3]);
    assert_eq!(inquire(&mut machines, 1), [Fate::Unknown, Fate::Unknown]);
    machines[1].bury(1);
    assert_eq!(machines[1].operator_drops().map(|_| ()), Err(Rows::of(&[3]).unwrap()));
    machines[2].bury(1);
    let mut asks = machines[1].inquire();
    asks.retain(|ask| ask.to == 3);
    let said = machines[2].on(&asks[0]).say.unwrap();
    assert_eq!(said.body, Body::Knows(Fate::Holds));
    machines[1].on(&said);
    assert_eq!(doubts(&machines), [true, true, true]);
    assert!(machines[1].operator_drops().is_ok());
    let take = Message { founding: FOUNDING, to: 3, call: stores.say[0].call, row: 3, body: Body::Take };
    machines[2].on(&take);
    assert_eq!(doubts(&machines), [true, false, true]);
    // The other hears that it was dropped.
    assert_eq!(inquire(&mut machines, 2)[1], Fate::Never);
    assert_eq!(doubts(&machines), [true, false, false]);
}

/// Where the coordinator has no row in the call, as in a joining, all machines of it may hold: then it is done.
#[test]
fn all_that_hold_take() {
    let (mut machines, _) = founded(3);
    let mut by = Coordinator::start(FOUNDING, 4, 0, Vec::new());
    let request = Request::Send { file: 1, from: 1, to: 2 };
    let (number, _) =
        by.begin(request, relay::Request::Join.manner(), Ok(machines[2].seat.as_ref().unwrap()));
    for (at, row) in [(0, 1), (1, 2)] {
        let change = relay::Change { frame: None, ranges: vec![(44, vec![9])] };
        let body = Body::Store { count: 0, change, heard: vec![(1, 0), (2, 0)] };
        machines[at].on(&Message { founding: FOUNDING, to: row as u16, call: number, row, body });
        machines[at].bury(4);
    }
    assert_eq!(doubts(&machines), [true, true, false]);
    assert_eq!(inquire(&mut machines, 0), [Fate::Holds]);
    assert_eq!(inquire(&mut machines, 1), [Fate::Took]);
    assert_eq!(doubts(&machines), [false, false, false]);
    assert!(machines[..2].iter().all(|machine| machine.seat.as_ref().unwrap().kept[44] == 9));
}

/// A coordinator that starts anew uses no number again, and tells to drop only what it may have begun.
#[test]
fn numbers_are_new_after_a_restart() {
    let (mut machines, by, stores) = stored_by(&[2]);
    let mut again = Coordinator::from_bytes(&by[0].to_bytes()).unwrap();
    assert_eq!((by[0].start, again.start), (1, 2));
    let step = again.on(&machines[1].ask().unwrap());
    assert_eq!(step.say.iter().map(|said| &said.body).collect::<Vec<_>>(), [&Body::Drop]);
    machines[1].on(&step.say[0]);
    assert_eq!(doubts(&machines), [false, false, false]);
    let unused = CallNumber { start: 3, ..stores.say[0].call };
    let ask = Message { founding: FOUNDING, to: 1, call: unused, row: 2, body: Body::InDoubt { asker: 2 } };
    assert!(again.on(&ask).say.is_empty());
}

#[test]
fn everything_is_bytes_and_back() {
    let (machines, by, stores) = stored_by(&[1, 2]);
    for message in &stores.say {
        assert_eq!(Message::from_bytes(&message.to_bytes()).as_ref(), Some(message));
        assert_eq!(Message::from_bytes(&message.to_bytes()[1..]), None);
    }
    for machine in machines {
        let read = Machine::from_bytes(&machine.to_bytes()).unwrap();
        assert_eq!(read, Machine { lock: None, agreed: Rows::EMPTY, ..machine });
    }
    let read = Coordinator::from_bytes(&by[0].to_bytes()).unwrap();
    assert_eq!(read.notes, by[0].notes);
    let (frame, _) =
        Frame::found(Group { capacity: 3, files: 1, file_len: 8, shape: Shape::Tall }, &[1, 2]).unwrap();
    assert_eq!(Frame::from_bytes(&frame.as_bytes()[..18]), None);
}

/// The same seed makes the same schedule, and a slip changes what comes of it.
#[test]
fn schedules_repeat() {
    let count = |slip| {
        let mut counts = Counts::default();
        let result = (1..40).try_for_each(|seed| run(seed, slip, &mut counts));
        (result, counts.steps)
    };
    assert_eq!(count(None), count(None));
    assert_eq!(count(None).0, Ok(()));
    assert!(count(Some(Slip::TakesEarly)).0.is_err());
}
