//! Every schedule of a few calls: messages in any order, one crash in the middle of any step, one message lost, calls given up
//! where nothing of them is under way. Schedules that lead to one state are followed once.

use super::judge::Wrong;
use super::shared::{digest, Mixed};
use super::slip::Slip;
use super::world::{Crash, Over, World};
use crate::{Body, CallNumber, Founding, Frame, Group, Message, Request};
use dyngrid::Shape;
use std::collections::HashSet;
use std::hash::BuildHasherDefault;

/// What is tried.
#[derive(Clone, Debug)]
pub struct Scenario {
    pub machines: usize,
    /// What each machine asks for, one after the other.
    pub requests: Vec<Vec<Request>>,
    pub crashes: usize,
    pub losses: usize,
    /// After all have begun, so many messages are delivered in the order in which they were sent; every schedule from there on is followed.
    pub delivered: usize,
    /// Attempts that a request has.
    pub attempts: usize,
    /// States of one length of schedule that are followed on.
    pub most: usize,
}

impl Scenario {
    /// Those that the tests go through: two and three machines, one crash, one loss.
    pub fn all() -> Vec<(&'static str, Scenario)> {
        let write = |byte| vec![Request::Write { file: 1, offset: 0, patch: vec![byte] }];
        let read = || vec![Request::Read { file: 1, offset: 0, length: 1 }];
        let scenario = |requests: Vec<Vec<Request>>, delivered, most| Scenario {
            machines: requests.len(),
            requests,
            crashes: 1,
            losses: 1,
            delivered,
            attempts: 2,
            most,
        };
        vec![
            ("two machines, a write each", scenario(vec![write(1), write(2)], 0, 25_000)),
            ("the same, from when one is decided", scenario(vec![write(1), write(2)], 8, 25_000)),
            ("two machines, a write and a read", scenario(vec![write(1), read()], 0, 15_000)),
            ("the same, from when the write is decided", scenario(vec![write(1), read()], 6, 15_000)),
            ("three machines, writes by two", scenario(vec![write(1), vec![], write(2)], 0, 10_000)),
            ("the same, from when one is decided", scenario(vec![write(1), vec![], write(2)], 8, 10_000)),
            ("three machines, a write, a read and a check", {
                let check = vec![Request::Check { without: dyngrid::Rows::EMPTY }];
                scenario(vec![write(1), check, read()], 6, 10_000)
            }),
        ]
    }
}

/// What was gone through.
#[derive(Clone, Copy, Debug, Default)]
pub struct Explored {
    pub states: usize,
    pub steps: usize,
    /// States in which nothing is left to do.
    pub ends: usize,
    /// Every schedule of so many steps was followed.
    pub depth: usize,
    /// And none is longer.
    pub whole: bool,
}

#[derive(Clone, Hash)]
struct State {
    world: World,
    /// Of each machine's requests, those begun, and the attempts of the latest.
    begun: Vec<(usize, usize)>,
    crashes: usize,
    losses: usize,
}

#[derive(Clone, Copy, Debug)]
enum Event {
    Begin(usize),
    Deliver(usize, Option<Crash>),
    Lose(usize),
    Silence(CallNumber),
    Ask(usize),
    Remind(usize),
    Crash(usize),
}

/// Follows every schedule, step by step all those of one length, for as long as there are at most so many states of one length. An error
/// tells what is wrong, and the last step that led there.
pub fn explore(scenario: &Scenario, slip: Option<Slip>) -> Result<Explored, Wrong> {
    let group = Group { capacity: scenario.machines, files: 1, file_len: 1, shape: Shape::Wide };
    let mut world = World::new(Founding(1), scenario.machines, group, slip);
    world.found(group, scenario.machines)?;
    while !world.net.is_empty() {
        world.deliver(0, None)?;
    }
    let frame =
        world.nodes[0].machine.seat.as_ref().map(|seat| seat.frame.clone()).ok_or("no row was handed out")?;
    let first = State {
        world,
        begun: vec![(0, 0); scenario.machines],
        crashes: scenario.crashes,
        losses: scenario.losses,
    };
    let mut search = Search { scenario, frame, seen: HashSet::default(), explored: Explored::default() };
    let mut states = vec![search.started(first)?];
    while !states.is_empty() && states.len() <= scenario.most {
        let mut next = Vec::new();
        for state in states {
            search.follow(&state, &mut next)?;
        }
        search.explored.depth += 1;
        states = next;
    }
    search.explored.states = search.seen.len();
    search.explored.whole = states.is_empty();
    Ok(search.explored)
}

struct Search<'a> {
    scenario: &'a Scenario,
    frame: Frame,
    seen: HashSet<u128, BuildHasherDefault<Mixed>>,
    explored: Explored,
}

impl Search<'_> {
    /// The state that the schedules begin with.
    fn started(&self, mut state: State) -> Result<State, Wrong> {
        if self.scenario.delivered > 0 {
            for at in (0..self.scenario.machines).filter(|at| !self.scenario.requests[*at].is_empty()) {
                self.begin(&mut state, at)?;
            }
        }
        for _ in 0..self.scenario.delivered {
            state.world.net.rotate_left(1);
            let last = state.world.net.len() - 1;
            state.world.deliver(last, None)?;
            self.hear_ends(&mut state)?;
        }
        state.settle();
        Ok(state)
    }

    fn begin(&self, state: &mut State, at: usize) -> Result<(), Wrong> {
        let (requests, attempts) = &mut state.begun[at];
        let request = self.scenario.requests[at][*requests].clone();
        (*requests, *attempts) = (*requests + 1, 1);
        let manner = request.manner();
        state.world.begin(at, request, manner, &self.frame, None)
    }

    /// What is to be made anew is begun at once.
    fn hear_ends(&self, state: &mut State) -> Result<(), Wrong> {
        for (number, request, over) in std::mem::take(&mut state.world.ended) {
            let at = usize::from(number.name) - 1;
            let attempts = &mut state.begun[at].1;
            if let (Over::Anew(manner), true) = (over, *attempts < self.scenario.attempts) {
                *attempts += 1;
                state.world.begin(at, request, manner, &self.frame, None)?;
            }
        }
        Ok(())
    }

    /// Adds the states that a step leads to, and that were not seen before.
    fn follow(&mut self, state: &State, next: &mut Vec<State>) -> Result<(), Wrong> {
        let events = self.events(state);
        if events.is_empty() {
            self.explored.ends += 1;
            let doubt = (0..state.world.nodes.len()).find(|at| state.world.in_doubt(*at));
            return doubt.map_or(Ok(()), |at| Err(format!("machine {} is in doubt for ever", at + 1)));
        }
        for event in events {
            let mut after = state.clone();
            self.explored.steps += 1;
            self.apply(&mut after, event)
                .map_err(|wrong| format!("{wrong}, after {}", self.tell(state, event)))?;
            if self.seen.insert(digest(&after)) {
                next.push(after);
            }
        }
        Ok(())
    }

    fn tell(&self, state: &State, event: Event) -> String {
        match event {
            Event::Deliver(at, crash) => format!("{crash:?} {:?}", Told(&state.world.net[at])),
            Event::Lose(at) => format!("lost: {:?}", Told(&state.world.net[at])),
            other => format!("{other:?}"),
        }
    }

    fn events(&self, state: &State) -> Vec<Event> {
        let world = &state.world;
        let mut events = Vec::new();
        for (at, message) in world.net.iter().enumerate() {
            events.push(Event::Deliver(at, None));
            if state.losses > 0 {
                events.push(Event::Lose(at));
            }
            if state.crashes > 0 {
                // In the middle of the step that it leads to, when the disk is written: no message is out, or one. A crash before that
                // is a crash between two steps, and the message lost.
                let crash = |said| Event::Deliver(at, Some(Crash { saved: true, said }));
                events.push(crash(0));
                if message.body.is_for_coordinator() {
                    events.push(crash(1));
                }
            }
        }
        for (at, node) in world.nodes.iter().enumerate() {
            let runs = world.running.iter().any(|(number, _)| usize::from(number.name) == at + 1);
            if !runs && state.begun[at].0 < self.scenario.requests.get(at).map_or(0, Vec::len) {
                events.push(Event::Begin(at));
            }
            let said = |wanted: fn(&Body) -> bool, of: CallNumber| {
                world.net.iter().any(|m| m.call == of && wanted(&m.body))
            };
            let doubt = node.machine.seat.as_ref().and_then(|seat| seat.doubt.as_ref());
            if doubt.is_some_and(|doubt| {
                let over = !world.running.iter().any(|(number, _)| *number == doubt.call);
                over && !said(
                    |body| matches!(body, Body::InDoubt { .. } | Body::Take | Body::Drop),
                    doubt.call,
                )
            }) {
                events.push(Event::Ask(at));
            }
            if node
                .coordinator
                .notes
                .iter()
                .any(|note| !said(|body| matches!(body, Body::Take | Body::Took), note.call))
            {
                events.push(Event::Remind(at));
            }
            if state.crashes > 0 {
                events.push(Event::Crash(at));
            }
        }
        // A coordinator waits no longer when nothing of its call is under way.
        let stuck = world
            .running
            .iter()
            .filter(|(number, _)| !world.net.iter().any(|message| message.call == *number));
        events.extend(stuck.map(|(number, _)| Event::Silence(*number)));
        events
    }

    fn apply(&self, state: &mut State, event: Event) -> Result<(), Wrong> {
        let world = &mut state.world;
        match event {
            Event::Begin(at) => self.begin(state, at)?,
            Event::Deliver(at, ending) => {
                state.crashes -= usize::from(ending.is_some());
                world.deliver(at, ending)?;
            }
            Event::Lose(at) => {
                state.losses -= 1;
                world.net.swap_remove(at);
            }
            Event::Silence(number) => world.silence(number, None)?,
            Event::Ask(at) => world.ask(at, None)?,
            Event::Remind(at) => world.remind(at),
            Event::Crash(at) => {
                state.crashes -= 1;
                world.crash(at);
            }
        }
        self.hear_ends(state)?;
        state.settle();
        Ok(())
    }
}

impl State {
    /// The same for all orders in which the messages were sent; what is sent twice is there once.
    fn settle(&mut self) {
        self.world.net.sort_by_key(|message| message.digest());
        self.world.net.dedup_by_key(|message| message.digest());
    }
}

/// A message without its bytes.
struct Told<'a>(&'a Message);

impl std::fmt::Debug for Told<'_> {
    fn fmt(&self, f: &mut std::fmt::Formatter) -> std::fmt::Result {
        let Message { to, call, row, body, .. } = self.0;
        let name = format!("{body:?}");
        let word = name.split([' ', '(']).next().unwrap_or_default();
        write!(f, "{word} to {to}, row {row}, call {}.{}.{}", call.name, call.start, call.count)
    }
}
