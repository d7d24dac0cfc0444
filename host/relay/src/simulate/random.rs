//! Random schedules, each from a seed, and what must hold when all are up again.

use super::judge::Wrong;
use super::shared::Shared;
use super::slip::Slip;
use super::world::{Crash, Ending, Node, Over, World};
use crate::upkeep::due;
use crate::{Body, Founding, Frame, Group, Message, Request};
use dyngrid::{Rows, Shape, Table};
use std::fmt;

/// Random numbers, the same for each seed.
pub struct Random(u64);

impl Random {
    pub fn new(seed: u64) -> Random {
        let mut random = Random(seed.wrapping_mul(0x9e37_79b9_7f4a_7c15) ^ 0x5851_f42d_4c95_7f2d);
        (0..4).for_each(|_| _ = random.below(2));
        random
    }

    pub fn below(&mut self, limit: usize) -> usize {
        self.0 ^= self.0 << 13;
        self.0 ^= self.0 >> 7;
        self.0 ^= self.0 << 17;
        (self.0 >> 16) as usize % limit.max(1)
    }

    fn one_in(&mut self, times: usize) -> bool {
        self.below(times) == 0
    }
}

/// What came in the schedules.
#[derive(Clone, Copy, Debug, Default)]
pub struct Counts {
    pub runs: u64,
    pub steps: u64,
    pub crashes: u64,
    pub lost: u64,
    pub doubled: u64,
    pub reads: u64,
    pub writes: u64,
    pub sends: u64,
    pub checks: u64,
    pub joins: u64,
    pub refused: u64,
    pub anew: u64,
    /// Machines gone for good.
    pub gone: u64,
}

impl fmt::Display for Counts {
    fn fmt(&self, f: &mut fmt::Formatter) -> fmt::Result {
        let Counts {
            runs,
            steps,
            crashes,
            lost,
            doubled,
            reads,
            writes,
            sends,
            checks,
            joins,
            refused,
            anew,
            gone,
        } = self;
        write!(f, "{steps} steps in {runs} runs: {reads} reads, {writes} writes, {sends} sends, {checks} checks, {joins} joinings done, ")?;
        write!(f, "{refused} calls refused, {anew} made anew; {crashes} crashes, {lost} messages lost, {doubled} doubled, ")?;
        write!(f, "{gone} machines gone for good")
    }
}

/// The steps of a run before all come up again.
const STEPS: usize = 1200;
/// Rounds within which everything must be over then.
const ROUNDS: usize = 400;

/// The same schedule for the same seed. An error tells what is wrong.
pub fn run(seed: u64, slip: Option<Slip>, counts: &mut Counts) -> Result<(), Wrong> {
    let mut schedule = Schedule::new(seed, slip)?;
    let result = schedule.faults().and_then(|()| schedule.recover());
    let c = schedule.counts;
    counts.runs += 1;
    for (sum, one) in [
        (&mut counts.steps, c.steps),
        (&mut counts.crashes, c.crashes),
        (&mut counts.lost, c.lost),
        (&mut counts.doubled, c.doubled),
        (&mut counts.reads, c.reads),
        (&mut counts.writes, c.writes),
        (&mut counts.sends, c.sends),
        (&mut counts.checks, c.checks),
        (&mut counts.joins, c.joins),
        (&mut counts.refused, c.refused),
        (&mut counts.anew, c.anew),
        (&mut counts.gone, c.gone),
    ] {
        *sum += one;
    }
    result
}

struct Schedule {
    random: Random,
    world: World,
    counts: Counts,
    /// Any frame of the group: the one that newcomers are told of.
    frame: Frame,
    /// Doubles, and messages of another founding, that come late.
    late: Vec<Shared<Message>>,
    /// What a machine had said that is gone for good; it comes within some hundred steps.
    last_words: Vec<Shared<Message>>,
    /// Names cut off from the others, as bits.
    island: u64,
    /// What upkeep has found due, and at which node.
    todo: Vec<(usize, Request)>,
    /// How likely faults are in this run: one in so many.
    crash: usize,
    lose: usize,
    /// How many calls run at once.
    at_once: usize,
    double: usize,
    /// A machine goes for good when fewer steps than these are left.
    doom: Option<usize>,
    buried: bool,
    /// A done call went with its coordinator, and the operator has dropped it.
    lost_one: bool,
}

impl Schedule {
    fn new(seed: u64, slip: Option<Slip>) -> Result<Schedule, Wrong> {
        let mut random = Random::new(seed);
        let machines = [1, 2, 2, 3, 3, 3, 4, 4, 5, 6][random.below(10)];
        let newcomers = [0, 1, 2, 2][random.below(4)];
        let shape = if random.one_in(3) { Shape::Tall } else { Shape::Wide };
        let group = Group { capacity: machines + newcomers, files: 1 + random.below(2), file_len: 8, shape };
        let names: Vec<u16> = (1..=machines as u16).collect();
        let (frame, _) = Frame::found(group, &names).map_err(|refusal| refusal.to_string())?;
        let mut world = World::new(Founding(seed.into()), machines + newcomers, group, slip);
        world.found(group, machines)?;
        let doom = (machines > 1 && random.one_in(3)).then(|| random.below(STEPS));
        let mut schedule = Schedule {
            crash: [60, 200, 1000, 4000][random.below(4)],
            lose: [20, 100, 1000][random.below(3)],
            double: [1000, 100, 10, 3][random.below(4)],
            at_once: [1, 2, 4][random.below(3)],
            random,
            world,
            counts: Counts::default(),
            frame,
            late: Vec::new(),
            last_words: Vec::new(),
            island: 0,
            todo: Vec::new(),
            doom,
            buried: false,
            lost_one: false,
        };
        schedule.other_founding(group, machines)?;
        Ok(schedule)
    }

    /// Messages of a founding on the same names and sizes are about.
    fn other_founding(&mut self, group: Group, machines: usize) -> Result<(), Wrong> {
        let mut other = World::new(Founding(u128::MAX), machines, group, None);
        other.found(group, machines)?;
        for _ in 0..60 {
            if other.net.is_empty() || self.random.one_in(4) {
                let (at, request) = (self.random.below(machines), self.write(group.files));
                if other.nodes[at].machine.seat.is_some() {
                    other.begin(at, request.clone(), request.manner(), &self.frame, None)?;
                }
            } else {
                let place = self.random.below(other.net.len());
                self.late.push(other.net[place].clone());
                other.deliver(place, None)?;
            }
        }
        Ok(())
    }

    fn write(&mut self, files: usize) -> Request {
        let length = 1 + self.random.below(3);
        let patch = (0..length).map(|_| 1 + self.random.below(255) as u8).collect();
        Request::Write { file: 1 + self.random.below(files), offset: self.random.below(6), patch }
    }

    fn request(&mut self) -> Request {
        let files = self.frame.files();
        match self.random.below(14) {
            0..=4 => {
                Request::Read { file: 1 + self.random.below(files), offset: self.random.below(5), length: 3 }
            }
            5..=9 => self.write(files),
            10 => Request::Check { without: Rows::EMPTY },
            11 => {
                Request::Check { without: [1 + self.random.below(self.frame.used())].into_iter().collect() }
            }
            _ => Request::Survey,
        }
    }

    /// A step may end in a crash.
    fn ending(&mut self) -> Ending {
        if !self.random.one_in(self.crash) {
            return None;
        }
        self.counts.crashes += 1;
        Some(Crash { saved: self.random.one_in(2), said: self.random.below(4) })
    }

    fn any_up(&mut self) -> Option<usize> {
        let at = self.random.below(self.world.nodes.len());
        self.world.nodes[at].up.then_some(at)
    }

    /// Is the message between the island and the others?
    fn is_cut(&self, message: &Message) -> bool {
        let row_name = || {
            let mut seats = self
                .world
                .nodes
                .iter()
                .filter_map(|node| Some((node.machine.name, node.machine.seat.as_ref()?.row)));
            seats.find(|(_, row)| *row == message.row).map_or(0, |(name, _)| name)
        };
        let from = match &message.body {
            Body::Inquire { asker, .. } | Body::InDoubt { asker } => *asker,
            Body::Knows(_) => row_name(),
            body if body.is_for_coordinator() => row_name(),
            _ => message.call.name,
        };
        let cut_off = |name: u16| self.island >> name & 1;
        cut_off(from) != cut_off(message.to)
    }

    fn faults(&mut self) -> Result<(), Wrong> {
        for left in (0..STEPS).rev() {
            self.counts.steps += 1;
            if self.doom.is_some_and(|doom| left < doom) {
                self.one_goes()?;
            }
            self.step()?;
            self.hear_ends(8)?;
        }
        Ok(())
    }

    /// A machine is gone for good, while another is in doubt for a call of it. (An operator who errs says so of one that is not.)
    fn one_goes(&mut self) -> Result<(), Wrong> {
        let doubts = |node: &Shared<Node>| Some(node.machine.seat.as_ref()?.doubt.as_ref()?.call);
        let Some(call) = self.world.nodes.iter().find_map(doubts) else { return Ok(()) };
        let at = usize::from(call.name) - 1;
        let others = self
            .world
            .nodes
            .iter()
            .filter(|node| doubts(node) == Some(call) && node.machine.name != call.name)
            .count();
        // Where the coordinator has no row, all machines of the call may be left.
        let has_row = self.world.nodes[at].machine.seat.is_some();
        if (others < 2 || has_row) && !self.random.one_in(8) {
            return Ok(());
        }
        if !has_row || self.random.one_in(2) {
            // It had given the call up, and its word is still on the way.
            self.world.silence(call, None)?;
            let told = |said: &Message| said.call == call && said.body == Body::Drop;
            self.last_words.extend(self.world.net.iter().filter(|said| told(said)).cloned());
            self.world.net.retain(|said| !told(said));
        }
        self.doom = None;
        self.counts.gone += 1;
        if self.world.slip != Some(Slip::BuriedAlive) {
            self.world.crash(at);
            self.world.nodes[at].up = false;
        }
        self.world.nodes[at].gone = true;
        Ok(())
    }

    fn step(&mut self) -> Result<(), Wrong> {
        let ending = self.ending();
        let Some(at) = self.any_up() else {
            // A machine that is down comes up.
            let at = self.random.below(self.world.nodes.len());
            let node = &mut self.world.nodes[at];
            node.up = !node.gone && self.random.one_in(8) || node.up;
            return Ok(());
        };
        let net = self.world.net.len();
        match self.random.below(100) {
            0..=11 if self.world.running.len() < self.at_once => {
                let request = match self.world.nodes[at].machine.seat {
                    Some(_) => match self.todo.iter().position(|(node, _)| *node == at) {
                        Some(place) => self.todo.remove(place).1,
                        None => self.request(),
                    },
                    None if self.random.one_in(3) => Request::Join,
                    None => return Ok(()),
                };
                let (manner, frame) = (request.manner(), self.frame.clone());
                self.world.begin(at, request, manner, &frame, ending)
            }
            12 | 25..=27 if !self.world.running.is_empty() => {
                // A joining is often decided by few rows.
                let joining = self.world.running.iter().position(|(_, request)| *request == Request::Join);
                let place = joining.unwrap_or_else(|| self.random.below(self.world.running.len()));
                let number = self.world.running[place].0;
                if joining.is_none() && !self.random.one_in(3) {
                    self.world.nudge(number);
                    return Ok(());
                }
                self.world.silence(number, ending)
            }
            13 if self.random.one_in(self.crash / 20) => {
                self.counts.crashes += 1;
                self.world.crash(at);
                self.world.nodes[at].up = !self.random.one_in(2);
                Ok(())
            }
            14 => {
                self.world.unlock(at);
                Ok(())
            }
            15 | 16 => self.world.ask(at, ending),
            17 if self.random.one_in(4) => {
                self.world.inquire(at);
                Ok(())
            }
            18 | 19 => {
                self.world.remind(at);
                Ok(())
            }
            20 if net > 0 && self.random.one_in(self.lose / 20) => {
                self.counts.lost += 1;
                let place = self.random.below(net);
                self.world.net.swap_remove(place);
                Ok(())
            }
            21 | 22 if !self.late.is_empty() => {
                let place = self.random.below(self.late.len());
                self.world.net.push(self.late.swap_remove(place));
                Ok(())
            }
            23 if self.random.one_in(3) => {
                // Some are cut off from the others, any of them; two times of three nobody.
                let some = self.random.below(1 << self.world.nodes.len()) << 1;
                self.island = if self.random.one_in(3) { some as u64 } else { 0 };
                Ok(())
            }
            31 if !self.last_words.is_empty() => {
                self.world.net.extend(self.last_words.pop());
                Ok(())
            }
            // The operator tells one machine after the other; those in doubt ask each other.
            24 | 28..=30 if self.counts.gone > 0 => match self.world.nodes.iter().find(|node| node.gone) {
                Some(gone) if gone.machine.name != self.world.nodes[at].machine.name => {
                    let name = gone.machine.name;
                    self.world.inquire(at);
                    self.world.bury(at, name)
                }
                _ => Ok(()),
            },
            _ if net > 0 => {
                let place = self.random.below(net);
                if self.is_cut(&self.world.net[place]) {
                    return Ok(());
                }
                if self.random.one_in(self.double) && self.late.len() < 300 {
                    self.counts.doubled += 1;
                    self.late.push(self.world.net[place].clone());
                }
                self.world.deliver(place, ending)
            }
            _ => Ok(()),
        }
    }

    /// Attempts that ended: most are made anew where they must be; what a survey shows as due is noted.
    fn hear_ends(&mut self, stubborn: usize) -> Result<(), Wrong> {
        for (number, request, over) in std::mem::take(&mut self.world.ended) {
            let at = usize::from(number.name) - 1;
            match over {
                Over::Done(_) => {
                    let count = match request {
                        Request::Read { .. } => &mut self.counts.reads,
                        Request::Write { .. } => &mut self.counts.writes,
                        Request::Send { .. } => &mut self.counts.sends,
                        Request::Check { .. } => &mut self.counts.checks,
                        Request::Join | Request::Survey => &mut self.counts.joins,
                    };
                    *count += 1;
                }
                Over::Refused(_) => self.counts.refused += 1,
                Over::Anew(manner) => {
                    self.counts.anew += 1;
                    let joined = request == Request::Join && self.world.nodes[at].machine.seat.is_some();
                    if self.world.nodes[at].up && !joined && !self.random.one_in(stubborn) {
                        let frame = self.frame.clone();
                        self.world.begin(at, request, manner, &frame, None)?;
                    }
                }
                Over::Seen(bytes, rows) => {
                    let table = Table::from_bytes(bytes).map_err(|error| error.to_string())?;
                    let (own, refresh) = (self.row_of(at), self.random.one_in(3));
                    self.todo.extend(
                        due(&table, rows, own, refresh).into_iter().take(3).map(|request| (at, request)),
                    );
                }
            }
        }
        Ok(())
    }

    /// All are up, and nothing is lost or late any more: within some rounds every call has ended, no row is in doubt and no note is left;
    /// then upkeep makes every copy current, and every machine reads the newest version.
    fn recover(&mut self) -> Result<(), Wrong> {
        (self.island, self.todo) = (0, Vec::new());
        self.world.nodes.iter_mut().for_each(|node| node.up |= !node.gone);
        self.settle()?;
        if self.lost_one {
            return Ok(());
        }
        let gone = self.world.nodes.iter().any(|node| node.gone);
        let seated: Vec<usize> = (0..self.world.nodes.len())
            .filter(|at| self.world.nodes[*at].up && self.world.nodes[*at].machine.seat.is_some())
            .collect();
        let Some(&first) = seated.first() else { return Ok(()) };
        if !gone {
            // The first cannot refresh its own row: the last does.
            self.bring_up(first)?;
            self.bring_up(seated[seated.len() - 1])?;
            self.all_current(first)?;
        }
        for at in seated {
            for file in 1..=self.frame.files() {
                let over = self.make(at, Request::Read { file, offset: 0, length: 8 })?;
                let newest = self.world.judge.books[file - 1].len() - 1;
                if over != Over::Done(newest as u32) && !gone {
                    return Err(format!("all are up, and a read of version {newest} ended so: {over:?}"));
                }
            }
        }
        Ok(())
    }

    fn bring_up(&mut self, at: usize) -> Result<(), Wrong> {
        for _ in 0..60 {
            let Over::Seen(bytes, rows) = self.make(at, Request::Survey)? else {
                return Err("a survey was refused".into());
            };
            let table = Table::from_bytes(bytes).map_err(|error| error.to_string())?;
            let next = due(&table, rows, self.row_of(at), self.world.slip != Some(Slip::NeverRefreshes));
            if next.is_empty() {
                return Ok(());
            }
            for request in next {
                if let Over::Refused(number) = self.make(at, request.clone())? {
                    return Err(format!("all are up, and a {request:?} that is due is refused by {number}"));
                }
            }
        }
        Err("upkeep finds no end".into())
    }

    fn row_of(&self, at: usize) -> usize {
        self.world.nodes[at].machine.seat.as_ref().map_or(0, |seat| seat.row)
    }

    fn all_current(&mut self, at: usize) -> Result<(), Wrong> {
        let Over::Seen(bytes, rows) = self.make(at, Request::Survey)? else {
            return Err("a survey was refused".into());
        };
        let table = Table::from_bytes(bytes).map_err(|error| error.to_string())?;
        if !self.world.judge.rows().is_subset(rows) {
            return Err(format!("all are up, and of rows {} only {rows} answer", self.world.judge.rows()));
        }
        for file in 1..=self.frame.files() {
            let newest = self.world.judge.books[file - 1].len() - 1;
            if let Some(row) = rows
                .iter()
                .find(|row| table.file(file).copy(*row).map(|copy| copy.version as usize) != Some(newest))
            {
                return Err(format!("row {row} stays behind in file {file}"));
            }
        }
        Ok(())
    }

    /// Makes a call, anew until it has ended.
    fn make(&mut self, at: usize, request: Request) -> Result<Over, Wrong> {
        let mut manner = request.manner();
        for _ in 0..20 {
            let frame = self.frame.clone();
            self.world.begin(at, request.clone(), manner, &frame, None)?;
            self.settle()?;
            match self.world.ended.pop() {
                Some((_, _, Over::Anew(again))) => manner = again,
                Some((_, _, over)) => return Ok(over),
                None => return Err(format!("a {request:?} never ends")),
            }
            self.world.ended.clear();
        }
        Err(format!("a {request:?} is made anew without end"))
    }

    fn settle(&mut self) -> Result<(), Wrong> {
        for round in 0..ROUNDS {
            while !self.world.net.is_empty() {
                self.counts.steps += 1;
                // The first message, as in a quiet network: the last is put in its place.
                self.world.net.rotate_left(1);
                let last = self.world.net.len() - 1;
                self.world.deliver(last, None)?;
            }
            if self.is_quiet() {
                return Ok(());
            }
            let gone: Vec<u16> =
                self.world.nodes.iter().filter(|node| node.gone).map(|node| node.machine.name).collect();
            for at in (0..self.world.nodes.len()).filter(|at| self.world.nodes[*at].up).collect::<Vec<_>>() {
                if !self.buried {
                    let own = self.world.nodes[at].machine.name;
                    for name in gone.iter().filter(|name| **name != own) {
                        self.world.bury(at, *name)?;
                    }
                }
                self.world.ask(at, None)?;
                self.world.remind(at);
                if round % 4 == 1 {
                    self.world.inquire(at);
                    self.world.unlock(at);
                }
            }
            self.buried = true;
            for at in 0..self.world.nodes.len() {
                if round > 8 && self.world.nodes[at].up && self.world.abandon(at)? {
                    self.lost_one = true;
                    return Ok(());
                }
            }
            for (number, _) in self.world.running.clone() {
                if round % 3 == 2 {
                    self.world.silence(number, None)?;
                } else {
                    self.world.nudge(number);
                }
            }
        }
        let doubt = (0..self.world.nodes.len()).find(|at| self.world.in_doubt(*at));
        Err(match doubt {
            Some(at) => format!("machine {} is in doubt for ever", at + 1),
            None if self.world.running.is_empty() => "a note is never forgotten".into(),
            None => format!("all are up, and a call never ends: {:?}", self.world.running[0]),
        })
    }

    fn is_quiet(&self) -> bool {
        let gone = |row: usize| {
            self.world
                .nodes
                .iter()
                .any(|node| node.gone && node.machine.seat.as_ref().is_some_and(|seat| seat.row == row))
        };
        self.world.running.is_empty()
            && self.world.nodes.iter().enumerate().filter(|(_, node)| node.up).all(|(at, node)| {
                let waits = |note: &crate::Note| {
                    note.everyone().iter().any(|row| {
                        !note.took.contains(row)
                            && !gone(row)
                            && note.frame.name(row).is_some_and(|name| {
                                self.world.nodes.iter().any(|node| node.up && node.machine.name == name)
                            })
                    })
                };
                !self.world.in_doubt(at) && !node.coordinator.notes.iter().any(waits)
            })
    }
}
