//! The differential test: every call goes to the archive and to the reference, on the same bytes.
//! Result, whole table and whole buffer must agree, and founded histories must agree with the plain book.

mod archive;
mod call;
mod damage;
mod generate;
mod guard;
#[cfg(test)]
mod histories;
mod ledger;
mod log;
mod random;
mod relay;
mod report;
mod rounds;
mod sheets;
mod shrink;
mod tables;
mod trial;
mod wrapper;

pub use archive::report_faults;
pub use call::{bytes_shown, Call};
pub use random::Random;
pub use relay::Slip;
pub use report::Counts;
pub use trial::{Case, Failure};

use archive::Archive;
use generate::{Plan, MOVED_FORMS};
use guard::Edge;
use reference::{Blunder, Engine};
use shrink::Shrinker;
use trial::Trial;

/// A run of cases; each has its own random numbers, so that one can be repeated alone.
pub struct Run {
    pub seed: u64,
    reference: Engine,
    slip: Option<Slip>,
    archive: Archive,
    pub counts: Counts,
}

/// What is made wrong on purpose, so that a difference must follow.
#[derive(Clone, Copy, Debug, PartialEq, Eq)]
pub enum Mistake {
    Blunder(Blunder),
    Slip(Slip),
}

impl Mistake {
    pub fn all() -> impl Iterator<Item = Mistake> {
        let blunders = Blunder::ALL.into_iter().map(Mistake::Blunder);
        blunders.chain(Slip::ALL.into_iter().map(Mistake::Slip))
    }

    /// Its name on a command line.
    pub fn name(self) -> &'static str {
        match self {
            Mistake::Blunder(blunder) => blunder.name(),
            Mistake::Slip(slip) => slip.name(),
        }
    }

    pub fn from_name(name: &str) -> Option<Mistake> {
        Mistake::all().find(|mistake| mistake.name() == name)
    }
}

/// A case that failed, and its number.
pub struct Failed {
    pub number: u64,
    pub case: Case,
    pub failure: Failure,
}

impl Run {
    pub fn new(seed: u64, mistake: Option<Mistake>) -> Run {
        let (blunder, slip) = match mistake {
            Some(Mistake::Blunder(blunder)) => (Some(blunder), None),
            Some(Mistake::Slip(slip)) => (None, Some(slip)),
            None => (None, None),
        };
        let reference = Engine { blunder, ..Engine::default() };
        Run { seed, reference, slip, archive: Archive::new(), counts: Counts::default() }
    }

    /// Makes the calls of one case; stops at the first difference.
    pub fn case(&mut self, number: u64) -> Option<Failed> {
        archive::now_in(self.seed, number);
        let mut random = Random::new(self.seed, number);
        let edge = if random.chance(1, 2) { Edge::Start } else { Edge::End };
        // The first cases try every chart, and every choice, move and round on a few tables, in lists against one edge and against the other.
        let (edge, mut plan) = match number {
            0 => (Edge::Start, Plan::charts(&mut random)),
            1 => (Edge::End, Plan::charts(&mut random)),
            2..=7 if number.is_multiple_of(2) => (Edge::Start, Plan::choices(&mut random)),
            2..=7 => (Edge::End, Plan::choices(&mut random)),
            8..36 => {
                let edge = if number.is_multiple_of(2) { Edge::Start } else { Edge::End };
                let (form, published) = (MOVED_FORMS[(number as usize - 8) / 4], number % 4 < 2);
                (edge, Plan::moves(&mut random, form, published))
            }
            36 => (Edge::Start, Plan::rounds(&mut random)),
            37 => (Edge::End, Plan::rounds(&mut random)),
            _ => (edge, Plan::pick(&mut random)),
        };
        if let Some(damaged) = &plan.damage {
            self.counts.add_damage(damaged);
        }
        let mut case = Case { table: plan.table(), ledger: plan.ledger(), calls: Vec::new(), edge };
        let mut trial = Trial::new(&mut self.archive, self.reference, &case).slipping(self.slip);
        for _ in 0..plan.calls() {
            let call = plan.next(&mut random, trial.table());
            case.calls.push(call.clone());
            match trial.step(&call) {
                Ok(step) => {
                    self.counts.add(&call, step);
                    plan.left(&call, trial.sheet());
                }
                Err(what) => {
                    let failure = Failure { call: case.calls.len() - 1, what };
                    return Some(Failed { number, case, failure });
                }
            }
        }
        None
    }

    /// Runs cases until `calls` calls were made or one fails; `tell` hears of each case.
    pub fn cases(&mut self, calls: u64, mut tell: impl FnMut(&Counts)) -> Option<Failed> {
        let mut number = 0;
        while self.counts.total() < calls {
            if let Some(failed) = self.case(number) {
                return Some(failed);
            }
            tell(&self.counts);
            number += 1;
        }
        None
    }

    /// A failing case as a log for `gridctl replay`, or what of it a log cannot tell.
    pub fn log(&self, case: &Case) -> Result<String, &'static str> {
        log::failing(case, self.reference)
    }

    /// The case cut down to few and short calls that still fail.
    pub fn shrink(&mut self, failed: &Failed) -> (Case, Failure) {
        let mut fails = |case: &Case| trial::replay(&mut self.archive, self.reference, self.slip, case);
        Shrinker::shrink(&failed.case, &failed.failure, &mut fails)
    }
}
