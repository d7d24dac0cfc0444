//! How often the file cannot be written and read.

use crate::chain::{Chain, State};
use crate::classes::Classes;
use crate::coterie::{Coterie, Quorums};
use crate::held::{library, Second};
use crate::progress::Progress;
use dyngrid::Shape;

/// Parts of the time in which the file cannot be written, and not read.
#[derive(Clone, Copy, Debug)]
pub struct Unavailable {
    pub write: f64,
    pub read: f64,
}

/// A dynamic protocol in numbers.
pub struct Dynamic {
    pub unavailable: Unavailable,
    /// Of the time in which the file cannot be written, the part with a list in force of 1 member, 2, and so on.
    pub stuck: Vec<f64>,
    pub states: usize,
    pub residual: f64,
}

/// How many times as often a machine that is down is repaired as one that is up fails, if it is up the part `up` of the time.
pub fn repair_rate(up: f64) -> f64 {
    up / (1.0 - up)
}

/// No checks: the list that was founded stays in force.
pub fn fixed(quorums: &Quorums, up: f64) -> Unavailable {
    let machines = quorums.length;
    // Sets without a quorum, by their size; sums from the smallest weight on.
    let mut without = vec![[0_u32; 2]; machines + 1];
    for held in 0..1 << machines {
        let done = quorums.of(held);
        let [write, read] = &mut without[held.count_ones() as usize];
        *write += u32::from(!done.write);
        *read += u32::from(!done.read);
    }
    let weight = |size: usize| up.powi(size as i32) * (1.0 - up).powi((machines - size) as i32);
    let sum = |kind: usize| (0..=machines).map(|size| f64::from(without[size][kind]) * weight(size)).sum();
    Unavailable { write: sum(0), read: sum(1) }
}

/// A static grid of so many rows and columns, none of its places empty: a column fails with all its machines, and a write needs no column
/// failed and one whole.
pub fn full_grid(rows: i32, columns: i32, up: f64) -> Unavailable {
    let (failed, whole) = ((1.0 - up).powi(rows), up.powi(rows));
    let read = 1.0 - (1.0 - failed).powi(columns);
    Unavailable { write: read + (1.0 - failed - whole).powi(columns), read }
}

/// A way to lay lists, and its sets of positions put together.
pub struct Protocol {
    pub coterie: Coterie,
    classes: Vec<Classes>,
}

impl Protocol {
    pub fn of(coterie: Coterie) -> Result<Protocol, String> {
        let classes = coterie.lengths().map(Classes::of).collect::<Result<_, _>>()?;
        Ok(Protocol { coterie, classes })
    }

    /// Into how many classes the sets of positions fall that hold no write quorum of a list of this length.
    #[cfg(test)]
    pub fn classes_of(&self, length: usize) -> usize {
        self.classes[length - 1].classes.len()
    }

    /// Without checks.
    pub fn fixed(&self, machines: usize, up: f64) -> Unavailable {
        fixed(self.coterie.of(machines), up)
    }

    /// After each event a check by the machines that are up.
    pub fn dynamic(&self, machines: usize, up: f64) -> Dynamic {
        let chain = Chain::of(&self.classes, machines, repair_rate(up));
        let parts = chain.parts();
        let mut unavailable = Unavailable { write: 0.0, read: 0.0 };
        let mut stuck = vec![0.0; machines];
        for (state, part) in chain.states.iter().zip(&parts) {
            if let State::Stuck { length, class, .. } = *state {
                unavailable.write += part;
                stuck[length - 1] += part;
                if !self.classes[length - 1].classes[class].read {
                    unavailable.read += part;
                }
            }
        }
        stuck.iter_mut().for_each(|part| *part /= unavailable.write);
        Dynamic { unavailable, stuck, states: chain.states.len(), residual: chain.residual(&parts) }
    }
}

/// All that are compared.
pub struct Protocols {
    /// Every list in the published grid, one of five too, which the library does not lay: as the reference answers by the scope's
    /// rules alone.
    pub published: Protocol,
    /// As the library answers.
    pub wide: Protocol,
    pub tall: Protocol,
    /// More than half: majority voting without checks, dynamic voting with them.
    pub votes: Protocol,
    /// As the paper's section 6 takes the dynamic grid.
    pub paper: Protocol,
}

impl Protocols {
    /// Of lists of up to so many members.
    pub fn ask(most: usize, progress: &mut Progress) -> Result<Protocols, String> {
        let mut tell = |whose: &str, length: usize| {
            progress.at(|| format!("asking every set of a list of {length}, {whose}"))
        };
        Ok(Protocols {
            published: Protocol::of(Coterie::asked(Second::published, most, |length| {
                tell("published", length)
            })?)?,
            wide: Protocol::of(Coterie::asked(
                |used| library(used, Shape::Wide),
                most,
                |length| tell("wide", length),
            )?)?,
            tall: Protocol::of(Coterie::asked(
                |used| library(used, Shape::Tall),
                most,
                |length| tell("tall", length),
            )?)?,
            votes: Protocol::of(Coterie::majority(most))?,
            paper: Protocol::of(Coterie::as_the_paper_takes_it(most))?,
        })
    }

    /// The protocol of a shape.
    pub fn shaped(&self, shape: Shape) -> &Protocol {
        match shape {
            Shape::Wide => &self.wide,
            Shape::Tall => &self.tall,
        }
    }

    /// Every column of the page for so many machines.
    pub fn columns(&self, machines: usize, up: f64) -> Columns {
        let [published, wide, tall, voting, paper] =
            [&self.published, &self.wide, &self.tall, &self.votes, &self.paper]
                .map(|protocol| protocol.dynamic(machines, up));
        let (grid, majority) = (self.wide.fixed(machines, up), self.votes.fixed(machines, up));
        Columns { machines, grid, published, wide, tall, majority, voting, paper }
    }
}

/// Figures for one number of machines.
pub struct Columns {
    pub machines: usize,
    /// A wide founding of the library, never checked.
    pub grid: Unavailable,
    pub published: Dynamic,
    pub wide: Dynamic,
    pub tall: Dynamic,
    pub majority: Unavailable,
    pub voting: Dynamic,
    pub paper: Dynamic,
}

impl Columns {
    pub fn dynamics(&self) -> [&Dynamic; 5] {
        [&self.published, &self.wide, &self.tall, &self.voting, &self.paper]
    }
}
