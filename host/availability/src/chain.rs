//! The Markov chain of a number of machines, and how long it is in each state.

use crate::classes::Classes;
use std::collections::{BTreeMap, HashMap, HashSet};

/// A state: a list of so many members in force.
#[derive(Clone, Copy, Debug, PartialEq, Eq, Hash)]
pub enum State {
    /// Its members are the machines that are up.
    Live { length: usize },
    /// Those of its members that are up hold no write quorum; besides them so many other machines are up.
    Stuck { length: usize, class: usize, others: usize },
}

/// Rates between states; state 0 is the founding's, and comes again from every state.
pub struct Chain {
    pub states: Vec<State>,
    /// For each state, the states it goes to, with the rate.
    rates: Vec<Vec<(usize, f64)>>,
}

impl Chain {
    /// Each machine fails at rate 1 while it is up, and is repaired at `repair` while it is down. `classes` are those of the
    /// lengths from 1 on.
    pub fn of(classes: &[Classes], machines: usize, repair: f64) -> Chain {
        let moves = |state| moves(classes, machines, repair, state);
        let mut states = vec![State::Live { length: machines }];
        let mut found = HashSet::from([states[0]]);
        let mut next = 0;
        while next < states.len() {
            states.extend(
                moves(states[next]).into_iter().map(|(state, _)| state).filter(|&state| found.insert(state)),
            );
            next += 1;
        }
        // Those that are stuck last, list by list: they are taken out first, and then only bind states of one list.
        states.sort_by_key(|&state| match state {
            State::Live { length } => (0, machines - length),
            State::Stuck { length, .. } => (length, 0),
        });
        let number: HashMap<State, usize> = states.iter().copied().zip(0..).collect();
        let rates = states.iter().map(|&state| {
            let mut out = BTreeMap::new();
            moves(state).into_iter().for_each(|(next, rate)| *out.entry(number[&next]).or_default() += rate);
            out.into_iter().collect()
        });
        let rates = rates.collect();
        Chain { states, rates }
    }

    /// A chain of these rates; it must come to state 0 from every state.
    #[cfg(test)]
    pub fn of_rates(rates: Vec<Vec<(usize, f64)>>) -> Chain {
        Chain { states: (0..rates.len()).map(|length| State::Live { length }).collect(), rates }
    }

    /// The part of the time that it is in each state, by the elimination of Grassmann, Taksar and Heyman: the last state is taken out,
    /// its visits being counted as direct ways between the others, and so on. It only adds, multiplies and divides positive numbers,
    /// so every part, however small, is right to nearly all digits.
    pub fn parts(&self) -> Vec<f64> {
        let count = self.states.len();
        let mut rate = vec![vec![0.0; count]; count];
        for (from, out) in self.rates.iter().enumerate() {
            out.iter().for_each(|&(to, by)| rate[from][to] += by);
        }
        for last in (1..count).rev() {
            let out = rate[last].clone();
            let total: f64 = out[..last].iter().sum();
            let ways: Vec<usize> = (0..last).filter(|&to| out[to] > 0.0).collect();
            for from in &mut rate[..last] {
                if from[last] > 0.0 {
                    // Kept for the way back: the time in the last state for each unit of time in this one.
                    from[last] /= total;
                    ways.iter().for_each(|&to| from[to] += from[last] * out[to]);
                }
            }
        }
        let mut parts = vec![1.0];
        for state in 1..count {
            let ways = parts.iter().zip(&rate).map(|(part, from)| part * from[state]);
            parts.push(ways.sum());
        }
        let whole: f64 = parts.iter().sum();
        parts.iter().map(|part| part / whole).collect()
    }

    /// How far the parts are from balance: the largest difference, over all states, between what comes in and what goes out, as a part of
    /// what goes out.
    pub fn residual(&self, parts: &[f64]) -> f64 {
        let mut comes = vec![0.0; parts.len()];
        let mut goes = vec![0.0; parts.len()];
        for (from, out) in self.rates.iter().enumerate() {
            for &(to, rate) in out.iter().filter(|&&(to, _)| to != from) {
                comes[to] += parts[from] * rate;
                goes[from] += parts[from] * rate;
            }
        }
        comes.iter().zip(goes).map(|(comes, goes)| ((comes - goes) / goes).abs()).fold(0.0, f64::max)
    }
}

/// Where a state goes to, and at what rate; the same state may come several times.
fn moves(classes: &[Classes], machines: usize, repair: f64, state: State) -> Vec<(State, f64)> {
    let mut moves = Vec::new();
    let mut go = |state, ways: usize, rate: f64| {
        if ways > 0 {
            moves.push((state, ways as f64 * rate));
        }
    };
    match state {
        State::Live { length } => {
            let list = &classes[length - 1];
            go(State::Live { length: length + 1 }, machines - length, repair);
            go(State::Live { length: length - 1 }, list.borne, 1.0);
            for &(class, ways) in &list.fatal {
                go(State::Stuck { length, class, others: 0 }, ways, 1.0);
            }
        }
        State::Stuck { length, class, others } => {
            let at = |class, others| State::Stuck { length, class, others };
            let held = &classes[length - 1].classes[class];
            held.failed.iter().for_each(|&(class, ways)| go(at(class, others), ways, 1.0));
            held.repaired.iter().for_each(|&(class, ways)| go(at(class, others), ways, repair));
            go(State::Live { length: held.size + 1 + others }, held.quorum, repair);
            if others > 0 {
                go(at(class, others - 1), others, 1.0);
            }
            go(at(class, others + 1), machines - length - others, repair);
        }
    }
    moves
}
