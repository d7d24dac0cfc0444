//! Sets of positions without a write quorum, put together where they go on alike.
//!
//! They begin in one class where they are of one size and give the same reads. Then a class is cut in two as long as one of its sets
//! has another number of ways into some class than another set of it. What is left together goes on alike for ever: the sums over the
//! classes are a Markov chain again (it is lumpable), with the same figures.

use crate::coterie::Quorums;
use std::collections::HashMap;

/// One class of a list's sets of positions, none of which holds a write quorum.
#[derive(Clone, Debug, PartialEq, Eq)]
pub struct Class {
    /// How many members are up.
    pub size: usize,
    pub read: bool,
    /// Classes come to when one of those up fails, each with the number of ways.
    pub failed: Vec<(usize, usize)>,
    /// Classes come to when one of the others is repaired.
    pub repaired: Vec<(usize, usize)>,
    /// Repairs that bring a write quorum.
    pub quorum: usize,
}

/// The classes of one length, and where a failure leads from the whole list.
#[derive(Clone, Debug)]
pub struct Classes {
    pub classes: Vec<Class>,
    /// Failures, out of all members up, after which the others hold a write quorum.
    pub borne: usize,
    /// Classes come to by the other failures, each with the number of ways.
    pub fatal: Vec<(usize, usize)>,
}

/// Where a repair leads.
const QUORUM: usize = usize::MAX;

impl Classes {
    pub fn of(quorums: &Quorums) -> Result<Classes, String> {
        let length = quorums.length;
        let stuck: Vec<usize> = (0..1 << length).filter(|&held| !quorums.of(held).write).collect();
        let mut class_of = vec![QUORUM; 1 << length];
        let mut count = number(&stuck, &mut class_of, |held, _| (held.count_ones(), quorums.of(held).read));
        loop {
            let finer = number(&stuck, &mut class_of, |held, class_of| {
                (class_of[held], ways(length, held, class_of))
            });
            if finer == count {
                break;
            }
            count = finer;
        }
        let mut classes = vec![None; count];
        for &held in &stuck {
            let (failed, repaired) = ways(length, held, &class_of);
            if failed.iter().any(|&(class, _)| class == QUORUM) {
                return Err(format!("of {length} positions, {held:#b} gains a write quorum by a failure"));
            }
            let (quorum, repaired): (Vec<_>, Vec<_>) =
                repaired.into_iter().partition(|&(class, _)| class == QUORUM);
            let quorum = quorum.iter().map(|&(_, ways)| ways).sum();
            let class = Class {
                size: held.count_ones() as usize,
                read: quorums.of(held).read,
                failed,
                repaired,
                quorum,
            };
            if *classes[class_of[held]].get_or_insert(class.clone()) != class {
                return Err(format!(
                    "of {length} positions, {held:#b} is in one class with another that goes on otherwise"
                ));
            }
        }
        let (lost, _) = ways(length, (1 << length) - 1, &class_of);
        let (borne, fatal): (Vec<_>, Vec<_>) = lost.into_iter().partition(|&(class, _)| class == QUORUM);
        let borne = borne.iter().map(|&(_, ways)| ways).sum();
        let classes = classes.into_iter().flatten().collect();
        Ok(Classes { classes, borne, fatal })
    }
}

/// Gives sets with equal keys one number, from 0 on; returns how many there are.
fn number<K: std::hash::Hash + Eq>(
    stuck: &[usize],
    class_of: &mut [usize],
    key: impl Fn(usize, &[usize]) -> K,
) -> usize {
    let mut numbers = HashMap::new();
    let named: Vec<usize> = stuck
        .iter()
        .map(|&held| {
            let next = numbers.len();
            *numbers.entry(key(held, class_of)).or_insert(next)
        })
        .collect();
    for (&held, name) in stuck.iter().zip(named) {
        class_of[held] = name;
    }
    numbers.len()
}

type Ways = Vec<(usize, usize)>;

/// The classes that a failure leads to, and those that a repair leads to, each with the number of ways.
fn ways(length: usize, held: usize, class_of: &[usize]) -> (Ways, Ways) {
    let after = |wanted: usize| {
        let places = (0..length).filter(move |place| held >> place & 1 == wanted);
        let mut classes: Vec<usize> = places.map(|place| class_of[held ^ 1 << place]).collect();
        classes.sort_unstable();
        classes.chunk_by(|one, two| one == two).map(|alike| (alike[0], alike.len())).collect()
    };
    (after(1), after(0))
}
