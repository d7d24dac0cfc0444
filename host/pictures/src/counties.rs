//! Machines of several counties: which losses they bear, as the library answers.

use crate::measure::{self, Range};
use dyngrid::{Refusal, Rows, Shape, Table};
use std::collections::HashMap;

/// Machines of the counties 1 upward: so many of each, one county after the other.
#[derive(Debug, PartialEq, Eq)]
pub struct Laying {
    pub sizes: Vec<usize>,
    pub wide: Losses,
    pub tall: Losses,
    /// How many machines a read and a write call in a wide table.
    pub read: Range,
    pub write: Range,
}

/// Which losses are borne in a table of one shape.
#[derive(Debug, PartialEq, Eq)]
pub struct Losses {
    /// The machines without each of which nobody writes or checks, and nobody reads.
    pub to_write: Rows,
    pub to_read: Rows,
    /// So many machines can be lost one after the other, whichever they are, with a check after each.
    pub in_a_row: usize,
}

impl Laying {
    pub fn of(sizes: &[usize]) -> Result<Laying, Refusal> {
        let counties: Vec<u8> = (1..).zip(sizes).flat_map(|(county, &size)| vec![county; size]).collect();
        let [wide, tall] =
            [Shape::Wide, Shape::Tall].map(|shape| Losses::of(&measure::founded_in(&counties, shape)?));
        let called = measure::measured(&measure::founded_in(&counties, Shape::Wide)?)?;
        Ok(Laying { sizes: sizes.to_vec(), wide: wide?, tall: tall?, read: called.read, write: called.write })
    }

    /// May any one machine be lost, in a wide table and in a tall one?
    pub fn bears_any(&self) -> bool {
        self.wide.to_write.is_empty() && self.tall.to_write.is_empty()
    }

    pub fn machines(&self) -> usize {
        self.sizes.iter().sum()
    }

    /// As "4 + 1".
    pub fn title(&self) -> String {
        self.sizes.iter().map(usize::to_string).collect::<Vec<_>>().join(" + ")
    }
}

impl Losses {
    fn of(founded: &Table) -> Result<Losses, Refusal> {
        let all = founded.rows();
        Ok(Losses {
            to_write: all - measure::measured(founded)?.borne,
            to_read: all - measure::read_on(founded)?,
            in_a_row: in_a_row(founded, all, &mut HashMap::new())?,
        })
    }
}

/// From the list in force on: how many can be lost whatever comes. Each list is asked once.
fn in_a_row(table: &Table, list: Rows, known: &mut HashMap<u64, usize>) -> Result<usize, Refusal> {
    if let Some(&losses) = known.get(&list.bits()) {
        return Ok(losses);
    }
    let mut least = usize::MAX;
    for lost in list {
        let left = list - Rows::of(&[lost])?;
        let Some(by) = left.iter().next() else { return Ok(0) };
        let mut after = table.clone();
        let losses = match after.check(by, left) {
            Ok(_) => 1 + in_a_row(&after, left, known)?,
            Err(Refusal::NoQuorum) => 0,
            Err(refusal) => return Err(refusal),
        };
        least = least.min(losses);
    }
    known.insert(list.bits(), least);
    Ok(least)
}

/// Of so many counties the laying with the fewest machines that bears the loss of any one of them; there is one.
pub fn least(counties: usize) -> Result<Laying, Refusal> {
    for machines in counties.. {
        let mut found = Vec::new();
        for sizes in sums(machines, counties) {
            let laying = Laying::of(&sizes)?;
            if laying.bears_any() {
                found.push(laying);
            }
        }
        assert!(found.len() < 2, "several least layings: {found:?}");
        if let Some(least) = found.pop() {
            return Ok(least);
        }
    }
    unreachable!("four machines in each county bear any loss")
}

/// The ways to write a number as a sum of so many numbers from 1 on.
fn sums(number: usize, parts: usize) -> Vec<Vec<usize>> {
    match parts {
        0 if number == 0 => vec![Vec::new()],
        0 => Vec::new(),
        _ => (1..=number)
            .flat_map(|first| {
                sums(number - first, parts - 1).into_iter().map(move |rest| [vec![first], rest].concat())
            })
            .collect(),
    }
}

#[cfg(test)]
mod tests {
    use super::*;

    fn laying(sizes: &[usize]) -> Laying {
        Laying::of(sizes).expect("no refusal")
    }

    #[test]
    fn least_layings_as_the_page_says() {
        let least = |counties| least(counties).expect("no refusal").sizes;
        assert_eq!([1, 2, 3, 4, 5].map(least), [vec![4], vec![4, 4], vec![1, 4, 1], vec![1; 4], vec![1; 5]]);
    }

    #[test]
    fn losses_one_after_the_other() {
        let in_a_row = |sizes: &[usize]| {
            let Laying { wide, tall, .. } = laying(sizes);
            assert_eq!(wide.in_a_row, tall.in_a_row, "{sizes:?}");
            wide.in_a_row
        };
        assert_eq!([&[1][..], &[2], &[3], &[4], &[8]].map(in_a_row), [0, 0, 0, 1, 5]);
        assert_eq!([&[4, 1][..], &[4, 4], &[5, 5], &[2, 2, 2, 2]].map(in_a_row), [0, 1, 2, 2]);
    }

    #[test]
    fn who_cannot_be_spared() {
        let rows = |rows: &[usize]| Rows::of(rows).expect("rows");
        let Laying { wide, tall, .. } = laying(&[4, 1]);
        assert_eq!((wide.to_write, wide.to_read), (rows(&[5]), rows(&[5])));
        assert_eq!((tall.to_write, tall.to_read), (rows(&[5]), Rows::EMPTY));
        assert_eq!(laying(&[2, 2]).wide.to_read, Rows::first(4));
    }
}
