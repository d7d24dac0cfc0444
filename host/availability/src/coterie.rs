//! Who holds a quorum of a list: for each length, and each set of positions, what the machines there get done.

use crate::explore::positions;
use crate::held::Held;
use crate::relay::{ask, renewed, Done};
use dyngrid::Rows;

/// Of lists of one length: what each set of positions gets done, by its bits.
pub struct Quorums {
    pub length: usize,
    done: Vec<Done>,
}

impl Quorums {
    fn told(length: usize, tell: impl Fn(usize) -> Done) -> Quorums {
        Quorums { length, done: (0..1 << length).map(tell).collect() }
    }

    pub fn of(&self, held: usize) -> Done {
        self.done[held]
    }
}

/// Of lists of every length from 1 on.
pub struct Coterie(Vec<Quorums>);

impl Coterie {
    /// As tables answer: one machine; and lists of a table of `most` machines, from which first and last are taken by turns.
    pub fn asked<T: Held>(
        founded: impl Fn(usize) -> T,
        most: usize,
        mut tell: impl FnMut(usize) -> Result<(), String>,
    ) -> Result<Coterie, String> {
        let mut coterie = vec![one_list(&founded(1), Rows::first(1))?];
        let (mut table, mut list) = (founded(most), Rows::first(most));
        let mut longest_first = Vec::new();
        while list.len() > 1 {
            tell(list.len())?;
            longest_first.push(one_list(&table, list)?);
            if list.len() == 2 {
                break;
            }
            let lost = if list.len() % 2 == 0 { list.iter().next() } else { list.iter().next_back() };
            list -= lost.into_iter().collect();
            table = renewed(&table, list)?;
        }
        coterie.extend(longest_first.into_iter().rev());
        Ok(Coterie(coterie))
    }

    /// More than half of the list.
    pub fn majority(most: usize) -> Coterie {
        by_number(most, |length, held| 2 * held > length)
    }

    /// As the paper's section 6 takes it: four or more bear the loss of any one, and three need all three.
    pub fn as_the_paper_takes_it(most: usize) -> Coterie {
        by_number(most, |length, held| held == length || length >= 4 && held + 1 == length)
    }

    /// Of lists of one length.
    pub fn of(&self, length: usize) -> &Quorums {
        &self.0[length - 1]
    }

    pub fn lengths(&self) -> impl Iterator<Item = &Quorums> {
        self.0.iter()
    }
}

/// The same for reads and writes, by the number of machines that are held.
fn by_number(most: usize, quorum: impl Fn(usize, usize) -> bool) -> Coterie {
    let of_length = |length| {
        Quorums::told(length, |held| {
            let done = quorum(length, held.count_ones() as usize);
            Done { write: done, read: done }
        })
    };
    Coterie((1..=most).map(of_length).collect())
}

/// Asks each set of members of the list in force.
fn one_list<T: Held>(table: &T, list: Rows) -> Result<Quorums, String> {
    let members: Vec<usize> = list.iter().collect();
    let mut done = Vec::with_capacity(1 << members.len());
    for held in 0..1 << members.len() {
        let up: Rows = members
            .iter()
            .enumerate()
            .filter(|(place, _)| held >> place & 1 == 1)
            .map(|(_, &row)| row)
            .collect();
        debug_assert_eq!(positions(list, up), held);
        done.push(ask(table, up).map_err(|problem| format!("list {list} in force: {problem}"))?);
    }
    Ok(Quorums { length: members.len(), done })
}
