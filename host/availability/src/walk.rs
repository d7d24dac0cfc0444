//! The model walked through by chance on one table of the library, event by event: a second way to the figures.

use crate::coterie::Coterie;
use crate::explore::{positions, toggled};
use crate::figures::repair_rate;
use crate::held::Held;
use crate::relay::{ask, catch_up};
use differ::Random;
use dyngrid::Rows;

/// The walk is cut into so many parts, which are taken as independent.
const BATCHES: usize = 50;
/// Student's t for 49 degrees of freedom: 99.9 in 100 intervals hold the true figure.
const STUDENT: f64 = 3.50;

/// A figure of a walk, and how far to either side of it the true one may well be.
pub struct Estimate {
    pub mean: f64,
    pub margin: f64,
}

impl Estimate {
    fn of(batches: &[f64]) -> Estimate {
        let count = batches.len() as f64;
        let mean = batches.iter().sum::<f64>() / count;
        let variance = batches.iter().map(|batch| (batch - mean).powi(2)).sum::<f64>() / (count - 1.0);
        Estimate { mean, margin: STUDENT * (variance / count).sqrt() }
    }

    pub fn holds(&self, figure: f64) -> bool {
        (self.mean - figure).abs() <= self.margin
    }
}

/// Parts of the time in which the file could not be written, and not read, in a walk of so many events; the answers at each step
/// must be what the coterie says. Between events machines write by chance, and the stale rows are brought up to date.
pub fn walk<T: Held>(
    mut table: T,
    machines: usize,
    coterie: &Coterie,
    up_part: f64,
    events: usize,
    random: &mut Random,
) -> Result<[Estimate; 2], String> {
    let repair = repair_rate(up_part);
    let all = Rows::first(machines);
    let (mut list, mut up) = (all, all);
    let mut parts = [const { Vec::new() }; 2];
    for _ in 0..BATCHES {
        let (mut time, mut without) = (0.0, [0.0; 2]);
        for _ in 0..events / BATCHES {
            let done = ask(&table, up)?;
            let told = coterie.of(list.len()).of(positions(list, up));
            if done != told {
                return Err(format!("list {list} in force, {up} up: {done:?}, not {told:?}"));
            }
            if done.write {
                settle(&mut table, up, random).map_err(|refusal| format!("{up} are up: {refusal}"))?;
                list = up;
            }
            let (failing, repairing) = (up.len() as f64, (all - up).len() as f64 * repair);
            let rest = -(1.0 - chance(random)).ln() / (failing + repairing);
            time += rest;
            without[0] += if done.write { 0.0 } else { rest };
            without[1] += if done.read { 0.0 } else { rest };
            let fails = chance(random) * (failing + repairing) < failing;
            let machine = random.row(if fails { up } else { all - up }.bits());
            up = toggled(up, machine);
        }
        parts.iter_mut().zip(without).for_each(|(parts, without)| parts.push(without / time));
    }
    Ok(parts.map(|parts| Estimate::of(&parts)))
}

/// The check after an event, one that is done, then up to two writes; whoever calls.
fn settle<T: Held>(table: &mut T, up: Rows, random: &mut Random) -> Result<(), dyngrid::Refusal> {
    table.check(random.row(up.bits()), up)?;
    catch_up(table, up)?;
    for _ in 0..random.between(0, 2) {
        table.write(random.row(up.bits()), up)?;
        catch_up(table, up)?;
    }
    Ok(())
}

/// From 0 to 1, 1 not among them.
fn chance(random: &mut Random) -> f64 {
    (random.next() >> 11) as f64 / (1_u64 << 53) as f64
}
