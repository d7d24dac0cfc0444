//! What the relay does in the model: after each event a check by the machines that are up, and sends to the stale rows.

use crate::held::Held;
use dyngrid::{Refusal, Rows};

/// What the machines that are up get done. A check is done where a write is.
#[derive(Clone, Copy, Debug, PartialEq, Eq, PartialOrd, Ord, Hash)]
pub struct Done {
    pub write: bool,
    pub read: bool,
}

/// Where no machine is up, nobody calls.
const NOTHING: Done = Done { write: false, read: false };

/// Asks each of the machines that are up. They must agree, check and write must, and 6 is the only refusal.
pub fn ask<T: Held>(table: &T, up: Rows) -> Result<Done, String> {
    let mut agreed = None;
    for by in up {
        let done = |answer: Result<u32, Refusal>| match answer {
            Ok(_) => Ok(true),
            Err(Refusal::NoQuorum) => Ok(false),
            Err(refusal) => Err(format!("{up} are up, and a call by {by} is {refusal}")),
        };
        let check = done(table.clone().check(by, up))?;
        let answer = Done { write: done(table.clone().write(by, up))?, read: done(table.read(by, up))? };
        if answer.write != check || *agreed.get_or_insert(answer) != answer {
            return Err(format!(
                "{up} are up, and the calls by {by} are not as others: check {check}, {answer:?}, {agreed:?}"
            ));
        }
    }
    Ok(agreed.unwrap_or(NOTHING))
}

/// The table after a check by the machines that are up, one that is done, and what the relay does until the next event: the stale
/// rows are brought up to date, then each machine writes once, and after each write the rows that it made stale are brought up to date.
pub fn renewed<T: Held>(table: &T, up: Rows) -> Result<T, String> {
    let mut table = table.clone();
    let refused = |call: &str, refusal: Refusal| format!("{up} are up, and a {call} is {refusal}");
    let first = up.iter().next().ok_or("nobody is up to check")?;
    let epoch = table.check(first, up).map_err(|refusal| refused("check", refusal))?;
    let laid = |row| table.row(row).list.members == up.bits() && table.row(row).epoch == epoch;
    if !up.iter().all(laid) {
        return Err(format!("a check by {first}, {up} answering, is done, but does not lay their list"));
    }
    catch_up(&mut table, up).map_err(|refusal| refused("send", refusal))?;
    for by in up {
        table.write(by, up).map_err(|refusal| refused("write", refusal))?;
        catch_up(&mut table, up).map_err(|refusal| refused("send", refusal))?;
    }
    Ok(table)
}

/// Sends to each stale row that is up, from one of the newest version.
pub fn catch_up<T: Held>(table: &mut T, up: Rows) -> Result<(), Refusal> {
    let fresh = up.iter().filter(|&row| !table.copy(row).stale);
    let Some(newest) = fresh.max_by_key(|&row| table.copy(row).version) else { return Ok(()) };
    for row in up {
        if table.copy(row).stale {
            table.send(newest, row, up)?;
        }
    }
    Ok(())
}
