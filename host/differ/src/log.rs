//! A case as a log, which `gridctl replay` takes: the answers are the reference's, so that the archive's first difference is shown.

use crate::call::{whole_orders, Answer, Call};
use crate::trial::Case;
use gridctl::bytes_told;
use reference::round::{Order, ORDER};
use reference::{rows, Engine};

const ALIKE: &str =
    "its calls answer alike: it fails on a table that is made of this one, or through the wrapper";

/// The log of a case that fails, or what of it a log cannot tell.
pub fn failing(case: &Case, reference: Engine) -> Result<String, &'static str> {
    let log = lines(case, reference)?;
    match gridctl::difference(&log) {
        Ok(None) => Err(ALIKE),
        _ => Ok(log),
    }
}

/// The log of any case.
fn lines(case: &Case, reference: Engine) -> Result<String, &'static str> {
    let mut table = case.table.clone();
    let mut log = String::new();
    let mut begun = !matches!(case.calls.first(), Some(Call::Found { .. }));
    if begun {
        if dyngrid::Table::from_bytes(table.clone()).is_err() {
            return Err("it begins with a table that no call takes");
        }
        log.push_str(&format!("table {}\n", bytes_told(&table)));
    }
    for call in &case.calls {
        let told = call_told(call, &Names::of(&table), table.len())?;
        if let Some(lent) = call.sheet() {
            if dyngrid::Sheet::from_bytes(lent).is_err() {
                return Err("it is lent a sheet that is not right");
            }
            log.push_str(&format!("sheet {}\n", bytes_told(lent)));
        }
        let founds = matches!(call, Call::Found { .. });
        if !begun && !founds {
            return Err("it makes a call before a founding is done");
        }
        let answer = call.refer(reference, &mut table);
        begun |= founds && answer.result >> 32 == 0;
        log.push_str(&format!("{told} = {}\n", answer_told(call, &answer)));
        if call.sheet().is_some() {
            log.push_str(&format!("counted {}\n", bytes_told(&answer.sheet)));
        }
    }
    if begun {
        log.push_str(&format!("leaves {}\n", bytes_told(&table)));
    }
    Ok(log)
}

fn call_told(call: &Call, names: &Names, length: usize) -> Result<String, &'static str> {
    Ok(match call {
        Call::Found { .. } => founding_told(call, length)?,
        Call::Join { name, county: 1 } => format!("join {name}"),
        Call::Join { name, county } if u8::try_from(*county).is_ok() => {
            format!("join {name} county {county}")
        }
        Call::Join { .. } => return Err("a joining has a county above 255"),
        Call::Read { coordinator, answering, offset, length, buffer, called, file } => {
            if buffer.len() as u64 != *length || called.len() != 1 {
                return Err("a read is lent lists of another length");
            }
            let (by, with) = (names.one(*coordinator), names.set(*answering));
            format!("read {by} with {with} file {file} at {offset} length {length}")
        }
        Call::Write { coordinator, answering, offset, patch, called, file, club, .. } => {
            if called.len() != 1 {
                return Err("a write is lent a list of another length");
            }
            let (by, with) = (names.one(*coordinator), names.set(*answering));
            format!("write {by} with {with} file {file} club {club} at {offset} {}", bytes_told(patch))
        }
        Call::Send { from, to, answering, file } => {
            let (from, to, with) = (names.one(*from), names.one(*to), names.set(*answering));
            format!("send {from} {to} with {with} file {file}")
        }
        Call::Check { coordinator, answering, .. } => {
            format!("check {} with {}", names.one(*coordinator), names.set(*answering))
        }
        Call::Round { answering, orders, .. } => round_told(*answering, orders, names)?,
        Call::Chart { .. } | Call::Choice { .. } | Call::Move { .. } => {
            return Err("it has a call that a log does not have");
        }
    })
}

/// A round, an order after the other; zeros stand where nobody reads.
fn round_told(answering: u64, orders: &[u8], names: &Names) -> Result<String, &'static str> {
    let mut told = format!("round with {}", names.set(answering));
    if !orders.len().is_multiple_of(ORDER) {
        return Err("a round's list ends inside an order");
    }
    for order in whole_orders(orders) {
        if order.written().is_empty() {
            return Err("an order has no byte, or more than eight");
        }
        let (by, patch) = (names.one(order.coordinator.into()), bytes_told(order.written()));
        let Order { file, club, offset, .. } = order;
        told.push_str(&format!(" order {by} file {file} club {club} at {offset} {patch}"));
    }
    Ok(told)
}

/// A log founds a table of the length that the founding needs.
fn founding_told(call: &Call, length: usize) -> Result<String, &'static str> {
    let Call::Found { capacity, file_len, names, choice, files, counties } = call else {
        return Err("it is no founding");
    };
    let shape = match choice {
        0 => "",
        1 => " tall",
        _ => return Err("a founding is neither wide nor tall"),
    };
    let needed = u128::from(*capacity) * (32 + u128::from(*files) * (588 + u128::from(*file_len))) + 16;
    if names.len() % 2 != 0 || needed != length as u128 {
        return Err("a founding is lent lists of another length");
    }
    let told: Vec<String> =
        names.chunks_exact(2).map(|name| u16::from_le_bytes([name[0], name[1]]).to_string()).collect();
    let told = if told.is_empty() { "nobody".into() } else { told.join(",") };
    let counties: Vec<String> = counties.iter().map(u8::to_string).collect();
    let counties = if counties.is_empty() { "none".into() } else { counties.join(",") };
    Ok(format!("found {told} length {file_len} capacity {capacity} files {files}{shape} counties {counties}"))
}

fn answer_told(call: &Call, answer: &Answer) -> String {
    let (refusal, value) = ((answer.result >> 32) as u32, answer.result as u32);
    let told = gridctl::Answer {
        refusal,
        value: (refusal == 0 || matches!(call, Call::Round { .. })).then_some(value),
        called: answer.called.first().map(|&called| called.into()),
        bytes: matches!(call, Call::Read { .. } if refusal == 0).then(|| answer.buffer.clone()),
    };
    told.to_string()
}

/// The names of the rows in use.
struct Names(Vec<u16>);

impl Names {
    fn of(table: &[u8]) -> Names {
        let views = dyngrid::Table::from_bytes(table.to_vec());
        Names(views.map_or(Vec::new(), |table| table.views().map(|view| view.name).collect()))
    }

    fn one(&self, row: u64) -> String {
        let place = row.checked_sub(1).and_then(|place| usize::try_from(place).ok());
        match place.and_then(|place| self.0.get(place)) {
            Some(name) => name.to_string(),
            None => format!("?{row}"),
        }
    }

    fn set(&self, set: u64) -> String {
        let members: Vec<String> = rows::members(set).map(|row| self.one(row as u64)).collect();
        if members.is_empty() {
            "nobody".into()
        } else {
            members.join(",")
        }
    }
}

#[cfg(test)]
mod tests {
    use super::*;
    use crate::{Mistake, Run};
    use reference::Blunder;

    /// Without a blunder no log differs; with it, most logs that can be told do.
    #[test]
    fn a_failing_case_fails_in_its_log() {
        let mut shown = 0;
        for blunder in Blunder::ALL {
            let mut run = Run::new(1992, Some(Mistake::Blunder(blunder)));
            let failed = run.cases(20_000, |_| {}).expect("a blunder is found");
            let (case, failure) = run.shrink(&failed);
            let right = Engine::default();
            if let Ok(log) = lines(&case, right) {
                assert_eq!(gridctl::difference(&log), Ok(None), "{}:\n{log}", blunder.name());
            }
            match failing(&case, Engine { blunder: Some(blunder), ..right }) {
                Ok(_) => shown += 1,
                Err(ALIKE) => {
                    assert!(ELSEWHERE.iter().any(|begin| failure.what.starts_with(begin)), "{}", failure.what)
                }
                Err(_) => {}
            }
        }
        assert!(shown > 20, "{shown} logs");
    }

    /// Where the test looks besides at the calls of a case.
    const ELSEWHERE: [&str; 3] =
        ["with a row that did not answer in another county", "sends of file", "of a round, write"];
}
