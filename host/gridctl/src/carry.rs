//! `carry`: the forms of a table.

use crate::arguments::Arguments;
use crate::{unusable, Stop, Told};
use dyngrid::{Call, Form3Table, NotATable, OlderForm, Refusal, Table};
use std::fs;
use std::path::Path;

pub fn carry(arguments: &mut Arguments) -> Told {
    let file = arguments.word("FILE")?;
    let bytes = fs::read(&file).map_err(|error| unusable(format!("{file}: {error}")))?;
    let Some(form) = arguments.optional() else { return tell(bytes) };
    let out = arguments.word("OUT")?;
    arguments.end()?;
    let refused = |refusal: Refusal| Stop::Refused(refusal.notice(Call::Move, 0).to_string());
    let older = [("1", OlderForm::One), ("2", OlderForm::Two), ("3", OlderForm::Three)];
    let (_, to) = older
        .into_iter()
        .find(|(number, _)| *number == form)
        .ok_or_else(|| unusable(format!("a table is carried to form 1, 2 or 3, and not to {form}")))?;
    let carried = match to {
        OlderForm::Three => Form3Table::carry_up(&bytes).map_err(refused)?.into_bytes(),
        older => {
            let from_3 = |error: NotATable| match error.older_form() {
                Some(OlderForm::Four) => unusable("a table of form 4 is carried nowhere"),
                Some(form) => {
                    unusable(format!("a table of form {} is carried to form 3 alone", form.number()))
                }
                None => match Table::from_bytes(error.into_bytes()) {
                    Ok(_) => unusable("this is a table of the newest form, which is carried nowhere"),
                    Err(error) => unusable(error),
                },
            };
            Form3Table::from_bytes(bytes).map_err(from_3)?.carry_down(older).map_err(refused)?
        }
    };
    if Path::new(&out).exists() {
        return Err(unusable(format!("{out} is there already: name another, or take it away first")));
    }
    fs::write(&out, &carried).map_err(|error| unusable(format!("{out}: {error}")))?;
    Ok(format!("{out}: a table of form {form}, {} bytes\n", carried.len()))
}

/// Which form a table has, and how it gets on.
fn tell(bytes: Vec<u8>) -> Told {
    let error = match Table::from_bytes(bytes) {
        Ok(table) => return Ok(format!("form {}, the newest: every call takes it\n", table.as_bytes()[0])),
        Err(error) => error,
    };
    let Some(form) = error.older_form() else { return Err(unusable(error)) };
    let ways = match form {
        OlderForm::Three => {
            "it can be carried to form 2, and to form 1 if every machine has a list in the published grid"
        }
        OlderForm::Four => "it is carried nowhere",
        _ => "it can be carried to form 3, and back",
    };
    Ok(format!(
        "form {}: {ways}.\nNo call takes it. To go on with its files, read them with the program of its season, found a new table on the same names, and write them there.\n",
        form.number()
    ))
}
