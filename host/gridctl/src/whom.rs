//! `whom`: each coordinator's choices.

use crate::arguments::Arguments;
use crate::names::{in_order, name, names};
use crate::store::Kept;
use crate::{Stop, Told};
use dyngrid::{Kind, Rows, Table};

pub fn whom(arguments: &mut Arguments) -> Told {
    let Kept { table, here, .. } = Kept::open(&arguments.word("FILE")?)?;
    arguments.end()?;
    let mut text = String::new();
    let mut called = [Rows::EMPTY; 2];
    for row in in_order(&table, here) {
        let [read, write] = [Kind::Read, Kind::Write].map(|kind| choice(&table, row, kind));
        let (read, write) = (read?, write?);
        called = [called[0] | read, called[1] | write];
        let told = |set: Rows| if set.is_empty() { "all".into() } else { names(&table, set) };
        text.push_str(&format!(
            "{:>5} calls for a read {}; for a write {}\n",
            name(&table, row),
            told(read),
            told(write)
        ));
    }
    for (word, set) in ["a read", "a write"].into_iter().zip(called) {
        let others = table.rows() - set;
        if !others.is_empty() {
            text.push_str(&format!("in nobody's choice for {word}: {}\n", names(&table, others)));
        }
    }
    text.push_str("Just try with these and yourself: if the call is refused by 6 or 7, call all.\n");
    Ok(text)
}

fn choice(table: &Table, row: usize, kind: Kind) -> Result<Rows, Stop> {
    table.choice(row, kind).map_err(|refusal| Stop::Refused(refusal.to_string()))
}
