//! The page that tells which losses machines of several counties bear.

use crate::counties::{self, Laying};
use crate::measure::named;
use dyngrid::Refusal;
use std::fmt::Write;

/// The layings of the long table.
const SHOWN: [&[usize]; 17] = [
    &[4],
    &[4, 1],
    &[3, 1],
    &[2, 2],
    &[3, 4],
    &[4, 4],
    &[5, 5],
    &[8],
    &[1, 1, 1],
    &[1, 3, 1],
    &[1, 4, 1],
    &[2, 2, 2],
    &[4, 4, 4],
    &[12],
    &[1, 1, 1, 1],
    &[2, 2, 2, 2],
    &[1, 1, 1, 1, 1, 1, 1, 1],
];

pub fn document() -> Result<String, Refusal> {
    let mut text = String::from(
        "# Counties\n\n\
         ![Six layings of machines in counties, and which of their machines cannot be spared](counties.svg)\n\n\
         **Read this before a second county joins.** A founding and a joining give each machine a county, 1 to 8. A list whose members are of one\n\
         county lies in one grid, as ever. A list of several counties lies in grids on two levels: the machines of each county in one, in name\n\
         order, and the counties that have members in one above, in rising order. A read, a write or a check needs a quorum of counties, and in\n\
         each of these a quorum of its machines. Such a list can stop with one machine.\n\n\
         ## One machine can stop a list\n\n\
         Four machines of county 1 bear the loss of any one of them. One machine of county 2 joins, and a check takes it in. Now it cannot be\n\
         spared: two counties are two columns of one, a quorum has one of each column, and county 2 has no other machine. While it is off, reads,\n\
         writes and checks by the other four are refused by 6, and so is the check that would take it out of the list. Nothing helps but to switch\n\
         it on again; if it never comes back, only a new founding. (In a tall table two counties are one column of two: there the four still\n\
         read, but neither write nor check.) Two machines of each of two counties cannot spare any one of the four.\n\n\
         ## Which machine can be spared\n\n\
         One rule tells it on both levels, for writes and checks, in wide tables and in tall ones:\n\n\
         | of so many | can be spared |\n\
         |---|---|\n\
         | 1 or 2 | none |\n\
         | 3 | all but the second |\n\
         | 4 or more | any one |\n\n\
         **A machine can be spared if its county can spare it, or the counties can spare its county.** Machines of a county count in name order,\n\
         counties in rising order, those alone that have members. Reads in a wide table follow the same rule; in a tall one either of two is\n\
         enough to read. The least layings that bear the loss of any one machine:\n\n\
         | counties | machines of each | together |\n\
         |---:|---|---:|\n",
    );
    for counties in 1..=5 {
        let least = counties::least(counties)?;
        line(&mut text, &[counties.to_string(), least.title(), least.machines().to_string()]);
    }
    text.push_str(
        "| 6 to 8 | one of each | 6 to 8 |\n\n\
         ## How a county joins\n\n\
         1. **Choose the numbers before the first machine joins**: a machine keeps its county. Of three counties the one with the second number must\n\
         \x20  have four machines or more, so give that number to the largest.\n\
         2. **Join all its machines, and check nothing yet** (`grid_join`, `Table::join_in`). A joining changes no list, so that nothing is at stake.\n\
         3. **Then make one check that all of them answer**, old and new. It takes in those that answer, and no others: with one of the new machines\n\
         \x20  answering it would lay the list that stops with that machine.\n\
         4. Send to the copies that the check marked.\n\
         5. **Check after each loss, as ever.** The list then has one machine less, and bears less: look it up again, or ask `gridctl weak`, which\n\
         \x20  names the machines that a table as it is cannot spare.\n\n\
         A machine that is to share a county with the others joins with their number: then nothing on this page is about it.\n\n\
         ## The figures\n\n\
         Machines are counted through, county by county: in 4 + 1 machine 5 is that of county 2. *Cannot be spared* names those without which the\n\
         others cannot write or check, in a wide table or in a tall one; beside it those without which they cannot read. *In a row* says how many\n\
         can be lost one after the other, whichever they are, with a check after each; the next loss may stop the list. Under *called* is how many\n\
         machines a read and a write call in a wide table, all answering. Eight machines of one county bear five losses in a row, and four of\n\
         each of two bear one: counties have their price.\n\n\
         | machines of counties 1, 2, .. | cannot be spared | to read, wide | to read, tall | losses in a row | called, read | called, write |\n\
         |---|---|---|---|---:|---:|---:|\n",
    );
    for sizes in SHOWN {
        let laying = Laying::of(sizes)?;
        let Laying { wide, tall, read, write, .. } = &laying;
        assert_eq!(
            (wide.to_write, wide.in_a_row),
            (tall.to_write, tall.in_a_row),
            "{sizes:?}: wide and tall are one line"
        );
        let cells = [named(wide.to_write), named(wide.to_read), named(tall.to_read)];
        let [write_on, read_wide, read_tall] = cells;
        let (in_a_row, read, write) = (wide.in_a_row.to_string(), read.to_string(), write.to_string());
        line(&mut text, &[laying.title(), write_on, read_wide, read_tall, in_a_row, read, write]);
    }
    text.push_str(
        "\nThey come from the library. For each laying a table is founded; each machine is left out in turn, and each of the others reads, writes and\n\
         checks, all the others answering. The least layings were sought among all of fewer machines. `make pictures` makes this page and its\n\
         picture anew, and a test compares; another tries the rule on all layings of up to three counties of up to six machines, and of up to eight\n\
         counties of one or two. What the definitions say of some of them is computed in the proofs (`loss_lines` in\n\
         [`crates/counties/specs/Shown.antt`](../crates/counties/specs/Shown.antt)).\n",
    );
    Ok(text)
}

fn line(text: &mut String, cells: &[String]) {
    writeln!(text, "| {} |", cells.join(" | ")).expect("a string takes all");
}

#[cfg(test)]
mod tests {
    use super::*;

    #[test]
    fn the_page_is_as_the_library_answers() {
        let page = include_str!("../../../docs/COUNTIES.md");
        assert!(
            page == document().expect("no refusal"),
            "docs/COUNTIES.md says something else: run `make pictures`"
        );
    }

    /// What the text says of single layings.
    #[test]
    fn the_text_is_as_the_library_answers() {
        let in_a_row = |sizes| Laying::of(sizes).expect("no refusal").wide.in_a_row;
        assert_eq!((in_a_row(&[8]), in_a_row(&[4, 4])), (5, 1));
        assert_eq!(Laying::of(&[2, 2]).expect("no refusal").wide.to_read.len(), 4);
        for counties in 6..=8 {
            assert!(Laying::of(&vec![1; counties]).expect("no refusal").bears_any());
        }
    }
}
