//! The page that shows the wall chart and says how to use it.

use crate::smallest::Charted;
use dyngrid::{chart, Refusal};
use std::fmt::Write;

pub fn document(charts: &[Charted]) -> Result<String, Refusal> {
    let (six, nine) = (chart(6, 0)?, chart(9, 0)?);
    let without = |sets: &[u16], off: u16| sets.iter().filter(|&&set| set & off == 0).count();
    // Machines 1 and 5 of nine, and 2 and 5 of six.
    let left = without(&nine, 0b1_0001);
    assert_eq!(without(&six, 0b1_0010), 0, "the page says that none is left");
    let mut text = format!(
        "# The wall chart\n\n\
         ![Every smallest write quorum of one to nine machines](chart.svg)\n\n\
         The sheet has the size of A4 and can be printed larger. Squares, discs and empty cells tell without colour, too.\n\n\
         ## What it shows\n\n\
         A write, and a check, need a *write quorum* of the list in force: one whole column of its grid, and at least one machine of every other\n\
         column. A *smallest* write quorum is one that stops being one when any of its machines is taken out. Each small grid of the chart is one\n\
         of them. Every write quorum holds all the filled machines of some small grid, so the chart is complete: if all the filled machines of one\n\
         small grid answer, that is a quorum, whoever else answers; if there is no such small grid, it is none.\n\n\
         The numbers are places in name order: of the list's machines, 1 is the one with the lowest name. A machine that joined, and that no check\n\
         has taken in yet, has no place.\n\n\
         ## When machines are off\n\n\
         1. Count the machines of the list in force, also those that are off, and take the panel with this number that says how the table was\n\
         \x20  founded: wide or tall (as published: a list of five from a table of form 1).\n\
         2. Look for a small grid none of whose filled machines is off. If there is one, the machines that are on can write and check, as long as\n\
         \x20  one of them has every done write (otherwise the call is refused by 7).\n\
         3. Then check with those that are on: they become the list. From now on the panel with their number counts, with places in name\n\
         \x20  order among them. Look up the next loss there; without the check, both losses count together.\n\
         4. If there is none, writes and checks are refused by 6 until a machine is back. To be read, the file needs less: one machine of each\n\
         \x20  column.\n\n\
         Of nine machines, with 1 and 5 off, {left} of the {} small grids are left: those with the third column whole, and without 1 and 5.\n\
         Of six in a wide table, with 2 and 5 off, none is left, for these two are a column.\n\n\
         ## Which mark a list has\n\n\
         The mark says which grid a list lies in. It is byte 24 of each row that has the list:\n\n\
         | mark | grid | lists that have it |\n\
         |---:|---|---|\n\
         | 0 | published | in a wide table, all but those of five; of five, those laid before form 2, until they are laid anew |\n\
         | 1 | five in 3 rows and 2 columns | in a wide table, those of five |\n\
         | 2 | tall | in a tall table, all |\n\
         | 3 | on two levels | in a wide table, those of several counties |\n\n\
         A row that joined has an empty list until a check takes it in: mark 0, and no chart. Nor has a list of several counties a chart, in a\n\
         wide table or in a tall one: [COUNTIES.md](COUNTIES.md) tells of these.\n\n\
         ## The numbers\n\n\
         `grid_chart(length, mark, list, list_len)`, in Rust `dyngrid::chart(length, mark)`, lists the sets as numbers, bit k − 1 for place k. Other\n\
         lengths and marks than these are refused by 17. The chart and this table come from these calls; `make pictures` makes both anew.\n\n\
         | machines | in tables | mark | rows × columns | small grids | machines filled | sets |\n\
         |---|---|---|---|---:|---|---|\n",
        nine.len()
    );
    for charted in charts {
        let sizes = charted.quorums.iter().map(|set| set.count_ones());
        let (least, most) = (sizes.clone().min().unwrap_or(0), sizes.max().unwrap_or(0));
        let filled = if least == most { least.to_string() } else { format!("{least} to {most}") };
        let sets: Vec<String> = charted.quorums.iter().map(u16::to_string).collect();
        writeln!(
            text,
            "| {} | {} | {} | {} × {} | {} | {filled} | {} |",
            charted.title(),
            charted.tables(),
            charted.marks_shown(),
            charted.grid.rows(),
            charted.grid.columns,
            sets.len(),
            sets.join(", ")
        )
        .expect("a string takes all");
    }
    Ok(text)
}
