//! Shows how many machines one coordinator calls for a read and for a write and which losses are borne, within one county and
//! by machines of several, and the smallest write quorums of short lists and the notices of refusals, as the library itself tells it,
//! and the crates with what they stand on. Writes QUORUMS.md, quorums.svg, COUNTIES.md, counties.svg, CHART.md, chart.svg,
//! NOTICES.md and rooms.svg into the folder docs of the repository that it is given.

mod chart;
mod counties;
mod counties_page;
mod counties_picture;
mod layers;
mod measure;
mod notices;
mod rooms;
mod smallest;
mod wall;
mod wall_page;

use dyngrid::{Refusal, Shape};
use measure::{PairsLost, Sizes};
use std::fmt::Write;
use std::path::Path;
use std::process::ExitCode;

fn main() -> ExitCode {
    let Some(root) = std::env::args().nth(1) else {
        eprintln!("pictures: name the repository's folder, as in `pictures .`");
        return ExitCode::from(2);
    };
    match draw(Path::new(&root)) {
        Ok(()) => ExitCode::SUCCESS,
        Err(problem) => {
            eprintln!("pictures: {problem}");
            ExitCode::FAILURE
        }
    }
}

fn draw(root: &Path) -> Result<(), Box<dyn std::error::Error>> {
    let folder = root.join("docs");
    let sizes_of = |shape| (1..=64).map(|machines| measure::sizes(machines, shape)).collect();
    let wide: Result<Vec<Sizes>, Refusal> = sizes_of(Shape::Wide);
    let (wide, tall) = (wide?, sizes_of(Shape::Tall)?);
    std::fs::write(folder.join("QUORUMS.md"), document(&wide, &tall)?)?;
    std::fs::write(folder.join("quorums.svg"), chart::svg(&wide, &tall))?;
    std::fs::write(folder.join("COUNTIES.md"), counties_page::document()?)?;
    std::fs::write(folder.join("counties.svg"), counties_picture::svg()?)?;
    let charts = smallest::all()?;
    std::fs::write(folder.join("CHART.md"), wall_page::document(&charts)?)?;
    std::fs::write(folder.join("chart.svg"), wall::svg(&charts))?;
    std::fs::write(folder.join("NOTICES.md"), notices::document())?;
    std::fs::write(folder.join("rooms.svg"), rooms::svg(root)?)?;
    println!(
        "pictures: wrote QUORUMS.md, quorums.svg, COUNTIES.md, counties.svg, CHART.md, chart.svg, NOTICES.md and rooms.svg to {}",
        folder.display()
    );
    Ok(())
}

fn document(wide: &[Sizes], tall: &[Sizes]) -> Result<String, Refusal> {
    let mut text = String::from(
        "# Machines called\n\n\
         ![Machines called for a read, wide and tall, for a write and for a majority, for 1 to 64 machines](quorums.svg)\n\n\
         How many machines one coordinator calls when all of them answer, against the majority that a vote needs. Where the number depends\n\
         on the coordinator, the range over all coordinators is given. The last columns say whether the machines bear the loss of any one, the\n\
         others answering; machines count in name order.\n\n\
         - From four machines on, any one may be switched off: as long as one of the others has every done write, they read and write on, and\n\
         \x20 a check by them takes it out of the list.\n\
         - Three bear the loss of the first or the third, and not of the second.\n\
         - Two machines bear no loss, nor does one. (In a tall table either of two reads on alone, but nobody writes.)\n\n\
         This holds of wide tables and of tall ones. All machines are of one county here; [COUNTIES.md](COUNTIES.md) tells of several, which\n\
         bear less.\n\n\
         ## Wide or tall\n\n\
         A founding chooses. A tall list lies in the published grid with rows and columns exchanged wherever that has one row less than columns.\n\
         Fewer columns make reads cheaper: there a read calls one machine less than in a wide table (of five no less, for these lie in three\n\
         rows and two columns in a wide table too). Longer columns make writes dearer: a write calls no more machines while all answer, but it\n\
         needs a whole column, so that a tall table, when machines are away, goes on reading for longer and stops writing sooner.\n",
    );
    let (wide_six, tall_six) = (measure::pairs_lost(6, Shape::Wide)?, measure::pairs_lost(6, Shape::Tall)?);
    let PairsLost { all, read, write } = wide_six;
    let PairsLost { read: tall_read, write: tall_write, .. } = tall_six;
    write!(
        text,
        "Two of six machines can be away in {all} ways: a wide table can then be read in {read} of them and written in {write}, a tall one read in\n\
         {tall_read} and written in {tall_write}.\n\n"
    )
    .expect("a string takes all");
    let published_five = measure::published_five()?;
    let Sizes { read, write, .. } = published_five;
    write!(
        text,
        "## The figures\n\n\
         They come from the library: each read and write says how many machines it called, here in a founded table, all answering. A test sees\n\
         the same from the outside: with one row marked as stale, a read (write) that is then refused by 7 had called that row, and a write\n\
         leaves a new version in the rows that it called. For the last columns each machine of a founded table is left out in turn, and each of\n\
         the others makes a check, and a write, that all the others answer. `make pictures` makes this page anew.\n\n\
         Five machines are those of a list laid now, in three rows and two columns. A list of five that was in force in a table of form 1 keeps\n\
         the published grid of two rows and three columns: there a read calls {read}, a write {write}, and the loss of one is borne, {}.\n\n\
         | machines | read, wide | read, tall | write, wide | write, tall | majority | bears the loss of any one, wide | tall |\n\
         |---:|---:|---:|---:|---:|---:|---|---|\n",
        published_five.bears()
    )
    .expect("a string takes all");
    for (wide, tall) in wide.iter().zip(tall) {
        let (machines, majority) = (wide.machines, wide.machines / 2 + 1);
        let (wide_bears, tall_bears) = (wide.bears(), tall.bears());
        let (read, tall_read, write, tall_write) = (wide.read, tall.read, wide.write, tall.write);
        writeln!(
            text,
            "| {machines} | {read} | {tall_read} | {write} | {tall_write} | {majority} | {wide_bears} | {tall_bears} |"
        )
        .expect("a string takes all");
    }
    Ok(text)
}
