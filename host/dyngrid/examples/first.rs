//! Four machines share a file of results. Run with `cargo run --example first`.

use dyngrid::{Call, Done, Refusal, Rows, Shape, Table};

fn main() -> Result<(), Refusal> {
    let mut table = Table::found(4, 16, &[1, 2, 3, 4], Shape::Wide)?;

    // Machine 2 imports a score while row 4 is away. The table has one file, of number 1.
    let Done { version, called } = table.file_mut(1).write(2, Rows::of(&[1, 2, 3])?, 0, b"1-0")?;
    println!("write: version {version}, {called} machines called");

    // Row 4 is back and reads with row 3: one row of each column of the grid.
    let mut score = [0; 3];
    let Done { version, called } = table.file(1).read(4, Rows::of(&[3, 4])?, 0, &mut score)?;
    println!("read: version {version}, {called} machines called, {}", String::from_utf8_lossy(&score));

    // Alone it cannot read: an old score would look like any other. Members are told so in a sentence.
    match table.file(1).read(4, Rows::of(&[4])?, 0, &mut score) {
        Err(refused) => println!("{}", refused.refusal.notice(Call::Read, 4)),
        Ok(done) => println!("read by row 4 alone: version {}", done.version),
    }
    Ok(())
}
