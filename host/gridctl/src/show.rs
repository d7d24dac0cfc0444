//! `show` and `if`.

use crate::arguments::Arguments;
use crate::grid::Picture;
use crate::store::Kept;
use crate::Told;

pub fn show(arguments: &mut Arguments) -> Told {
    let (kept, on) = opened(arguments)?;
    Ok(format!("{:#}\n\n{}", kept.table.show(on), Picture::new(&kept.table, kept.here, on).text()))
}

pub fn what_if(arguments: &mut Arguments) -> Told {
    let (kept, on) = opened(arguments)?;
    Ok(Picture::new(&kept.table, kept.here, on).text())
}

/// FILE, and those who are on.
pub fn opened(arguments: &mut Arguments) -> Result<(Kept, dyngrid::Rows), crate::Stop> {
    let kept = Kept::open(&arguments.word("FILE")?)?;
    let on = kept.on(arguments.optional())?;
    arguments.end()?;
    Ok((kept, on))
}
