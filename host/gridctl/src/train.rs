//! The calls, to train on: `found`, `join`, `read`, `write`, `send`, `check`; `round` is told elsewhere. Each changes the file, unless it is
//! refused.

use crate::arguments::Arguments;
use crate::log::{bytes_told, hexadecimal};
use crate::names::{self, name, names};
use crate::sheet;
use crate::store::Kept;
use crate::{unusable, Stop, Told};
use dyngrid::{Call, Refusal, Rows, Shape, Sheet, Table};

/// What a founding takes.
pub struct Founding {
    pub names: Vec<u16>,
    pub capacity: usize,
    pub length: usize,
    pub files: usize,
    pub shape: Shape,
    /// One for each name; without them all are of county 1.
    pub counties: Option<Vec<u8>>,
}

impl Founding {
    pub fn table(&self) -> Result<Table, Refusal> {
        let Founding { capacity, length, files, shape, ref names, ref counties } = *self;
        match counties {
            Some(counties) => Table::found_counties(capacity, length, names, shape, files, counties),
            None => Table::found_group(capacity, length, names, shape, files),
        }
    }
}

/// What a joining takes.
pub struct Joining {
    pub name: u16,
    /// Without it, county 1.
    pub county: Option<u8>,
}

impl Joining {
    /// Gives the new row.
    pub fn join(&self, table: &mut Table) -> Result<usize, Refusal> {
        match self.county {
            Some(county) => table.join_in(self.name, county),
            None => table.join(self.name),
        }
    }
}

pub fn found(arguments: &mut Arguments) -> Told {
    let path = arguments.word("FILE")?;
    let names = names::parse(&arguments.word("NAMES")?)?;
    arguments.end()?;
    let founding = Founding {
        capacity: arguments.option("--capacity")?.unwrap_or(names.len()),
        length: arguments.option("--length")?.unwrap_or(64),
        files: arguments.option("--files")?.unwrap_or(1),
        shape: if arguments.switch("--tall") { Shape::Tall } else { Shape::Wide },
        counties: arguments.option("--counties")?.map(|list: String| counties(&list)).transpose()?,
        names,
    };
    let table = founding.table().map_err(|refusal| told(refusal, Call::Founding, 0))?;
    let kept = Kept::new(&path, table)?;
    kept.save(kept.here)?;
    let Founding { capacity, length, files, .. } = founding;
    let of = if files == 1 { "1 file".into() } else { format!("{files} files") };
    Ok(format!(
        "founded: {}, room for {capacity}, {of} of {length} bytes\n",
        names::names(&kept.table, kept.here)
    ))
}

/// Counties with commas between them.
fn counties(list: &str) -> Result<Vec<u8>, Stop> {
    let one = |county: &str| {
        county.trim().parse().map_err(|_| {
            unusable(format!("{county} is no county: they have numbers from 1 to 8, as in 1,1,2"))
        })
    };
    list.split(',').map(one).collect()
}

pub fn join(arguments: &mut Arguments) -> Told {
    let mut kept = Kept::open(&arguments.word("FILE")?)?;
    let joining = Joining { name: arguments.number("NAME")?, county: arguments.option("--county")? };
    arguments.end()?;
    let row = joining.join(&mut kept.table).map_err(|refusal| told(refusal, Call::Joining, 0))?;
    kept.save(Rows::of(&[row]).map_err(unusable)?)?;
    Ok(format!("{} has joined; a check with it on takes it into the list\n", joining.name))
}

/// FILE and the machine in charge.
fn begun(arguments: &mut Arguments) -> Result<(Kept, usize), Stop> {
    let kept = Kept::open(&arguments.word("FILE")?)?;
    let by = names::row(&kept.table, arguments.number("BY")?)?;
    Ok((kept, by))
}

/// Those who are on, told last.
fn on(arguments: &mut Arguments, kept: &Kept) -> Result<Rows, Stop> {
    let on = kept.on(arguments.optional())?;
    arguments.end()?;
    Ok(on)
}

pub fn read(arguments: &mut Arguments) -> Told {
    let (kept, by) = begun(arguments)?;
    let on = on(arguments, &kept)?;
    let (file, at) = (arguments.option("--file")?.unwrap_or(1), arguments.option("--at")?.unwrap_or(0));
    let rest = kept.table.file_len().saturating_sub(at);
    let length: usize = arguments.option("--length")?.unwrap_or(rest);
    let mut buffer = vec![0; length.min(kept.table.file_len() + 1)];
    let done = kept.table.file(file).read(by, on, at, &mut buffer);
    let done = done.map_err(|refused| told(refused.refusal, Call::Read, name(&kept.table, by)))?;
    Ok(format!(
        "{}\nversion {}; the protocol calls {} for it\n",
        bytes_told(&buffer),
        done.version,
        machines(done.called)
    ))
}

pub fn write(arguments: &mut Arguments) -> Told {
    let (mut kept, by) = begun(arguments)?;
    let text = arguments.word("TEXT")?;
    let on = on(arguments, &kept)?;
    let figures = || hexadecimal(&text).ok_or_else(|| unusable(format!("{text} are no bytes, as in 312d30")));
    let patch = if arguments.switch("--hex") { figures()? } else { text.clone().into_bytes() };
    let (file, at) = (arguments.option("--file")?.unwrap_or(1), arguments.option("--at")?.unwrap_or(0));
    let path: Option<String> = arguments.option("--sheet")?;
    let club = arguments.option("--club")?.unwrap_or(1);
    let mut sheet = sheet::lent(path.as_deref())?;
    let before = kept.table.clone();
    let done = kept.table.file_mut(file).write_for(club, &mut sheet, by, on, at, &patch);
    let done = done.map_err(|refused| told(refused.refusal, Call::Write, name(&before, by)))?;
    let changed = kept.table.changed(&before);
    kept.save(changed)?;
    keep(path.as_deref(), &sheet)?;
    let marked = changed.iter().filter(|&row| kept.table.file(file).copy(row).is_some_and(|copy| copy.stale));
    let marked: Rows = marked.collect();
    let mut text = format!(
        "version {} in {}; the protocol calls {} for it\n",
        done.version,
        names(&kept.table, changed - marked),
        machines(done.called)
    );
    if !marked.is_empty() {
        text.push_str(&format!("stale now: {}\n", names(&kept.table, marked)));
    }
    Ok(text)
}

pub fn send(arguments: &mut Arguments) -> Told {
    let mut kept = Kept::open(&arguments.word("FILE")?)?;
    let from = names::row(&kept.table, arguments.number("FROM")?)?;
    let to = names::row(&kept.table, arguments.number("TO")?)?;
    let on = on(arguments, &kept)?;
    let file = arguments.option("--file")?.unwrap_or(1);
    let before = kept.table.clone();
    let version =
        kept.table.file_mut(file).send(from, to, on).map_err(|refusal| told(refusal, Call::Send, 0))?;
    kept.save(kept.table.changed(&before))?;
    Ok(format!("{} has version {version} now\n", name(&kept.table, to)))
}

pub fn check(arguments: &mut Arguments) -> Told {
    let (mut kept, by) = begun(arguments)?;
    let on = on(arguments, &kept)?;
    let path: Option<String> = arguments.option("--sheet")?;
    let mut sheet = sheet::lent(path.as_deref())?;
    let before = kept.table.clone();
    let epoch = kept.table.check_with(&mut sheet, by, on);
    let epoch = epoch.map_err(|refusal| told(refusal, Call::Check, name(&before, by)))?;
    let changed = kept.table.changed(&before);
    if changed.is_empty() {
        return Ok(format!("{} are the list in force already, of epoch {epoch}\n", names(&kept.table, on)));
    }
    kept.save(changed)?;
    keep(path.as_deref(), &sheet)?;
    Ok(format!("{} are the list in force now, of epoch {epoch}\n", names(&kept.table, on)))
}

/// Keeps a sheet that was lent from a file.
pub fn keep(path: Option<&str>, sheet: &Sheet) -> Result<(), Stop> {
    path.map_or(Ok(()), |path| sheet::keep(path, sheet))
}

fn machines(count: usize) -> String {
    format!("{count} machine{}", if count == 1 { "" } else { "s" })
}

/// A refused call, as members read of it.
pub fn told(refusal: Refusal, call: Call, name: u16) -> Stop {
    Stop::Refused(refusal.notice(call, name).to_string())
}
