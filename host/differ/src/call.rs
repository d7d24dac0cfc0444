//! One call with its arguments, and how it is shown.

use reference::round::{Order, MOST_ORDERS, ORDER};
use reference::{rows, Engine};
use std::fmt;

#[derive(Clone, Debug, PartialEq, Eq)]
pub enum Call {
    Found {
        capacity: u64,
        file_len: u64,
        names: Vec<u8>,
        choice: u64,
        files: u64,
        counties: Vec<u8>,
    },
    Read {
        coordinator: u64,
        answering: u64,
        offset: u64,
        length: u64,
        buffer: Vec<u8>,
        called: Vec<u8>,
        file: u64,
    },
    Write {
        coordinator: u64,
        answering: u64,
        offset: u64,
        patch: Vec<u8>,
        called: Vec<u8>,
        file: u64,
        sheet: Vec<u8>,
        club: u64,
    },
    Send {
        from: u64,
        to: u64,
        answering: u64,
        file: u64,
    },
    Check {
        coordinator: u64,
        answering: u64,
        sheet: Vec<u8>,
    },
    Join {
        name: u16,
        county: u64,
    },
    Chart {
        length: u64,
        mark: u64,
        list: Vec<u8>,
    },
    Choice {
        coordinator: u64,
        kind: u64,
        set: Vec<u8>,
    },
    /// A move; if it is taken, the calls go on on the new table.
    Move {
        form: u64,
        to: Vec<u8>,
        taken: bool,
    },
    /// Orders of 16 bytes each, or bytes that end inside one.
    Round {
        answering: u64,
        orders: Vec<u8>,
        sheet: Vec<u8>,
    },
}

/// What a call gave: its result, the bytes that its buffer, or the list of a chart or a choice, then holds (empty but for these),
/// those that the list for the number called holds (empty but for a read and a write), and those of the sheet (empty but for a write,
/// a check and a round).
#[derive(Clone, Debug, Default, PartialEq, Eq)]
pub struct Answer {
    pub result: u64,
    pub buffer: Vec<u8>,
    pub called: Vec<u8>,
    pub sheet: Vec<u8>,
}

impl Call {
    pub const KINDS: [&'static str; 10] =
        ["found", "read", "write", "send", "check", "join", "chart", "choice", "move", "round"];

    /// Its place in `KINDS`.
    pub fn kind(&self) -> usize {
        match self {
            Call::Found { .. } => 0,
            Call::Read { .. } => 1,
            Call::Write { .. } => 2,
            Call::Send { .. } => 3,
            Call::Check { .. } => 4,
            Call::Join { .. } => 5,
            Call::Chart { .. } => 6,
            Call::Choice { .. } => 7,
            Call::Move { .. } => 8,
            Call::Round { .. } => 9,
        }
    }

    /// The file that a read, write or send names, or every order of a round.
    pub fn file(&self) -> Option<u64> {
        match self {
            Call::Read { file, .. } | Call::Write { file, .. } | Call::Send { file, .. } => Some(*file),
            Call::Round { orders, .. } => {
                let mut files = whole_orders(orders).map(|order| order.file);
                let first = files.next()?;
                files.all(|file| file == first).then_some(first.into())
            }
            _ => None,
        }
    }

    /// The files of a group of so many that a read, write, send or round names: bit q - 1 for file q. None of another call, which is
    /// made for all of them.
    pub fn files(&self, count: usize) -> Option<u64> {
        let of = |file: u64| if file <= count as u64 { rows::only(file as usize) } else { 0 };
        match self {
            Call::Round { orders, .. } => {
                Some(whole_orders(orders).fold(0, |set, order| set | of(order.file.into())))
            }
            _ => self.file().map(of),
        }
    }

    /// Lets a read, write, send or round name other files.
    pub fn rename_files(&mut self, to: impl Fn(u64) -> u64) {
        match self {
            Call::Read { file, .. } | Call::Write { file, .. } | Call::Send { file, .. } => *file = to(*file),
            Call::Round { orders, .. } => {
                for order in orders.as_chunks_mut::<ORDER>().0 {
                    order[FILE] = to(order[FILE].into()) as u8;
                }
            }
            _ => {}
        }
    }

    /// The writes that a round stands for if none is refused; none if its list ends inside an order. They are not lent a sheet yet.
    pub fn writes(&self) -> Option<impl Iterator<Item = Call> + '_> {
        let Call::Round { answering, orders, .. } = self else { return None };
        let orders = whole_orders(orders).take(if orders.len().is_multiple_of(ORDER) {
            MOST_ORDERS as usize
        } else {
            0
        });
        Some(orders.map(|order| Call::Write {
            coordinator: order.coordinator.into(),
            answering: *answering,
            offset: order.offset.into(),
            patch: order.written().to_vec(),
            called: vec![0],
            file: order.file.into(),
            sheet: Vec::new(),
            club: order.club.into(),
        }))
    }

    /// The list for the number of machines called.
    pub fn called(&self) -> Option<&[u8]> {
        match self {
            Call::Read { called, .. } | Call::Write { called, .. } => Some(called),
            _ => None,
        }
    }

    /// The sheet that a write, a check or a round is lent.
    pub fn sheet(&self) -> Option<&[u8]> {
        match self {
            Call::Write { sheet, .. } | Call::Check { sheet, .. } | Call::Round { sheet, .. } => Some(sheet),
            _ => None,
        }
    }

    /// Lends a write, a check or a round another sheet.
    pub fn lend(&mut self, lent: &[u8]) {
        match self {
            Call::Write { sheet, .. } | Call::Check { sheet, .. } | Call::Round { sheet, .. } => {
                *sheet = lent.to_vec();
            }
            _ => {}
        }
    }

    /// The counties that a founding names.
    pub fn counties(&self) -> Option<&[u8]> {
        match self {
            Call::Found { counties, .. } => Some(counties),
            _ => None,
        }
    }

    /// What a done call may write besides the table and the number called.
    pub fn lent(&self) -> Option<&[u8]> {
        match self {
            Call::Read { buffer, .. } => Some(buffer),
            Call::Chart { list, .. } => Some(list),
            Call::Choice { set, .. } => Some(set),
            Call::Move { to, .. } => Some(to),
            _ => None,
        }
    }

    /// The rows that a call may look at, beyond names, links and counties, if it looks at any: those that answered, or the coordinator of
    /// a choice. A joining looks at none; a move carries all of them over.
    pub fn seen(&self) -> Option<u64> {
        match *self {
            Call::Found { .. } | Call::Chart { .. } | Call::Move { .. } => None,
            Call::Join { .. } => Some(0),
            Call::Choice { coordinator: coordinator @ 1..=64, .. } => Some(rows::only(coordinator as usize)),
            Call::Choice { .. } => Some(0),
            Call::Read { .. }
            | Call::Write { .. }
            | Call::Send { .. }
            | Call::Check { .. }
            | Call::Round { .. } => self.answering(),
        }
    }

    /// The rows that answered; nobody is asked in a founding, a joining, a chart, a choice or a move.
    pub fn answering(&self) -> Option<u64> {
        match *self {
            Call::Read { answering, .. }
            | Call::Write { answering, .. }
            | Call::Send { answering, .. }
            | Call::Check { answering, .. }
            | Call::Round { answering, .. } => Some(answering),
            _ => None,
        }
    }

    /// Lets only these rows answer.
    pub fn cut_down(&mut self, rows: u64) {
        match self {
            Call::Read { answering, .. }
            | Call::Write { answering, .. }
            | Call::Send { answering, .. }
            | Call::Check { answering, .. }
            | Call::Round { answering, .. } => *answering &= rows,
            _ => {}
        }
    }

    /// Puts the call to the reference.
    pub fn refer(&self, engine: Engine, table: &mut [u8]) -> Answer {
        let mut lent = self.lent().unwrap_or_default().to_vec();
        let mut number = self.called().unwrap_or_default().to_vec();
        let mut sheet = self.sheet().unwrap_or_default().to_vec();
        let result = match self {
            Call::Found { capacity, file_len, names, choice, files, counties } => {
                engine.found(table, *capacity, *file_len, names, *choice, *files, counties)
            }
            Call::Read { coordinator, answering, offset, length, file, .. } => {
                engine.read(table, *coordinator, *answering, *offset, *length, &mut lent, &mut number, *file)
            }
            Call::Write { coordinator: c, answering, offset, patch, file, club, .. } => {
                engine.write(table, *c, *answering, *offset, patch, &mut number, *file, &mut sheet, *club)
            }
            Call::Send { from, to, answering, file } => engine.send(table, *from, *to, *answering, *file),
            Call::Check { coordinator, answering, .. } => {
                engine.check(table, *coordinator, *answering, &mut sheet)
            }
            Call::Join { name, county } => engine.join(table, *name, *county),
            Call::Chart { length, mark, .. } => engine.chart(*length, *mark, &mut lent),
            Call::Choice { coordinator, kind, .. } => engine.choice(table, *coordinator, *kind, &mut lent),
            Call::Move { form, .. } => engine.carry(table, *form, &mut lent),
            Call::Round { answering, orders, .. } => engine.round(table, *answering, orders, &mut sheet),
        };
        Answer { result, buffer: lent, called: number, sheet }
    }
}

impl fmt::Display for Call {
    fn fmt(&self, f: &mut fmt::Formatter) -> fmt::Result {
        match self {
            Call::Found { capacity, file_len, names, choice, files, counties } => {
                write!(f, "grid_found(capacity {capacity}, length {file_len}, names {}", names_shown(names))?;
                let counties: Vec<String> = counties.iter().map(u8::to_string).collect();
                write!(f, ", choice {choice}, files {files}, counties {{{}}})", counties.join(","))
            }
            Call::Read { coordinator, answering, offset, length, buffer, called, file } => {
                write!(f, "grid_read(coordinator {coordinator}, answering {}", set_shown(*answering))?;
                write!(f, ", offset {offset}, length {length}, buffer of {} bytes", buffer.len())?;
                write!(f, ", called {}, file {file})", bytes_shown(called))
            }
            Call::Write { coordinator, answering, offset, patch, called, file, sheet, club } => {
                write!(f, "grid_write(coordinator {coordinator}, answering {}", set_shown(*answering))?;
                write!(f, ", offset {offset}, patch {}", bytes_shown(patch))?;
                write!(f, ", called {}, file {file}", bytes_shown(called))?;
                write!(f, ", sheet {}, club {club})", bytes_shown(sheet))
            }
            Call::Send { from, to, answering, file } => {
                write!(f, "grid_send(from {from}, to {to}, answering {}, file {file})", set_shown(*answering))
            }
            Call::Check { coordinator, answering, sheet } => {
                write!(f, "grid_check(coordinator {coordinator}, answering {}", set_shown(*answering))?;
                write!(f, ", sheet {})", bytes_shown(sheet))
            }
            Call::Join { name, county } => write!(f, "grid_join(name {name}, county {county})"),
            Call::Chart { length, mark, list } => {
                write!(f, "grid_chart(length {length}, mark {mark}, list {})", bytes_shown(list))
            }
            Call::Choice { coordinator, kind, set } => {
                write!(f, "grid_choice(coordinator {coordinator}, kind {kind}, set {})", bytes_shown(set))
            }
            Call::Move { form, to, taken } => {
                let then = if *taken { "; the calls go on there" } else { "" };
                write!(f, "grid_move(form {form}, to {}){then}", bytes_shown(to))
            }
            Call::Round { answering, orders, sheet } => {
                write!(f, "grid_round(answering {}", set_shown(*answering))?;
                write!(f, ", orders of {} bytes: {}", orders.len(), orders_shown(orders))?;
                write!(f, ", sheet {})", bytes_shown(sheet))
            }
        }
    }
}

/// Where an order keeps its file.
const FILE: usize = 12;

/// The whole orders of a list; what is left over is no order.
pub fn whole_orders(orders: &[u8]) -> impl Iterator<Item = Order> + '_ {
    orders.as_chunks::<ORDER>().0.iter().map(Order::read)
}

/// Each order with all of its bytes, the same one so many times, and the bytes left over.
fn orders_shown(orders: &[u8]) -> String {
    let (whole, rest) = orders.as_chunks::<ORDER>();
    let mut shown = Vec::new();
    for run in whole.chunk_by(|one, next| one == next) {
        let Order { coordinator, length, offset, patch, file, club } = Order::read(&run[0]);
        let times = if run.len() > 1 { format!(" * {}", run.len()) } else { String::new() };
        shown.push(format!(
            "{{by {coordinator}, length {length}, offset {offset}, patch {}, file {file}, club {club}, unread {}}}{times}",
            plain_hexadecimal(&patch),
            plain_hexadecimal(&run[0][ORDER - 2..]),
        ));
    }
    if !rest.is_empty() {
        shown.push(format!("left over {}", plain_hexadecimal(rest)));
    }
    shown.join(", ")
}

fn plain_hexadecimal(bytes: &[u8]) -> String {
    bytes.iter().map(|byte| format!("{byte:02x}")).collect()
}

/// A set of rows by number and by member.
pub fn set_shown(set: u64) -> String {
    let members: Vec<String> = rows::members(set).map(|row| row.to_string()).collect();
    format!("0x{set:x} {{{}}}", members.join(","))
}

fn names_shown(names: &[u8]) -> String {
    let shown: Vec<String> = names
        .chunks(2)
        .map(|name| match *name {
            [low, high] => u16::from_le_bytes([low, high]).to_string(),
            _ => format!("half a name {:02x}", name[0]),
        })
        .collect();
    format!("{{{}}}", shown.join(","))
}

/// Bytes in hexadecimal, long runs of one byte as `byte*count`.
pub fn bytes_shown(bytes: &[u8]) -> String {
    let mut shown = format!("{} bytes", bytes.len());
    for run in bytes.chunk_by(|one, next| one == next) {
        let text = match run.len() {
            1..=3 => format!("{:02x}", run[0]).repeat(run.len()),
            count => format!(" {:02x}*{count} ", run[0]),
        };
        shown.push_str(if shown.ends_with(" bytes") { ": " } else { "" });
        shown.push_str(&text);
    }
    shown
}

pub fn result_shown(result: u64) -> String {
    match result >> 32 {
        0 => format!("done {}", result as u32),
        refusal => format!("refused by {refusal}, value {}", result as u32),
    }
}
