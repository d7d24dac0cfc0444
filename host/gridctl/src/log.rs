//! A log of calls, a line each, as `replay` takes it and the differential test prints it:
//!
//! ```text
//! found 10,20,30,40 length 16 = done 4
//! write 10 with 10,20,30 at 0 "1-0" = done 1 called 3
//! read 40 with 30,40 at 0 length 4 = done 1 called 4 "1-0".00
//! check 10 with 10,20,40 = done 1
//! send 10 40 with 10,40 = done 1
//! join 25 = refused 14
//! round with 10,20,40 order 10 at 0 "1/2" order 20 at 15 "1-0" = refused 4 1
//! ```
//!
//! `found` may name `capacity`, `files`, `tall` and `counties`, a joining a `county`; reads, writes, orders and sends a `file`, and a write
//! or order its `club`. A round has an `order` for each of its writes, and behind its refusal stands how many are done. `sheet BYTES` lends
//! that sheet to the writes, rounds and checks behind it, and `counted BYTES` says what it is then. `table BYTES` begins with a table
//! instead of a founding, and `leaves BYTES` says what the table is then. `?7` is row 7, for rows that no machine has. What stands behind
//! `=` is compared, as far as it is told; `#` begins a comment.

use crate::train::{Founding, Joining};
use dyngrid::{Order, Shape, Sheet};
use std::fmt;
use std::iter::Peekable;
use std::vec::IntoIter;

/// A machine by its name, or a row that no machine has.
#[derive(Clone, Copy, Debug, PartialEq, Eq)]
pub enum Machine {
    Named(u16),
    Row(usize),
}

/// What a line says.
pub enum Line {
    Table(Vec<u8>),
    Leaves(Vec<u8>),
    Sheet(Sheet),
    Counted(Vec<u8>),
    Call(Made, Option<Answer>),
}

/// A call; those who answered are `with`. An order comes with the machine that coordinates it, whose row is not known yet.
pub enum Made {
    Found(Founding),
    Join(Joining),
    Read { by: Machine, with: Vec<Machine>, file: usize, at: usize, length: usize },
    Write { by: Machine, with: Vec<Machine>, file: usize, club: usize, at: usize, patch: Vec<u8> },
    Send { from: Machine, to: Machine, with: Vec<Machine>, file: usize },
    Check { by: Machine, with: Vec<Machine> },
    Round { with: Vec<Machine>, orders: Vec<(Machine, Order)> },
}

/// What a call gave, as far as it is told. The value of a founding and of a joining is how many machines there then are.
#[derive(Clone, Debug, Default, PartialEq, Eq)]
pub struct Answer {
    /// 0 if it was done.
    pub refusal: u32,
    /// None of a refused call, but of a round how many orders are done.
    pub value: Option<u32>,
    pub called: Option<usize>,
    /// What was read.
    pub bytes: Option<Vec<u8>>,
}

impl Answer {
    /// The same, of what the other tells alone.
    pub fn as_far_as(&self, other: &Answer) -> Answer {
        Answer {
            refusal: self.refusal,
            value: self.value.filter(|_| other.value.is_some()),
            called: self.called.filter(|_| other.called.is_some()),
            bytes: self.bytes.clone().filter(|_| other.bytes.is_some()),
        }
    }
}

impl fmt::Display for Answer {
    fn fmt(&self, f: &mut fmt::Formatter) -> fmt::Result {
        match self.refusal {
            0 => f.write_str("done")?,
            refusal => write!(f, "refused {refusal}")?,
        }
        if let Some(value) = self.value {
            write!(f, " {value}")?;
        }
        if let Some(called) = self.called {
            write!(f, " called {called}")?;
        }
        match &self.bytes {
            Some(bytes) => write!(f, " {}", bytes_told(bytes)),
            None => Ok(()),
        }
    }
}

/// What a line says, if it is no comment; or what is wrong with it.
pub fn line(text: &str) -> Result<Option<Line>, String> {
    let mut words = Words(words(text)?.into_iter().peekable());
    let Some(call) = words.0.next() else { return Ok(None) };
    let line = match call.as_str() {
        "table" => Line::Table(words.bytes()?),
        "leaves" => Line::Leaves(words.bytes()?),
        "sheet" => Line::Sheet(Sheet::from_bytes(&words.bytes()?).map_err(|error| error.to_string())?),
        "counted" => Line::Counted(words.bytes()?),
        _ => {
            let made = words.made(&call)?;
            let answer = if words.has("=") { Some(words.answer()?) } else { None };
            Line::Call(made, answer)
        }
    };
    match words.0.next() {
        Some(word) => Err(format!("what is {word}?")),
        None => Ok(Some(line)),
    }
}

/// Words with spaces between them, which may stand in quotes; up to a comment.
pub fn words(text: &str) -> Result<Vec<String>, String> {
    let (mut words, mut word, mut quoted) = (Vec::new(), String::new(), false);
    for letter in text.chars() {
        match letter {
            '#' if !quoted => break,
            ' ' | '\t' | '\r' if !quoted => words.push(std::mem::take(&mut word)),
            _ => {
                quoted ^= letter == '"';
                word.push(letter);
            }
        }
    }
    words.push(word);
    words.retain(|word| !word.is_empty());
    if quoted {
        return Err("a quotation mark is missing".into());
    }
    Ok(words)
}

struct Words(Peekable<IntoIter<String>>);

impl Words {
    fn next(&mut self, what: &str) -> Result<String, String> {
        self.0.next().ok_or_else(|| format!("{what} is missing"))
    }

    /// Takes the word if it comes next.
    fn has(&mut self, word: &str) -> bool {
        self.0.next_if(|next| next == word).is_some()
    }

    fn number<T: std::str::FromStr>(&mut self, what: &str) -> Result<T, String> {
        let word = self.next(what)?;
        word.parse().map_err(|_| format!("{word} is no number"))
    }

    /// A word, and a number behind it.
    fn told<T: std::str::FromStr>(&mut self, word: &str) -> Result<T, String> {
        if !self.has(word) {
            return Err(format!("{word} is missing"));
        }
        self.number(word)
    }

    fn told_or<T: std::str::FromStr>(&mut self, word: &str, other: T) -> Result<T, String> {
        if self.has(word) {
            self.number(word)
        } else {
            Ok(other)
        }
    }

    fn bytes(&mut self) -> Result<Vec<u8>, String> {
        bytes(&self.next("BYTES")?)
    }

    fn machine(&mut self) -> Result<Machine, String> {
        machine(&self.next("a machine")?)
    }

    fn with(&mut self) -> Result<Vec<Machine>, String> {
        if !self.has("with") {
            return Err("with, and those who answered, is missing".into());
        }
        match self.next("those who answered")?.as_str() {
            "nobody" => Ok(Vec::new()),
            list => list.split(',').map(machine).collect(),
        }
    }

    fn made(&mut self, call: &str) -> Result<Made, String> {
        Ok(match call {
            "found" => Made::Found(self.founding()?),
            "join" => Made::Join(self.joining()?),
            "read" => {
                let (by, with, file) = (self.machine()?, self.with()?, self.told_or("file", 1)?);
                Made::Read { by, with, file, at: self.told("at")?, length: self.told("length")? }
            }
            "write" => {
                let (by, with, file) = (self.machine()?, self.with()?, self.told_or("file", 1)?);
                let club = self.told_or("club", 1)?;
                Made::Write { by, with, file, club, at: self.told("at")?, patch: self.bytes()? }
            }
            "send" => {
                let (from, to, with) = (self.machine()?, self.machine()?, self.with()?);
                Made::Send { from, to, with, file: self.told_or("file", 1)? }
            }
            "check" => Made::Check { by: self.machine()?, with: self.with()? },
            "round" => {
                let (with, mut orders) = (self.with()?, Vec::new());
                while self.has("order") {
                    let (by, file, club) =
                        (self.machine()?, self.told_or("file", 1)?, self.told_or("club", 1)?);
                    let (at, patch) = (self.told("at")?, self.bytes()?);
                    let order = Order::new(0, at, &patch).map_err(|error| error.to_string())?;
                    orders.push((by, order.in_file(file).by_club(club)));
                }
                Made::Round { with, orders }
            }
            _ => return Err(format!("there is no call {call}")),
        })
    }

    fn founding(&mut self) -> Result<Founding, String> {
        let name = |name: &str| name.parse().map_err(|_| format!("{name} is no name"));
        let names = match self.next("the names")?.as_str() {
            "nobody" => Vec::new(),
            list => list.split(',').map(name).collect::<Result<Vec<u16>, String>>()?,
        };
        Ok(Founding {
            length: self.told("length")?,
            capacity: self.told_or("capacity", names.len())?,
            files: self.told_or("files", 1)?,
            shape: if self.has("tall") { Shape::Tall } else { Shape::Wide },
            counties: if self.has("counties") { Some(self.counties()?) } else { None },
            names,
        })
    }

    fn counties(&mut self) -> Result<Vec<u8>, String> {
        let county = |county: &str| county.parse().map_err(|_| format!("{county} is no county"));
        match self.next("the counties")?.as_str() {
            "none" => Ok(Vec::new()),
            list => list.split(',').map(county).collect(),
        }
    }

    fn joining(&mut self) -> Result<Joining, String> {
        let name = self.number("the name")?;
        let county = if self.has("county") { Some(self.number("county")?) } else { None };
        Ok(Joining { name, county })
    }

    fn answer(&mut self) -> Result<Answer, String> {
        let refusal = match self.next("an answer")?.as_str() {
            "done" => 0,
            "refused" => self.number("the refusal's number")?,
            word => return Err(format!("{word} is no answer: it is done or refused")),
        };
        let a_number = |word: &String| word.chars().all(|letter| letter.is_ascii_digit());
        let value =
            self.0.next_if(a_number).map(|word| word.parse().map_err(|_| format!("{word} is no value")));
        let called = if self.has("called") { Some(self.number("called")?) } else { None };
        let bytes = self.0.next().map(|word| bytes(&word)).transpose()?;
        Ok(Answer { refusal, value: value.transpose()?, called, bytes })
    }
}

fn machine(word: &str) -> Result<Machine, String> {
    let wrong = || format!("{word} is no machine's name");
    match word.strip_prefix('?') {
        Some(row) => row.parse().map(Machine::Row).map_err(|_| wrong()),
        None => word.parse().map(Machine::Named).map_err(|_| wrong()),
    }
}

/// Bytes in a log: parts with points between them, which are text in quotes, figures of base sixteen, or one byte so many times.
#[must_use]
pub fn bytes_told(bytes: &[u8]) -> String {
    let is_text = |byte: u8| (b' '..=b'~').contains(&byte) && byte != b'"';
    let mut parts = Vec::new();
    for run in bytes.chunk_by(|&one, &next| is_text(one) == is_text(next) && (is_text(one) || one == next)) {
        parts.push(match run {
            text if is_text(text[0]) => format!("\"{}\"", String::from_utf8_lossy(text)),
            [byte] => format!("{byte:02x}"),
            [byte, ..] => format!("{byte:02x}*{}", run.len()),
            [] => continue,
        });
    }
    if parts.is_empty() {
        parts.push("\"\"".into());
    }
    parts.join(".")
}

/// The bytes that are so told.
pub fn bytes(told: &str) -> Result<Vec<u8>, String> {
    const MOST: usize = 1 << 22;
    let wrong =
        |part: &str| format!("{part} are no bytes: text stands in quotes, others as in 0a2f or 00*13");
    let mut bytes = Vec::new();
    let mut rest = told;
    while !rest.is_empty() {
        let end = match rest.strip_prefix('"') {
            Some(text) => text.find('"').ok_or_else(|| wrong(rest))? + 2,
            None => rest.find('.').unwrap_or(rest.len()),
        };
        let (part, behind) = rest.split_at(end);
        if let Some(text) = part.strip_prefix('"') {
            bytes.extend_from_slice(text.trim_end_matches('"').as_bytes());
        } else {
            let (figures, times) = part.split_once('*').unwrap_or((part, "1"));
            let times: usize = times.parse().map_err(|_| wrong(part))?;
            let figures = hexadecimal(figures).ok_or_else(|| wrong(part))?;
            if figures.len() * times > MOST {
                return Err(format!("{part} are more bytes than a table has"));
            }
            bytes.extend(figures.repeat(times));
        }
        rest = behind.strip_prefix('.').unwrap_or(behind);
        if rest.len() == behind.len() && !behind.is_empty() {
            return Err(wrong(told));
        }
    }
    Ok(bytes)
}

/// Two figures for each byte.
pub fn hexadecimal(figures: &str) -> Option<Vec<u8>> {
    let pairs = figures.as_bytes().chunks(2);
    let byte = |pair: &[u8]| {
        u8::from_str_radix(std::str::from_utf8(pair).ok().filter(|two| two.len() == 2)?, 16).ok()
    };
    pairs.map(byte).collect::<Option<Vec<u8>>>().filter(|bytes| !bytes.is_empty())
}

#[cfg(test)]
mod tests {
    use super::*;

    #[test]
    fn bytes_are_told_and_taken_again() {
        let cases: [(&[u8], &str); 6] = [
            (b"1-0", "\"1-0\""),
            (b"", "\"\""),
            (b"1-0\0\0\0\x07", "\"1-0\".00*3.07"),
            (b"\"\"a b", "22*2.\"a b\""),
            (b"\xff\x01", "ff.01"),
            (b"...", "\"...\""),
        ];
        for (plain, told) in cases {
            assert_eq!(bytes_told(plain), told);
            assert_eq!(bytes(told).as_deref(), Ok(plain));
        }
        assert_eq!(bytes("312d30"), Ok(b"1-0".to_vec()));
        for wrong in ["3", "zz", "\"a", "00*x", "00*99999999", "\"a\"b", "00..01", "*3"] {
            assert!(bytes(wrong).is_err(), "{wrong}");
        }
    }

    #[test]
    fn lines_that_are_wrong_say_so() {
        for (text, problem) in [
            ("fond 10", "there is no call fond"),
            ("found 10,20", "length is missing"),
            ("found 10,x length 4", "x is no name"),
            ("read 10 at 0 length 4", "with, and those who answered, is missing"),
            ("read 10 with 10 at 0", "length is missing"),
            ("write 10 with 10 at 0 \"1-0", "a quotation mark is missing"),
            ("check 10 with 10 = fine", "fine is no answer: it is done or refused"),
            ("check 10 with 10 now", "what is now?"),
            ("send 10 with 10", "with is no machine's name"),
            ("join 70000", "70000 is no number"),
            ("join 50 county", "county is missing"),
            ("found 10,20 length 4 counties 1,x", "x is no county"),
            ("round order 10 at 0 00", "with, and those who answered, is missing"),
            ("round with 10 order 10 at 0", "BYTES is missing"),
            ("round with 10 order 10 at 0 00 20 at 1 00", "what is 20?"),
            (
                "round with 10 order 10 at 0 \"\"",
                "an order writes 1 to 8 bytes, and here are none: leave it out",
            ),
        ] {
            assert_eq!(line(text).err().as_deref(), Some(problem), "{text}");
        }
        assert!(matches!(line("  # nothing"), Ok(None)));
    }
}
