//! `explain`: a refusal in words, and what to do.

use crate::arguments::Arguments;
use crate::{unusable, Told};
use dyngrid::{Call, Refusal};

/// The calls by the words that notices have for them.
const WORDS: [(&str, Call); 10] = [
    ("founding", Call::Founding),
    ("read", Call::Read),
    ("write", Call::Write),
    ("send", Call::Send),
    ("check", Call::Check),
    ("joining", Call::Joining),
    ("round", Call::Round),
    ("move", Call::Move),
    ("chart", Call::Chart),
    ("notice", Call::Notice),
];

/// A call that a refusal comes from, and what to do about it.
fn told_of(refusal: Refusal) -> (Call, &'static str) {
    match refusal {
        Refusal::Malformed => (Call::Read, "gridctl show FILE says what is wrong with it; take another machine's copy."),
        Refusal::NoSuchRow => (Call::Read, "gridctl show FILE lists the machines by their names."),
        Refusal::NotAnswering => (Call::Read, "let a machine that is on make the call."),
        Refusal::OutOfRange => (Call::Read, "gridctl show FILE tells how long the files are; a range has a byte at least, and a round 64 orders of 8 at most."),
        Refusal::WrongBuffer => (Call::Read, "tell whoever keeps the program."),
        Refusal::NoQuorum => (Call::Write, "gridctl if FILE OFF,.. names those to switch on, OFF being those that are off."),
        Refusal::NotCurrent => {
            (Call::Write, "gridctl if FILE OFF,.. names those to switch on; then make the sends that gridctl next FILE lists.")
        }
        Refusal::AtLimit => (Call::Write, "found a new table and write the files into it."),
        Refusal::SenderStale => (Call::Send, "gridctl next FILE lists the sends that are due, with their senders."),
        Refusal::ReceiverNotBehind => {
            (Call::Send, "gridctl next FILE lists the sends that are due; a machine that joined, or lacks writes without a mark, is checked first.")
        }
        Refusal::BadNames => (Call::Founding, "give the names in rising order, as in 10,20,30."),
        Refusal::BadSize => (Call::Founding, "1 to 64 machines, files of 1 to 4,096 bytes, 1 to 8 of them."),
        Refusal::NameNotFree => (Call::Joining, "gridctl show FILE lists the names in use."),
        Refusal::NoRoom => (Call::Joining, "found a table with a larger capacity and write the files into it."),
        Refusal::NotForm1 => (Call::Move, "gridctl carry FILE 2 OUT."),
        Refusal::NoSuchFile => (Call::Read, "gridctl show FILE tells how many files there are."),
        Refusal::NoMoreWrites | Refusal::NoneLeftToShare => {
            (Call::Write, "gridctl sheet SHEET tells what each club has left; a check that changes the list starts the counts anew.")
        }
        Refusal::BadCounties => (Call::Founding, "as many counties as names, each one of 1 to 8, as in --counties 1,1,2."),
        Refusal::NoChart => (Call::Chart, "of more machines ask gridctl if FILE OFF,.. instead."),
        _ => (Call::Write, "what to do is what the sentence says."),
    }
}

/// What to do about a refusal.
pub fn to_do(refusal: Refusal) -> &'static str {
    told_of(refusal).1
}

pub fn explain(arguments: &mut Arguments) -> Told {
    let number: u32 = arguments.number("N")?;
    let Some(refusal) = Refusal::from_number(number) else {
        arguments.end()?;
        return Ok("0: the call was done; nothing was refused.\n".into());
    };
    let (mut call, to_do) = told_of(refusal);
    if let Some(word) = arguments.optional() {
        let found = WORDS.into_iter().find(|(known, _)| *known == word);
        call = found.map(|(_, call)| call).ok_or_else(|| {
            unusable(format!("there is no call {word}; there are {}", WORDS.map(|(word, _)| word).join(", ")))
        })?;
    }
    let name = if let Some(name) = arguments.optional() {
        name.parse()
            .map_err(|_| unusable(format!("{name} is no name: machines have numbers from 1 to 65535")))?
    } else {
        0
    };
    arguments.end()?;
    let notice = refusal.notice(call, name);
    Ok(match refusal {
        Refusal::Unknown(_) => format!("{notice}\n"),
        _ => format!("{notice}\nTo do: {to_do}\n"),
    })
}
