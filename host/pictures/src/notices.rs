//! The page that shows the sentence of each refusal.

use dyngrid::{Call, Refusal};
use std::fmt::Write;

/// The name of the coordinator in the sentences that are shown.
const COORDINATOR: u16 = 17;

pub fn document() -> String {
    let mut text = String::from(
        "# Notices\n\n\
         Why a call was refused, as members read it. Each sentence is shown for one of the calls that its number is for, with machine 17 as the\n\
         coordinator; of another call it has that call's number and word, and is the same otherwise. Reads, writes, checks and rounds show the\n\
         coordinator's name, all others 0. [CALLS.md](CALLS.md) tells the numbers of the calls, and where in a sentence the figures stand.\n\n\
         `grid_notice(call, name, number, buffer, buffer_len)` composes them, in Rust `Refusal::notice(call, name)`. This page comes from it:\n\
         `make pictures` makes it anew, and a test compares.\n\n\
         | number | notice |\n\
         |---:|---|\n",
    );
    for refusal in Refusal::ALL {
        add(&mut text, refusal, call_of(refusal));
    }
    text.push_str(
        "\nA number that is no refusal is shown all the same:\n\n\
         | number | notice |\n\
         |---:|---|\n",
    );
    for number in [Refusal::ALL.len() as u32 + 1, u32::MAX] {
        add(&mut text, Refusal::Unknown(number), Call::Read);
    }
    text
}

fn add(text: &mut String, refusal: Refusal, call: Call) {
    let (number, notice) = (refusal.number(), refusal.notice(call, COORDINATOR));
    writeln!(text, "| {number} | {notice} |").expect("a string takes all");
}

/// One of the calls that the refusal is for.
fn call_of(refusal: Refusal) -> Call {
    match refusal {
        Refusal::SenderStale | Refusal::ReceiverNotBehind => Call::Send,
        Refusal::BadNames | Refusal::BadSize | Refusal::BadCounties => Call::Founding,
        Refusal::NameNotFree | Refusal::NoRoom => Call::Joining,
        Refusal::NotForm1 => Call::Move,
        Refusal::NoChart => Call::Chart,
        _ => Call::Write,
    }
}

#[cfg(test)]
mod tests {
    use super::*;

    #[test]
    fn the_page_is_as_the_library_tells_it() {
        let page = include_str!("../../../docs/NOTICES.md");
        assert!(page == document(), "docs/NOTICES.md has other sentences: run `make pictures`");
    }
}
