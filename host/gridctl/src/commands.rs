//! The commands and what their helps say.

use crate::arguments::Arguments;
use crate::{
    carry, chart, explain, next, page, replay, round, sheet, show, train, unusable, weak, whom, Stop, Told,
};

pub struct Command {
    /// As it is called, with its arguments; the first word is its name.
    pub usage: &'static str,
    /// In one line.
    does: &'static str,
    /// All else that there is to say.
    text: &'static str,
    /// Its options, and whether they take a value.
    pub options: &'static [(&'static str, bool)],
    pub run: fn(&mut Arguments) -> Told,
}

const LOOKS: [Command; 9] = [
    Command {
        usage: "if FILE [OFF,..]",
        does: "would a read, a write, a check be done with these machines off?",
        text: "Draws the grid of the list in force, machines that are off in brackets and those with a stale copy with a star. Then, for\na read, a write and a check: yes, or no with the refusal's number, why, and the fewest machines to switch on.",
        options: &[],
        run: show::what_if,
    },
    Command {
        usage: "show FILE [OFF,..]",
        does: "every machine at a glance, then what if tells",
        text: "For each machine: epoch, whether it is in the list in force, and for each file its version and whether the copy is current,\nbehind (others have newer results) or stale (marked: a send is due). Machines that are off are away.",
        options: &[],
        run: show::show,
    },
    Command {
        usage: "weak FILE [OFF,..]",
        does: "which losses stop reads, writes, checks",
        text: "Single machines first; then pairs, neither of which stops it alone. Of a table with several files, reads and writes of all.",
        options: &[],
        run: weak::weak,
    },
    Command {
        usage: "next FILE [OFF,..]",
        does: "the check and the sends that are due, in their order",
        text: "A check is due when others than the list in force are on, a send when a copy is stale and one that is on has its newest results.",
        options: &[],
        run: next::next,
    },
    Command {
        usage: "whom FILE",
        does: "whom each machine calls first for a read and a write",
        text: "Each machine has a choice of its own, a few machines that are enough while all of them answer and one of them is current.\nJust try: if the call is refused by 6 or 7, call all.",
        options: &[],
        run: whom::whom,
    },
    Command {
        usage: "explain N [CALL [NAME]]",
        does: "the sentence of a refusal, and what to do",
        text: "N is the refusal's number, CALL one of founding, read, write, send, check, joining, round, move, chart, notice, and NAME the\nmachine that made it.",
        options: &[],
        run: explain::explain,
    },
    Command {
        usage: "replay LOG [FILE]",
        does: "makes the calls of a log, and shows the first answer that differs",
        text: "A line of a log is a call and, behind =, its answer:\n\n    found 10,20,30,40 length 16 = done 4\n    write 10 with 10,20,30 at 0 \"1-0\" = done 1 called 3\n    read 40 with 30,40 at 0 length 4 = done 1 called 4 \"1-0\".00\n    check 10 with 10,20,40 = done 1\n    send 10 40 with 10,40 = done 1\n    join 25 = refused 14\n    round with 10,20,40 order 10 at 0 \"1/2\" order 20 at 15 \"1-0\" = refused 4 1\n\nA founding may name capacity, files, tall and counties behind its length, a joining a county, and reads, writes and sends a file\nbehind those who answered, a write its club behind that, an order both behind its machine. Behind the refusal of a round stands how\nmany orders are done. sheet BYTES lends a sheet from then on; counted BYTES says what it is then.\ntable BYTES begins with a table instead; leaves BYTES says what the table is then. Bytes are text in quotes, figures of base\nsixteen, or one byte so many times, with points between them. ?7 is row 7, for rows that no machine has. # begins a comment. An\nanswer that is left out is not compared. With FILE, the table is kept there if nothing differs.",
        options: &[],
        run: replay::replay,
    },
    Command {
        usage: "chart FILE",
        does: "the wall chart of the list in force, with its names, as SVG",
        text: "Every smallest set of machines that is enough for a write. Lists of more than nine machines, and of several counties, have no\nchart.",
        options: &[],
        run: chart::chart,
    },
    Command {
        usage: "page FILE [OFF,..]",
        does: "one page of HTML, without script: grid, who is off or stale, verdicts, chart",
        text: "Redirect it to a file, as in gridctl page t.grid > status.html.",
        options: &[],
        run: page::page,
    },
];

const CALLS: [Command; 9] = [
    Command {
        usage: "found FILE NAMES [--length N] [--capacity N] [--files N] [--tall] [--counties N,..]",
        does: "founds a table on these machines, as in 10,20,30",
        text: "Files have 64 bytes and there is one of them, unless --length and --files say otherwise; --capacity leaves room for machines that\njoin. --tall is for tables that are read hundreds of times for each write. --counties gives each name its county, 1 to 8, as in\n1,1,2; without it all are of county 1. A FILE that ends in / becomes a folder.",
        options: &[("--length", true), ("--capacity", true), ("--files", true), ("--tall", false), ("--counties", true)],
        run: train::found,
    },
    Command {
        usage: "join FILE NAME [--county N]",
        does: "lets a machine join",
        text: "It counts in no quorum until a check with it on takes it into the list. Without --county it is of county 1. Before the first\nmachine of another county joins, read docs/COUNTIES.md: alone there, it cannot be spared any more once a check took it in.",
        options: &[("--county", true)],
        run: train::join,
    },
    Command {
        usage: "read FILE BY [OFF,..] [--file N] [--at N] [--length N]",
        does: "reads a file, machine BY being in charge",
        text: "The whole file, unless --at and --length say otherwise. It changes nothing.",
        options: &[("--file", true), ("--at", true), ("--length", true)],
        run: train::read,
    },
    Command {
        usage: "write FILE BY TEXT [OFF,..] [--file N] [--at N] [--hex] [--sheet SHEET --club N]",
        does: "lays TEXT over a file",
        text: "From the file's first byte on, unless --at says otherwise. With --hex, TEXT is bytes in figures of base sixteen.\nIt counts for a club on a sheet; without --sheet there are no limits.",
        options: &[("--file", true), ("--at", true), ("--hex", false), ("--sheet", true), ("--club", true)],
        run: train::write,
    },
    Command {
        usage: "round FILE LIST [OFF,..] [--sheet SHEET] [--from LINE] [--hex]",
        does: "enters the results of a list together, up to the first that is refused",
        text: "LIST is a file of plain text, or - for what is typed or piped in; a round enters 64 orders of it at most. A line is an order: the\nmachine in charge, the place in the file and 1 to 8 bytes of text:\n\n    # round 3\n    10 at 0 1-0\n    10 at 4 0-1 club 2\n    20 at 0 \"0 47\" file 2\n\nIt is of file 1 and counts for club 1, unless file and club say otherwise. # begins a comment, and a text with spaces stands in\nquotes. With --hex, texts are bytes in figures of base sixteen. A line that cannot be used is told before anything is done.\nWhere an order is refused, those before it are done and stay: --from enters the list from that line on. Without --sheet there\nare no limits.",
        options: &[("--sheet", true), ("--from", true), ("--hex", false)],
        run: round::round,
    },
    Command {
        usage: "send FILE FROM TO [OFF,..] [--file N]",
        does: "brings a stale copy up to that of another machine",
        text: "gridctl next lists the sends that are due.",
        options: &[("--file", true)],
        run: train::send,
    },
    Command {
        usage: "check FILE BY [OFF,..] [--sheet SHEET]",
        does: "makes those who are on the list in force",
        text: "They must hold a write quorum of the list before, and have the newest results of every file among them.\nWhere it changes the list, the counts of the sheet start anew.",
        options: &[("--sheet", true)],
        run: train::check,
    },
    Command {
        usage: "sheet SHEET [CLUBS TOTAL]",
        does: "shows the sheet of the clubs' writes, or makes one",
        text: "CLUBS are the assured number and the ceiling of the clubs 1 upward, as in 2/4,2/4,3/3, and TOTAL all that they write until a check\nchanges the list. A club that is not named may write nothing.",
        options: &[],
        run: sheet::sheet,
    },
    Command {
        usage: "carry FILE [FORM OUT]",
        does: "tells the form of a table, or carries it between forms 1 or 2 and 3",
        text: "The carried table goes into the file OUT. Nothing goes to form 4 or 5, or from them.",
        options: &[],
        run: carry::carry,
    },
];

const BELOW: &str = "\
FILE is a table, or a folder with a file `frame` and a file for each machine that answered, such as 10.row. OFF,.. are the
names of machines that are off, as in 10,20; all others are on. gridctl COMMAND --help tells more of one command.

Exit status: 0 done; 1 the library refused the call, or answers otherwise than a log; 2 arguments or files that cannot be used.
";

fn all() -> impl Iterator<Item = &'static Command> {
    LOOKS.iter().chain(&CALLS)
}

pub fn named(word: &str) -> Result<&'static Command, Stop> {
    let names = || all().map(Command::name).collect::<Vec<_>>().join(", ");
    all()
        .find(|command| command.name() == word)
        .ok_or_else(|| unusable(format!("there is no command {word}; there are {}", names())))
}

/// Every command in a line.
pub fn overview() -> String {
    let listed = |commands: &[Command]| -> String {
        commands.iter().map(|command| format!("  {:8} {}\n", command.name(), command.does)).collect()
    };
    format!(
        "gridctl: looks at a table of the dynamic grid, and makes calls to train on\n\nTo look and to ask (nothing is changed):\n{}\nTo train (FILE, and a sheet that is lent, is changed, unless the call is refused; by a round as far as it came):\n{}\n{BELOW}",
        listed(&LOOKS),
        listed(&CALLS)
    )
}

impl Command {
    fn name(&self) -> &'static str {
        self.usage.split(' ').next().unwrap_or(self.usage)
    }

    pub fn help(&self) -> String {
        let end = if self.does.ends_with('?') { "" } else { "." };
        format!("usage: gridctl {}\n\n{}: {}{end}\n\n{}\n", self.usage, self.name(), self.does, self.text)
    }
}
