//! Calls a second over loopback, with 4 and 9 machines, with and without fsync, and what part of the time is the library. Writes the
//! page that it is given, docs/RELAY-BENCH.md.

use dyngrid::Shape;
use relay::carrier::client::Reply;
use relay::carrier::cluster::{be_a_node, Cluster};
use relay::{Frame, Group, Outcome, Reach, Request};
use std::fmt::Write;
use std::hint::black_box;
use std::time::{Duration, Instant};
use std::{env, fs, io};

const TIME: Duration = Duration::from_secs(2);
const FILE_LEN: usize = 1024;

struct Measured {
    machines: u16,
    sync: bool,
    what: &'static str,
    calls: usize,
    /// Seconds for each call, and microseconds of these in the library.
    each: f64,
    library: f64,
}

fn main() -> io::Result<()> {
    be_a_node();
    let mut measured = Vec::new();
    for machines in [4, 9] {
        for sync in [false, true] {
            let mut cluster = Cluster::new(sync)?;
            cluster.found(group(machines), machines)?;
            for (what, request) in requests() {
                let (calls, each) = measure(&cluster, &request)?;
                let library = library(machines, &request)?;
                eprintln!("{machines} machines, fsync {sync}, {what}: {:.0} calls a second", 1.0 / each);
                measured.push(Measured { machines, sync, what, calls, each, library });
            }
        }
    }
    let page = page(&measured);
    match env::args().nth(1) {
        Some(path) => fs::write(path, page),
        None => {
            print!("{page}");
            Ok(())
        }
    }
}

fn group(machines: u16) -> Group {
    Group { capacity: machines.into(), files: 1, file_len: FILE_LEN, shape: Shape::Wide }
}

fn requests() -> [(&'static str, Request); 2] {
    [
        ("read", Request::Read { file: 1, offset: 0, length: 16 }),
        ("write", Request::Write { file: 1, offset: 0, patch: vec![7; 16] }),
    ]
}

/// One client, one call after the other, by machine 1.
fn measure(cluster: &Cluster, request: &Request) -> io::Result<(usize, f64)> {
    let mut client = cluster.client(1)?;
    let (begun, mut calls) = (Instant::now(), 0);
    while begun.elapsed() < TIME {
        match client.call(request.clone())? {
            Reply::Told(Outcome::Done { .. }) => calls += 1,
            other => return Err(io::Error::other(format!("{request:?} ended so: {other:?}"))),
        }
    }
    Ok((calls, begun.elapsed().as_secs_f64() / calls as f64))
}

/// The library's part of such a call, alone: whom to call, and the decision on the rows of these; in microseconds.
fn library(machines: u16, request: &Request) -> io::Result<f64> {
    let names: Vec<u16> = (1..=machines).collect();
    let (frame, rows) = Frame::found(group(machines), &names).map_err(io::Error::other)?;
    let whom = request.whom(Reach::Choice, &frame, Some((1, &rows[0])));
    let heard: Vec<(usize, &[u8])> = whom.iter().map(|row| (row, &rows[row - 1][..])).collect();
    let rounds = 2000;
    let begun = Instant::now();
    for _ in 0..rounds {
        black_box(request.whom(Reach::Choice, black_box(&frame), Some((1, &rows[0]))));
        black_box(request.decide((1, 1), black_box(&frame), &heard).map_err(io::Error::other)?);
    }
    Ok(begun.elapsed().as_secs_f64() * 1e6 / f64::from(rounds))
}

fn page(measured: &[Measured]) -> String {
    let mut page = String::from(
        "# The relay's calls a second

`make relay-bench` writes this page: machines as processes on 127.0.0.1 (`host/relay`), one client that calls machine 1, one call after the
other, a file of 1,024 bytes, 16 bytes read or written. Without fsync a row survives a crash of the process and not one of the machine.
The library's part is whom to call and the decision, putting the tables together included, measured alone in the same run.

| machines | fsync | call | calls | a second | a call, µs | of these the library, µs | part |
|---:|---|---|---:|---:|---:|---:|---:|
",
    );
    for Measured { machines, sync, what, calls, each, library } in measured {
        let micros = each * 1e6;
        let _ = writeln!(
            page,
            "| {machines} | {} | {what} | {calls} | {:.0} | {micros:.0} | {library:.1} | {:.1} % |",
            if *sync { "yes" } else { "no" },
            1.0 / each,
            100.0 * library / micros
        );
    }
    page
}
