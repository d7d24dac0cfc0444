//! Five machines as processes on 127.0.0.1: results are written and read while machines are killed and come back, and one joins. Run with
//! `cargo run --example cluster`; it ends by itself.

use dyngrid::Shape;
use relay::carrier::client::Reply;
use relay::carrier::cluster::{be_a_node, timed, upkeep, Cluster};
use relay::{Group, Outcome, Request};
use std::io;

const RESULTS: usize = 1;
const CLOCKS: usize = 2;

fn main() -> io::Result<()> {
    be_a_node();
    let mut club = Club { cluster: Cluster::new(true)? };
    club.cluster.found(Group { capacity: 6, files: 2, file_len: 16, shape: Shape::Wide }, 5)?;
    println!(
        "machines 1 to 5 are up, with two files of 16 bytes; their rows are in files, written with fsync\n"
    );

    club.write(1, RESULTS, "1-0")?;
    club.write(4, CLOCKS, "0:47")?;
    club.read(3, RESULTS)?;
    club.show(1)?;

    club.kill(2);
    club.write(3, RESULTS, "0-1")?;
    club.upkeep(1, "a check leaves 2 out")?;
    club.kill(5);
    club.write(4, CLOCKS, "1:02")?;
    club.read(1, CLOCKS)?;
    club.show(1)?;

    club.start(2)?;
    club.start(5)?;
    club.upkeep(1, "a check takes them in, and sends bring them up")?;
    club.read(2, RESULTS)?;
    club.read(5, CLOCKS)?;

    println!("machine 6 joins");
    club.cluster.start(6)?;
    let (joined, took) = timed(|| club.cluster.client(6)?.call(Request::Join));
    println!("  {} ({took:.1} ms)", told(&joined?));
    club.cluster.wait_for(6)?;
    club.upkeep(1, "a check takes it in, and sends bring it up")?;
    club.read(6, RESULTS)?;
    club.upkeep(6, "the refresh of rows that no choice reaches")?;
    club.show(6)?;
    println!("done; all processes and folders are gone");
    Ok(())
}

struct Club {
    cluster: Cluster,
}

impl Club {
    fn call(&self, by: u16, request: Request) -> io::Result<(Reply, f64)> {
        let mut client = self.cluster.client(by)?;
        let (reply, took) = timed(|| client.call(request));
        Ok((reply?, took))
    }

    fn write(&self, by: u16, file: usize, entry: &str) -> io::Result<()> {
        let (reply, took) =
            self.call(by, Request::Write { file, offset: 0, patch: entry.as_bytes().to_vec() })?;
        println!("write of {entry:?} in file {file} by machine {by}: {} ({took:.1} ms)", told(&reply));
        Ok(())
    }

    fn read(&self, by: u16, file: usize) -> io::Result<()> {
        let (reply, took) = self.call(by, Request::Read { file, offset: 0, length: 4 })?;
        println!("read of file {file} by machine {by}: {} ({took:.1} ms)", told(&reply));
        Ok(())
    }

    fn upkeep(&self, by: u16, what: &str) -> io::Result<()> {
        let mut client = self.cluster.client(by)?;
        let (made, took) = timed(|| upkeep(&mut client, by.into(), true));
        println!("upkeep by machine {by}, {} calls: {what} ({took:.1} ms)", made?);
        Ok(())
    }

    fn kill(&mut self, name: u16) {
        self.cluster.kill(name);
        println!("machine {name} is killed");
    }

    fn start(&mut self, name: u16) -> io::Result<()> {
        self.cluster.start(name)?;
        self.cluster.wait_for(name)?;
        println!("machine {name} is back, with what is on its disk");
        Ok(())
    }

    /// The rows of all that answer.
    fn show(&self, by: u16) -> io::Result<()> {
        match self.cluster.client(by)?.survey()? {
            Some((table, rows)) => println!("\nrows {rows} answer machine {by}:\n{table}\n"),
            None => println!("nobody answers machine {by}"),
        }
        Ok(())
    }
}

fn told(reply: &Reply) -> String {
    match reply {
        Reply::Told(Outcome::Done { value, bytes }) if bytes.is_empty() => format!("done, {value}"),
        Reply::Told(Outcome::Done { value, bytes }) => {
            format!("version {value}, {:?}", String::from_utf8_lossy(bytes).trim_end_matches('\0'))
        }
        Reply::Told(Outcome::Refused(refusal)) => refusal.to_string(),
        other => format!("{other:?}"),
    }
}
